//! The strict reader against the independent second program: the number, the seed, the returned state, the place of 9,
//! and every lent byte, with guards on both sides of every lent slice.
//!
//! `HT_FUZZ_STEPS` is the number of steps of `random_steps`, 8,000 without it.

mod common;

use common::reading::{
    any_room, any_state, edge_length, few_symbols, flip_label_bit, kind, number_of, own_numbers,
    payload_bits_before, place_of, refused_settings, state_of, symbol, symbol_from, Both, Damage,
    Edge, Frame, Kind, Lent, Stepped, ENDED, NO_STATE,
};
use common::{
    any_settings, count_from, numbered, second_open, typed_settings, widths_and_mcs, Draw, GOOD,
};
use ht_core::raw::{reader_place, reader_start, reader_step};
use ht_core::{
    floats_per_symbol, points, symbol_count, OpenSettings, ReadRefusal, Reader, Refusal, Settings,
    Step, Width, MAX_FLOATS,
};
use second::State;

/// The start against the second program: any of refusals 1 to 4 at once, by a mask.
#[test]
fn start_and_its_refusals_in_order() {
    let mut draw = Draw::new(51);
    let mut given = [0; 5];
    for mask in 0..16u32 {
        for (width, mcs) in widths_and_mcs() {
            let length = 1 + draw.below(65_535) as u32;
            let mut open = OpenSettings::from(any_settings(width, mcs, length, &mut draw));
            if mask & 1 == 1 {
                open.width = draw.of(&[0, 19, 21, 41, 276, 65_556, u32::MAX]);
            }
            if mask & 2 == 2 {
                open.mcs = draw.of(&[32, 33, 256, 287, 65_536, u32::MAX]);
            }
            if mask & 4 == 4 {
                open.format = draw.of(&[2, 256, 257, 65_536, u32::MAX]);
            }
            if mask & 8 == 8 {
                open.length = draw.of(&[0, 65_536, 65_537, 1 << 24 | 1, u32::MAX]);
            }
            let got = numbered(reader_start(open));
            let want = second::reader_start(&second_open(open)).map(|state| number_of(&state));
            assert_eq!(got, want, "{open:?}");
            let first = match mask {
                0 => Ok(0),
                _ => Err(mask.trailing_zeros() + 1),
            };
            assert_eq!(got, first, "{open:?}");
            given[got.err().unwrap_or(0) as usize] += 1;
        }
    }
    assert_eq!(given, [64, 8 * 64, 4 * 64, 2 * 64, 64]);
}

/// Reads a frame from the start to its last symbol by both programs, then one step more. After each step the payload
/// slice holds the bytes that are complete, and the rest of it is as it was.
fn read_back(s: Settings, both: &mut Both, draw: &mut Draw) {
    let open = OpenSettings::from(s);
    let payload = draw.bytes(s.length as usize);
    let count = symbol_count(s).unwrap() as usize;
    let mut lent = Lent::new(payload.len() + draw.of(&[0, 0, 1, 17]), draw);
    let mut state = reader_start(s).unwrap();
    let mut want = lent.bytes().to_vec();
    for n in 0..count {
        let (step, place) = both.step(s, state, &symbol(s, &payload, n), &mut lent);
        let seed = if n == 0 { s.seed } else { 0 };
        assert_eq!(
            (step.number, step.seed, place),
            (0, seed, Ok(None)),
            "{s:?}"
        );
        let [from, to] = [n, n + 1].map(|n| payload_bits_before(open, n) / 8);
        want[from..to].copy_from_slice(&payload[from..to]);
        assert!(lent.bytes() == want, "bytes of symbol {n} of {s:?}");
        state = step.state;
        assert_eq!(state_of(state).symbol, n as u64 + 1);
        assert_eq!(state_of(state).ended, n + 1 == count, "symbol {n} of {s:?}");
    }
    assert!(lent.bytes()[..payload.len()] == payload, "{s:?}");
    let last = symbol(s, &payload, count - 1);
    assert_eq!(both.step(s, state, &last, &mut lent).0.number, 12, "{s:?}");
}

/// Every MCS, width and format; the shortest lengths, about three symbols, and the edges of tail and pad.
#[test]
fn frames_of_every_mcs_width_format_and_edge_length() {
    let mut draw = Draw::new(52);
    let mut both = Both::default();
    let mut frames = 0;
    let mut symbols = 0;
    let mut edges = [0; 3];
    for (width, mcs) in widths_and_mcs() {
        let d = second::data_bits_per_symbol(width, mcs);
        let mut lengths = vec![1, 2, 3 * d / 8];
        for edge in [Edge::TailInTwo, Edge::TailBegins, Edge::NoPad] {
            let length = edge_length(width, mcs, edge);
            edges[edge as usize] += length.iter().len();
            lengths.extend(length);
        }
        for format in 0..2u32 {
            for length in &lengths {
                let s = any_settings(width, mcs, *length, &mut draw).format(format);
                read_back(s, &mut both, &mut draw);
                frames += 1;
                symbols += (16 + 8 * length + 6 * second::encoders(mcs)).div_ceil(d) as usize;
            }
        }
    }
    // Not all of the 64 MCS and widths have each edge.
    assert_eq!(edges, [50, 64, 18]);
    assert_eq!(frames, 2 * (64 * 3 + 50 + 64 + 18));
    // One step too many for each frame; all others are accepted.
    assert_eq!(both.given[12], frames);
    assert_eq!((both.given[0], symbols), (1_450, 1_450));
    assert_eq!(both.steps(), symbols + frames);
    assert!(both.bytes > 200_000, "{} bytes", both.bytes);
}

/// Every seed is in the answer to symbol 0.
#[test]
fn every_seed_is_read() {
    let mut draw = Draw::new(53);
    let mut both = Both::default();
    for seed in 1..=127 {
        for (width, mcs, length) in [(20, 0, 1), (20, 18, 5), (40, 9, 30)] {
            let s = any_settings(width, mcs, length, &mut draw);
            read_back(s.seed(seed), &mut both, &mut draw);
        }
    }
    assert_eq!(both.given[12], 3 * 127);
    assert_eq!(both.given[0], (2 + 1 + 2) * 127);
    assert_eq!(both.steps(), (2 + 1 + 2 + 3) * 127);
}

/// The longest frames by the core, and some of their steps by both programs. Every byte is another before it is read.
#[test]
fn the_longest_frames() {
    let mut draw = Draw::new(54);
    let mut both = Both::default();
    let mut read = 0;
    for (width, mcs, every) in [(20, 0, 997), (20, 15, 97), (40, 18, 97), (40, 31, 31)] {
        let s = any_settings(width, mcs, 65_535, &mut draw);
        let open = OpenSettings::from(s);
        let payload = draw.bytes(65_535);
        let count = symbol_count(s).unwrap() as usize;
        let mut lent = Lent::new(65_535, &mut draw);
        for (place, byte) in lent.slice().iter_mut().zip(&payload) {
            *place = !byte;
        }
        let mut state = reader_start(s).unwrap();
        for n in 0..count {
            let mut floats = [0.0; MAX_FLOATS];
            let needed = points(s, &payload, n as u32, &mut floats).unwrap();
            let floats = &floats[..needed];
            let step = if n % every == 0 || n + 1 == count {
                both.step(s, state, floats, &mut lent).0
            } else {
                reader_step(s, state, floats, lent.slice()).into()
            };
            let seed = if n == 0 { s.seed } else { 0 };
            assert_eq!((step.number, step.seed), (0, seed), "symbol {n} of {s:?}");
            state = step.state;
            // The last byte that is complete, and the first that is not.
            let done = payload_bits_before(open, n + 1) / 8;
            if done > 0 {
                assert_eq!(lent.bytes()[done - 1], payload[done - 1]);
            }
            if done < payload.len() {
                assert_eq!(lent.bytes()[done], !payload[done]);
            }
            read += 1;
        }
        assert!(lent.bytes() == payload, "{s:?}");
        assert_eq!(state_of(state).symbol, count as u64);
        assert!(state_of(state).ended);
    }
    assert_eq!(read, 20_166 + 1_009 + 1_079 + 243);
    assert_eq!(both.given[0], both.steps());
    assert_eq!(both.steps(), 21 + 1 + 11 + 1 + 12 + 1 + 8 + 1);
}

/// Damage of every kind to a symbol of a frame that was read up to it.
#[test]
fn damage_of_every_kind() {
    const TURNS: usize = 3;
    let mut draw = Draw::new(55);
    let mut both = Both::default();
    let mut given = [[0; 13]; Damage::ALL.len()];
    let mut elsewhere = 0;
    for (width, mcs) in widths_and_mcs() {
        for _ in 0..TURNS {
            let frame = Frame::any(width, mcs, 4, &mut draw);
            for (damage, given) in Damage::ALL.into_iter().zip(&mut given) {
                // The first symbol from any one on that has a place for it.
                let first = draw.below(frame.count() as u64) as usize;
                for n in (first..frame.count()).chain(0..first) {
                    let mut floats = frame.symbols[n].clone();
                    if !damage.apply(&frame, n, &mut floats, &mut draw) {
                        continue;
                    }
                    let room = frame.payload.len() + draw.of(&[0, 0, 3]);
                    let mut lent = Lent::new(room, &mut draw);
                    let (step, _) = both.step(frame.open, frame.states[n], &floats, &mut lent);
                    if let Some(number) = damage.always() {
                        assert_eq!(step.number, number, "{damage:?}, {n} of {:?}", frame.s);
                    }
                    given[step.number as usize] += 1;
                    elsewhere += usize::from(n > 0);
                    break;
                }
            }
        }
    }
    for (damage, given) in Damage::ALL.into_iter().zip(&given) {
        let done: usize = given.iter().sum();
        // A frame of one symbol has none before or after.
        assert!(done > 40 * TURNS, "{damage:?} {given:?}");
    }
    let of = |damage: Damage| given[damage as usize];
    // What a bit or a point was turned into is judged by the place that it has.
    assert!(of(Damage::FloatBit)[9] > 50 * TURNS && of(Damage::FloatBit)[10] > 0);
    assert!(of(Damage::OtherPoint)[10] > 50 * TURNS);
    // A payload that differs only in this symbol's own bits, or after them, is accepted.
    for damage in [Damage::OtherPayload, Damage::OtherSeed, Damage::PayloadBit] {
        assert!(of(damage)[0] > 10 && of(damage)[10] > 0, "{damage:?}");
    }
    assert!(of(Damage::OtherLength)[0] > 10 && of(Damage::OtherLength)[11] > 10);
    assert!(of(Damage::OtherFormat)[0] > 10 && of(Damage::OtherFormat)[9] > 10);
    assert!(
        elsewhere > 500 * TURNS,
        "{elsewhere} symbols after the first"
    );
    let [accepted, .., point, code, frame, _] = both.given;
    assert!(accepted > 200 * TURNS, "{:?}", both.given);
    assert!(point > 500 * TURNS, "{:?}", both.given);
    assert!(code > 200 * TURNS, "{:?}", both.given);
    assert!(frame > 200 * TURNS, "{:?}", both.given);
}

/// Of several points that fail, the first is given: streams in order, subcarriers rising, data and pilots together.
#[test]
fn the_first_failing_point_is_the_place() {
    let mut draw = Draw::new(56);
    let mut both = Both::default();
    let mut pilots = 0;
    for (width, mcs) in widths_and_mcs() {
        let frame = Frame::any(width, mcs, 3, &mut draw);
        for turn in 0..8 {
            let n = draw.below(frame.count() as u64) as usize;
            let mut floats = frame.symbols[n].clone();
            let count = floats.len() as u64 / 2;
            // Two to six points; every other turn far up, so that many pass before.
            let lowest = if turn % 2 == 0 { 0 } else { count - 20 };
            let mut failing: Vec<usize> = (0..2 + draw.below(5))
                .map(|_| (lowest + draw.below(count - lowest)) as usize)
                .collect();
            for point in &failing {
                let strange = draw.of(&[2.0, f32::NAN, -0.0, f32::INFINITY, 9.0, 1e-40]);
                floats[2 * point + draw.below(2) as usize] = strange;
            }
            failing.sort();
            let want = place_of(width, failing[0]);
            let used = count as usize / (mcs as usize / 8 + 1);
            pilots += usize::from(common::pilot_places(width).0.contains(&(failing[0] % used)));
            let mut lent = Lent::new(frame.payload.len(), &mut draw);
            let (step, place) = both.step(frame.open, frame.states[n], &floats, &mut lent);
            assert_eq!((step.number, place), (9, Ok(Some(want))), "{:?}", frame.s);
        }
    }
    assert_eq!(both.given[9], 64 * 8);
    assert!(pilots > 10, "{pilots} of the places were pilots");
}

/// Every point of some symbols alone, by its first float and by its second.
#[test]
fn every_point_is_looked_at() {
    let mut draw = Draw::new(57);
    let mut both = Both::default();
    for width in [20, 40] {
        // One to four streams; 1, 2, 4 and 6 bits per carrier.
        for mcs in [0, 9, 19, 31] {
            let frame = Frame::any(width, mcs, 3, &mut draw);
            let n = draw.below(frame.count() as u64) as usize;
            let mut lent = Lent::new(frame.payload.len(), &mut draw);
            for point in 0..frame.symbols[n].len() / 2 {
                let mut floats = frame.symbols[n].clone();
                floats[2 * point + draw.below(2) as usize] = draw.of(&[f32::NAN, 2.0, -0.0]);
                let (step, place) = both.step(frame.open, frame.states[n], &floats, &mut lent);
                assert_eq!(step.number, 9);
                assert_eq!(place, Ok(Some(place_of(width, point))), "{:?}", frame.s);
            }
        }
    }
    assert_eq!(both.given[9], (1 + 2 + 3 + 4) * (56 + 114));
}

/// With one bit per carrier every point has one zero, above 0 at 40 MHz in its first float: as -0 it is 9.
#[test]
fn every_zero_has_a_clear_sign() {
    let mut draw = Draw::new(58);
    let mut both = Both::default();
    let mut first_floats = 0;
    for width in [20, 40] {
        for mcs in [0, 8, 16, 24] {
            let frame = Frame::any(width, mcs, 3, &mut draw);
            let n = draw.below(frame.count() as u64) as usize;
            let mut lent = Lent::new(frame.payload.len(), &mut draw);
            for place in 0..frame.symbols[n].len() {
                let mut floats = frame.symbols[n].clone();
                if floats[place].to_bits() != 0 {
                    continue;
                }
                floats[place] = -0.0;
                let (step, got) = both.step(frame.open, frame.states[n], &floats, &mut lent);
                let want = place_of(width, place / 2);
                assert_eq!((step.number, got), (9, Ok(Some(want))), "{:?}", frame.s);
                let first = place % 2 == 0;
                assert_eq!(first, width == 40 && want.1 > 0);
                first_floats += usize::from(first);
            }
        }
    }
    assert_eq!(both.given[9], 10 * (56 + 114));
    assert_eq!(first_floats, 10 * 57);
}

/// Every bit of every float of a symbol: only the sign of a data level leads to another point.
#[test]
fn every_bit_of_every_float() {
    let mut draw = Draw::new(59);
    for (width, points, data) in [(20, 56, 52), (40, 114, 108)] {
        let mut both = Both::default();
        let frame = Frame::any(width, 0, 4, &mut draw);
        let n = draw.below(frame.count() as u64) as usize;
        let mut lent = Lent::new(frame.payload.len(), &mut draw);
        for place in 0..frame.symbols[n].len() {
            for bit in 0..32 {
                let mut floats = frame.symbols[n].clone();
                floats[place] = f32::from_bits(floats[place].to_bits() ^ 1 << bit);
                let (step, got) = both.step(frame.open, frame.states[n], &floats, &mut lent);
                let place = (step.number == 9).then(|| place_of(width, place / 2));
                assert_eq!(got, Ok(place));
            }
        }
        assert_eq!(both.steps(), 2 * points * 32);
        assert_eq!(both.given[9], 2 * points * 32 - data);
        // At rate 1/2 one wrong coded bit has no data bits, unless it is among the last.
        assert!(both.given[10] > data - 8, "{:?}", both.given);
    }
}

/// Every coded bit of some symbols turned over, alone. Of a step of which A and B are kept, either is 10.
#[test]
fn every_coded_bit() {
    let mut draw = Draw::new(70);
    let mut both = Both::default();
    let mut doubly_kept = 0;
    // One encoder and two; rates 1/2 and 3/4.
    for mcs in [0, 2, 16, 18] {
        let names = second::names_at_places(20, mcs);
        let period = second::pattern(second::rate(mcs)).len();
        let d = second::data_bits_per_symbol(20, mcs);
        let s = any_settings(20, mcs, 3 * d / 8, &mut draw);
        let frame = Frame::new(s, &mut draw);
        let last = frame.count() - 1;
        for n in [0, 1, last] {
            let mut lent = Lent::new(frame.payload.len(), &mut draw);
            for (stream, places) in names.iter().enumerate() {
                for (place, name) in places.iter().enumerate() {
                    let mut floats = frame.symbols[n].clone();
                    assert!(flip_label_bit(frame.open, &mut floats, stream, place));
                    let (step, _) = both.step(frame.open, frame.states[n], &floats, &mut lent);
                    if name.unwrap().number % period < 2 {
                        assert_eq!(step.number, 10, "{name:?} of symbol {n} of {s:?}");
                        doubly_kept += 1;
                    }
                }
            }
        }
    }
    assert_eq!(both.steps(), 3 * (52 + 104 + 156 + 312));
    assert_eq!(doubly_kept, 3 * (52 + 52 + 156 + 156));
    assert!(both.given[10] > doubly_kept, "{:?}", both.given);
}

/// States that no frame leads to, but in range: they are believed. First symbols made for them, which are accepted; then
/// the frame's own symbols from them.
#[test]
fn forged_states_in_range_are_believed() {
    let mut draw = Draw::new(60);
    let mut made = Both::default();
    let mut own = Both::default();
    let mut second_history = 0;
    for (width, mcs) in widths_and_mcs() {
        for turn in 0..4 {
            let frame = Frame::any(width, mcs, 4, &mut draw);
            let n = match turn {
                0 => 0,
                1 => frame.count() - 1,
                _ => draw.below(frame.count() as u64) as usize,
            };
            let state = any_state(frame.open, n, &mut draw);
            let floats = symbol_from(frame.open, &state, &mut draw);
            let mut lent = Lent::new(frame.payload.len(), &mut draw);
            let (step, _) = made.step(frame.open, number_of(&state), &floats, &mut lent);
            assert_eq!(step.number, 0, "{state:?} of {:?}", frame.s);
            assert_eq!(step.seed > 0, n == 0);
            // With one encoder the second history stays as given.
            if mcs < 16 {
                assert_eq!(state_of(step.state).history[1], state.history[1]);
                second_history += usize::from(state.history[1] > 0);
            }

            // The frame's own state with a field forged, or all of them.
            let right = state_of(frame.states[n]);
            let forged = if turn % 2 == 0 {
                let history = state.history;
                [State { history, ..right }, state]
            } else {
                let State {
                    scrambler, part, ..
                } = state;
                [State { scrambler, ..right }, State { part, ..right }]
            };
            for state in forged {
                let floats = &frame.symbols[n];
                let (step, place) = own.step(frame.open, number_of(&state), floats, &mut lent);
                assert_eq!(place, Ok(None));
                assert!([0, 10, 11].contains(&step.number), "{state:?}");
            }
        }
    }
    assert_eq!(made.given[0], 64 * 4);
    assert!(second_history > 32 * 3, "{second_history}");
    let [accepted, .., code, frame, _] = own.given;
    assert_eq!(own.steps(), 64 * 4 * 2);
    assert!(accepted > 60 && code > 60 && frame > 60, "{:?}", own.given);
}

/// Document 01's range of a state, for accepted settings.
fn in_range(open: OpenSettings, count: usize, state: &State) -> bool {
    let symbol = state.symbol as usize;
    !state.ended
        && symbol < count
        && state.history.iter().all(|history| *history < 64)
        && (symbol == 0 || (1..=127).contains(&state.scrambler))
        && state.part < 1 << (payload_bits_before(open, symbol) % 8)
}

/// Each field at the edges of its range, and the end mark.
#[test]
fn the_edges_of_the_ranges() {
    let mut draw = Draw::new(61);
    let mut both = Both::default();
    let mut closed = 0;
    let mut parts = [0; 8];
    for (width, mcs) in widths_and_mcs() {
        let frame = Frame::any(width, mcs, 4, &mut draw);
        let (open, count) = (frame.open, frame.count());
        for n in [0, draw.below(count as u64) as usize] {
            let right = state_of(frame.states[n]);
            let long = payload_bits_before(open, n) % 8;
            parts[long] += 1;
            let mut states = vec![State {
                ended: true,
                ..right
            }];
            for history in [0, 63, 64, 128, 255] {
                let [first, second] = right.history;
                states.extend(
                    [[history, second], [first, history], [history; 2]]
                        .map(|history| State { history, ..right }),
                );
            }
            for scrambler in [0, 1, 127, 128, 129, 255] {
                states.push(State { scrambler, ..right });
            }
            for part in [0, (1 << long) - 1, 1 << long, 128, 255] {
                states.push(State { part, ..right });
            }
            for symbol in [0, 1, count - 1, count, count + 1, 256, 32_768, 65_535] {
                // With the part that the right state has, and with none.
                let symbol = symbol as u64;
                states.push(State { symbol, ..right });
                states.push(State {
                    symbol,
                    part: 0,
                    scrambler: 1,
                    ..right
                });
            }
            let mut lent = Lent::new(frame.payload.len(), &mut draw);
            for state in &states {
                let floats = frame.symbols.get(state.symbol as usize);
                let floats = floats.unwrap_or(&frame.symbols[n]);
                let (step, _) = both.step(open, number_of(state), floats, &mut lent);
                let is_closed = !in_range(open, count, state);
                assert_eq!(step.number == 12, is_closed, "{state:?} of {open:?}");
                closed += usize::from(is_closed);
            }
        }
    }
    assert_eq!(both.steps(), 64 * 2 * (1 + 15 + 6 + 5 + 16));
    assert_eq!(both.given[12], closed);
    assert!(closed > 64 * 2 * 15, "{:?}", both.given);
    assert!(both.given[0] > 64 * 2 * 6, "{:?}", both.given);
    // Parts of every even length at least: bytes and symbols have an even number of bits.
    assert!(
        [0, 2, 4, 6].iter().all(|long| parts[*long] > 0),
        "{parts:?}"
    );
}

/// Past the payload the part is empty, however many data bits of the symbols before are not service bits: here the tail
/// stands in two symbols, and the last one is read.
#[test]
fn past_the_payload_the_part_is_empty() {
    let mut draw = Draw::new(71);
    let mut both = Both::default();
    let mut frames = 0;
    for (width, mcs) in widths_and_mcs() {
        let Some(length) = edge_length(width, mcs, Edge::TailInTwo) else {
            continue;
        };
        frames += 1;
        let frame = Frame::new(any_settings(width, mcs, length, &mut draw), &mut draw);
        let last = frame.count() - 1;
        let right = state_of(frame.states[last]);
        let mut lent = Lent::new(frame.payload.len(), &mut draw);
        for part in [0, 1, 2, 3, 128, 255] {
            let state = number_of(&State { part, ..right });
            let (step, _) = both.step(frame.open, state, &frame.symbols[last], &mut lent);
            let want = if part == 0 { 0 } else { 12 };
            assert_eq!(step.number, want, "part {part} of {:?}", frame.s);
        }
    }
    assert_eq!(frames, 50);
    assert_eq!((both.given[0], both.given[12]), (50, 50 * 5));
}

/// Every scrambler before symbols 0 and 1, and every history and every part before symbol 1: all 256 numbers.
#[test]
fn every_number_of_a_field() {
    let mut draw = Draw::new(62);
    let mut both = Both::default();
    for mcs in [0, 20] {
        // Symbol 1 has 10 payload bits before it at MCS 0, and 452 at MCS 20.
        let frame = Frame::new(any_settings(20, mcs, 150, &mut draw), &mut draw);
        let mut lent = Lent::new(150, &mut draw);
        for n in [0, 1] {
            let right = state_of(frame.states[n]);
            for number in 0..256 {
                let [first, second] = right.history;
                let states = [
                    State {
                        scrambler: number,
                        ..right
                    },
                    State {
                        history: [number, second],
                        ..right
                    },
                    State {
                        history: [first, number],
                        ..right
                    },
                    State {
                        part: number,
                        ..right
                    },
                ];
                for state in states {
                    let floats = &frame.symbols[n];
                    let (step, _) = both.step(frame.open, number_of(&state), floats, &mut lent);
                    let range = in_range(frame.open, frame.count(), &state);
                    assert_eq!(step.number != 12, range, "{state:?}");
                }
            }
        }
    }
    assert_eq!(both.steps(), 2 * 2 * 256 * 4);
    // Histories from 64 on; before symbol 1 scramblers other than 1 to 127; parts of more than 0 bits before symbol 0,
    // and before symbol 1 of more than 2 (MCS 0) or 4 (MCS 20).
    let before_0 = 2 * 192 + 255;
    let before_1 = 2 * 192 + 129;
    assert_eq!(
        both.given[12],
        2 * (before_0 + before_1) + (256 - 4) + (256 - 16)
    );
}

/// A number of 2^49 or more is no state, whatever its lower bits are. What comes back is closed: modulo 2^48 with its end marked,
/// and every further step from it is 12 and gives it back again.
#[test]
fn numbers_of_2_to_the_49_and_more() {
    let mut draw = Draw::new(63);
    let mut both = Both::default();
    for (width, mcs) in widths_and_mcs() {
        let frame = Frame::any(width, mcs, 2, &mut draw);
        let floats = &frame.symbols[0];
        let mut lent = Lent::new(frame.payload.len(), &mut draw);
        for place in 49..64 {
            for state in [
                1 << place,
                frame.states[0] | 1 << place,
                (1 << place) + draw.below(NO_STATE),
                u64::MAX - draw.below(1 << 40),
            ] {
                let (step, place) = both.step(frame.open, state, floats, &mut lent);
                let want = Stepped {
                    number: 12,
                    seed: 0,
                    state: state % ENDED + ENDED,
                };
                assert_eq!((step, place), (want, Err(12)));
                assert_eq!(
                    both.step(frame.open, step.state, floats, &mut lent),
                    (want, Err(12))
                );
            }
        }
        // The numbers below it: all of an ended state.
        let state = NO_STATE - 1;
        let (step, _) = both.step(frame.open, state, floats, &mut lent);
        assert_eq!((step.number, step.state), (12, state));
    }
    assert_eq!(both.given[12], 64 * (15 * 4 * 2 + 1));
}

/// With settings that are refused every state is closed: 12, and never 1 to 4.
#[test]
fn refused_settings_are_12() {
    let mut draw = Draw::new(64);
    let mut both = Both::default();
    for (width, mcs) in widths_and_mcs() {
        let frame = Frame::any(width, mcs, 2, &mut draw);
        for number in [1, 1, 2, 2, 3, 3, 4, 4] {
            let open = refused_settings(frame.open, number, &mut draw);
            assert_eq!(numbered(reader_start(open)), Err(number as u32));
            let n = draw.below(frame.count() as u64) as usize;
            // Slices that would do, and none.
            let room = draw.of(&[0, 70_000]);
            let mut lent = Lent::new(room, &mut draw);
            let floats = draw.of(&[&frame.symbols[n][..], &[0.0; MAX_FLOATS], &[]]);
            let (step, place) = both.step(open, frame.states[n], floats, &mut lent);
            assert_eq!((step.number, place), (12, Err(12)), "{open:?}");
        }
    }
    assert_eq!(both.given[12], 64 * 8);
}

/// Points and payload slices of lengths around the needed ones: 8 before the points are looked at, and also for a symbol
/// without a payload bit.
#[test]
fn short_slices_are_8() {
    let mut draw = Draw::new(65);
    let mut both = Both::default();
    let mut without_payload = 0;
    for (width, mcs) in widths_and_mcs() {
        let length = edge_length(width, mcs, Edge::TailBegins).unwrap();
        let frame = Frame::new(any_settings(width, mcs, length, &mut draw), &mut draw);
        let last = frame.count() - 1;
        assert_eq!(
            kind(frame.open, own_numbers(frame.open, last).start),
            Kind::Tail
        );
        let (need, length) = (frame.symbols[0].len(), length as usize);
        for n in [draw.below(last as u64) as usize, last] {
            // Long enough for either, with what is too much of it.
            let mut floats = frame.symbols[n].clone();
            floats.push(f32::NAN);
            for count in [0, 1, need - 2, need - 1, need, need + 1] {
                for room in [0, length - 1, length, length + 1] {
                    let mut lent = Lent::new(room, &mut draw);
                    let floats = &floats[..count];
                    let (step, place) = both.step(frame.open, frame.states[n], floats, &mut lent);
                    let short = count < need || room < length;
                    let want = if short { 8 } else { 0 };
                    assert_eq!(step.number, want, "{count}, {room} of {:?}", frame.s);
                    assert_eq!(place, if count < need { Err(8) } else { Ok(None) });
                    without_payload += usize::from(n == last && short);
                }
            }
        }
    }
    assert_eq!(both.given[0], 64 * 2 * 4);
    assert_eq!(both.given[8], 64 * 2 * 20);
    assert_eq!(without_payload, 64 * 20);
}

/// Any of 12, 8, 9, 10 and 11 at once, by a mask: the first in this order is given.
#[test]
fn the_order_is_12_8_9_10_11() {
    const ORDER: [u32; 5] = [12, 8, 9, 10, 11];
    let mut draw = Draw::new(66);
    let mut both = Both::default();
    for mask in 0..32u32 {
        for _ in 0..16 {
            let frame = Frame::any(draw.of(&[20, 40]), draw.below(32) as u32, 3, &mut draw);
            let last = frame.count() - 1;
            let [closed, room, point, code, form] = [0, 1, 2, 3, 4].map(|bit| mask >> bit & 1 == 1);
            let (n, damage) = draw.of(&[
                (0, Damage::ServiceBit),
                (0, Damage::SeedZero),
                (last, Damage::TailBit),
            ]);
            let mut floats = frame.symbols[n].clone();
            if form {
                assert!(damage.apply(&frame, n, &mut floats, &mut draw));
            }
            if code {
                assert!(Damage::CodedBit.apply(&frame, n, &mut floats, &mut draw));
            }
            if point {
                let damage = draw.of(&[Damage::Nan, Damage::NoLevel, Damage::PilotSign]);
                assert!(damage.apply(&frame, n, &mut floats, &mut draw));
            }
            let mut bytes = frame.payload.len();
            if room {
                let which = draw.below(3);
                if which < 2 {
                    floats.truncate(draw.of(&[0, floats.len() - 1]));
                }
                if which > 0 {
                    bytes = draw.of(&[0, bytes - 1]);
                }
            }
            let (mut open, mut state) = (frame.open, frame.states[n]);
            if closed {
                let right = state_of(state);
                match draw.below(4) {
                    0 => state |= ENDED,
                    1 => state |= NO_STATE,
                    2 => open = refused_settings(open, 1 + draw.below(4), &mut draw),
                    _ => {
                        let history = [right.history[0], 64];
                        state = number_of(&State { history, ..right });
                    }
                }
            }
            let mut lent = Lent::new(bytes, &mut draw);
            let (step, _) = both.step(open, state, &floats, &mut lent);
            let first = ORDER.get(mask.trailing_zeros() as usize).copied();
            assert_eq!(step.number, first.unwrap_or(0), "{mask:#b} of {open:?}");
        }
    }
    assert_eq!(both.given, [16, 0, 0, 0, 0, 0, 0, 0, 128, 64, 32, 16, 256]);
}

/// Any settings, states, symbols, damage and room.
#[test]
fn random_steps() {
    let steps = count_from("HT_FUZZ_STEPS", 8_000);
    let mut draw = Draw::new(67);
    let mut both = Both::default();
    let mut seeds = 0;
    while both.steps() < steps {
        let frame = Frame::any(draw.of(&[20, 40]), draw.below(32) as u32, 3, &mut draw);
        for _ in 0..4 {
            let step = random_step(&frame, &mut both, &mut draw);
            seeds += usize::from(step.seed > 0);
        }
    }
    assert!(seeds * 50 > both.steps(), "{seeds} symbols 0 were accepted");
    let given = both.given;
    for number in [0, 8, 9, 10, 11, 12] {
        assert!(given[number] * 50 > both.steps(), "{given:?}");
    }
}

fn random_step(frame: &Frame, both: &mut Both, draw: &mut Draw) -> Stepped {
    let mut open = frame.open;
    let mut n = draw.below(frame.count() as u64) as usize;
    // The frame's own state; one in range, with a symbol made for it or the frame's; any number.
    let (state, mut floats) = match draw.below(16) {
        0..=8 => (frame.states[n], frame.symbols[n].clone()),
        9..=11 => {
            let state = any_state(open, n, draw);
            (number_of(&state), symbol_from(open, &state, draw))
        }
        12 => {
            let state = any_state(open, n, draw);
            (number_of(&state), frame.symbols[n].clone())
        }
        13 => {
            // One byte or bit of the number turned over.
            let bit = draw.below(64);
            (frame.states[n] ^ 1 << bit, frame.symbols[n].clone())
        }
        14 => {
            let state = draw.next() >> draw.of(&[0, 14, 15, 16, 24]);
            (state, frame.symbols[n].clone())
        }
        _ => {
            // The state of another symbol.
            let floats = frame.symbols[n].clone();
            n = draw.below(frame.count() as u64) as usize;
            (frame.states[n], floats)
        }
    };
    for _ in 0..draw.of(&[0, 1, 1, 1, 2, 3]) {
        Damage::any(draw).apply(frame, n, &mut floats, draw);
    }
    match draw.below(24) {
        0 => floats.truncate(draw.below(floats.len() as u64) as usize),
        1 => floats.truncate(frame.symbols[n].len() - 1),
        2 => floats.extend([f32::NAN; 5]),
        _ => {}
    }
    let room = any_room(frame.payload.len(), draw);
    if draw.below(40) == 0 {
        open = refused_settings(open, 1 + draw.below(4), draw);
    }
    let mut lent = Lent::new(room, draw);
    both.step(open, state, &floats, &mut lent).0
}

/// The typed reader to the last symbol, with a short slice before every symbol.
#[test]
fn a_typed_reader_reads_frames() {
    let mut draw = Draw::new(68);
    let mut symbols = 0;
    let mut room_refusals = 0;
    for (width, mcs) in widths_and_mcs() {
        for most in [1, 4] {
            let length = few_symbols(width, mcs, most, &mut draw);
            let s = typed_settings(width, mcs, length, &mut draw);
            let count = symbol_count(s).unwrap();
            let sent = draw.bytes(length as usize);
            let mut payload = vec![0; length as usize];
            let open = OpenSettings::from(s);
            let mut reader = Reader::start(open).unwrap();
            let need = reader.floats();
            assert_eq!(Ok(need), floats_per_symbol(s));
            assert_eq!(reader.state(), 0);
            for n in 0..count {
                assert_eq!(reader.symbol(), n);
                assert_eq!(reader.seed(), (n > 0).then_some(s.seed));
                let floats = symbol(s, &sent, n as usize);

                // 8 changes nothing and gives the reader back.
                let (before, given) = (reader.state(), payload.clone());
                let short = length as usize - 1;
                for refused in 0..2 {
                    let answer = match refused {
                        0 => reader.step(&floats[..need - 1], &mut payload),
                        _ => reader.step(&floats, &mut payload[..short]),
                    };
                    let Err(ReadRefusal::Room { reader: back }) = answer else {
                        panic!("{answer:?} of {s:?}");
                    };
                    assert_eq!((back.state(), back.symbol()), (before, n));
                    assert!(payload == given);
                    reader = back;
                    room_refusals += 1;
                }

                let mut raw = payload.clone();
                let step = reader_step(open, before, &floats, &mut raw);
                match reader.step(&floats, &mut payload).unwrap() {
                    Step::Next { reader: next, seed } => {
                        assert!(n + 1 < count, "{s:?}");
                        assert_eq!(seed, (n == 0).then_some(s.seed));
                        assert_eq!(next.state(), step.state);
                        reader = next;
                    }
                    Step::Done { seed } => {
                        assert_eq!((n + 1, seed), (count, s.seed), "{s:?}");
                        // There is no reader any more: the next frame has its own.
                        reader = Reader::start(s).unwrap();
                    }
                    other => panic!("no step that is known: {other:?}"),
                }
                assert!(payload == raw);
                symbols += 1;
            }
            assert!(payload == sent, "{s:?}");
        }
    }
    assert_eq!(room_refusals, 2 * symbols);
    assert!(symbols > 64 * 3, "{symbols}");
}

/// The typed refusals, against the numbers: 9 with its place, 10 and 11.
#[test]
fn a_typed_reader_refuses() {
    let mut draw = Draw::new(69);
    let mut given = [0; 13];
    for (width, mcs) in widths_and_mcs() {
        for damage in Damage::ALL {
            let length = few_symbols(width, mcs, 3, &mut draw);
            let s = typed_settings(width, mcs, length, &mut draw);
            let frame = Frame::new(s, &mut draw);
            let last = draw.below(frame.count() as u64) as usize;
            let mut payload = vec![0; length as usize];
            let mut reader = Reader::start(s).unwrap();
            for floats in &frame.symbols[..last] {
                let Ok(Step::Next { reader: next, .. }) = reader.step(floats, &mut payload) else {
                    panic!("the reader does not wait for symbol {last} of {s:?}");
                };
                reader = next;
            }
            assert_eq!(reader.state(), frame.states[last]);
            let mut floats = frame.symbols[last].clone();
            damage.apply(&frame, last, &mut floats, &mut draw);

            let mut raw = payload.clone();
            let step = reader_step(s, frame.states[last], &floats, &mut raw);
            let place = reader_place(s, frame.states[last], &floats).unwrap();
            let before = payload.clone();
            let answer = reader.step(&floats, &mut payload);
            match &answer {
                Ok(_) => assert_eq!((step.number, place), (0, None)),
                Err(refusal) => {
                    assert_eq!(refusal.refusal().number(), step.number);
                    assert!(payload == before);
                    let want = match (step.number, place) {
                        (9, Some((stream, subcarrier))) => {
                            ReadRefusal::Point { stream, subcarrier }
                        }
                        (10, None) => ReadRefusal::Code,
                        (11, None) => ReadRefusal::Frame,
                        other => panic!("{other:?} of {s:?}"),
                    };
                    assert_eq!(*refusal, want);
                }
            }
            assert!(payload == raw);
            given[step.number as usize] += 1;
        }
    }
    assert_eq!(given.iter().sum::<usize>(), 64 * Damage::ALL.len());
    for number in [0, 9, 10, 11] {
        assert!(given[number] > 100, "{given:?}");
    }
}

#[test]
fn a_typed_reader_is_not_started_with_refused_settings() {
    let good = OpenSettings::new(Width::Mhz20, 31, 65_535)
        .smoothing(false)
        .not_sounding(false);
    assert!(Reader::start(good).is_ok());
    let mcs = good.mcs(32);
    assert_eq!(Reader::start(mcs), Err(Refusal::Mcs));
    for length in [0, 65_536] {
        let length = good.length(length);
        assert_eq!(Reader::start(length), Err(Refusal::Length));
    }
    let raw = OpenSettings::from(GOOD);
    let width = raw.width(21u32);
    assert_eq!(Reader::start(width), Err(Refusal::Width));
    let format = raw.format(2u32);
    assert_eq!(Reader::start(format), Err(Refusal::Format));
    // The seed is not among them.
    assert!(Reader::start(GOOD.seed(0)).is_ok());
}

#[test]
fn refusals_in_words() {
    let point = ReadRefusal::Point {
        stream: 1,
        subcarrier: -7,
    };
    assert_eq!(
        format!("{point:#}"),
        "stream 1, subcarrier -7: a point or a pilot is not one that the rules give at its place (refusal 9 POINT)"
    );
    assert_eq!(
        format!("{:#}", ReadRefusal::Code),
        format!("{:#}", Refusal::Code)
    );
    assert_eq!(
        format!("{:#}", ReadRefusal::Frame),
        format!("{:#}", Refusal::Frame)
    );
    assert_eq!(
        point.to_string(),
        "refusal 9 POINT at stream 1, subcarrier -7"
    );
    assert_eq!(ReadRefusal::Code.to_string(), "refusal 10 CODE");
    assert_eq!(ReadRefusal::Frame.to_string(), "refusal 11 FRAME");
    let reader = Reader::start(GOOD).unwrap();
    let room = reader.step(&[], &mut [0]).unwrap_err();
    assert_eq!(
        format!("{room:#}"),
        format!("symbol 0: {:#}", Refusal::Room)
    );
    assert_eq!(room.to_string(), "refusal 8 ROOM before symbol 0");
}
