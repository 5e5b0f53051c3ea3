//! Tests of the reader.

use super::closed::closed_step;
use super::*;
use crate::carriers::{data_subcarriers, pilot_subcarriers, used_subcarriers};
use crate::chain::carrier_labels;
use crate::code_search::{names_at_places, Name};
use crate::data_bits::{data_bits, plain_bits};
use crate::encoder::encoder_inputs;
use crate::interleaver::interleave;
use crate::mapper::{point, Point};
use crate::parser::deal;
use crate::pilots::pilot;
use crate::point_tables::data_table;
use crate::points::{float, frame_points, points, turned};
use crate::puncture::puncture;
use crate::rates::{bits_per_carrier, rate, streams};
use crate::samples::{all_wrong, float_bits, open, other_format_and_flags, settings, some_bytes};

const ACCEPTED: Answer = Answer::Accepted { seed: 0 };

/// Numbers from which faults are chosen.
struct Chance(u64);

impl Chance {
    /// One of 0 to `below` - 1.
    fn below(&mut self, below: u64) -> u64 {
        self.0 = self
            .0
            .wrapping_mul(6_364_136_223_846_793_005)
            .wrapping_add(1_442_695_040_888_963_407);
        (self.0 >> 33) % below
    }

    fn of<T: Copy>(&mut self, list: &[T]) -> T {
        list[self.below(list.len() as u64) as usize]
    }
}

fn start(s: &Settings) -> State {
    reader_start(&open(s)).unwrap()
}

fn symbols(s: &Settings) -> u64 {
    u64::from(symbol_count(s).unwrap())
}

/// A step, with what holds of every one: a refusal writes nothing, 8 and 12
/// return the state given, 9 to 11 that with only its end marked, and the
/// place search agrees.
fn step(s: &Settings, state: &State, points: &[f32], payload: &mut [u8]) -> (Answer, State) {
    let given = payload.to_vec();
    let (answer, after) = reader_step(&open(s), state, points, payload);
    let place = reader_place(&open(s), state, points);
    let marked = State {
        ended: true,
        ..*state
    };
    match answer {
        Answer::Accepted { .. } => {
            assert_eq!(place, Ok(None));
            assert_eq!(payload[s.length as usize..], given[s.length as usize..]);
        }
        Answer::Point { stream, subcarrier } => {
            assert_eq!(place, Ok(Some((stream, subcarrier))));
            assert_eq!((after, payload), (marked, &mut given.clone()[..]));
        }
        Answer::Refused(no) => {
            match no {
                8 => assert!(place == Err(8) || payload.len() < s.length as usize),
                12 => assert_eq!(place, Err(12)),
                10 | 11 => assert_eq!(place, Ok(None)),
                _ => panic!("refused {no}"),
            }
            let want = if no == 10 || no == 11 { marked } else { *state };
            assert_eq!((after, payload), (want, &mut given.clone()[..]));
        }
    }
    (answer, after)
}

/// Steps 2 to 8 for one symbol, from its data bits as the encoders take
/// them and from the encoders' histories.
fn forward(s: &Settings, n: u64, history: [u64; 2], bits: &[u8]) -> Vec<f32> {
    let nes = encoders(s.mcs);
    let mut parts = Vec::new();
    for j in 0..nes {
        let mut earlier = [0; 6];
        for (back, input) in earlier.iter_mut().enumerate() {
            *input = (history[j as usize] >> back & 1) as u8;
        }
        let mut encoder = Encoder { earlier };
        let mut steps = Vec::new();
        for input in encoder_inputs(bits, nes, j) {
            steps.push(encoder.step(input));
        }
        parts.push(puncture(&steps, rate(s.mcs)));
    }
    let b = bits_per_carrier(s.mcs);
    let nss = streams(s.mcs);
    let mut floats = Vec::new();
    for (stream, dealt) in (0..).zip(deal(&parts, nss, b)) {
        let label_bits = interleave(s.width, b, stream, &dealt);
        let mut labels = carrier_labels(&label_bits, b).into_iter();
        let mut q = 0;
        for k in used_subcarriers(s.width) {
            let plain = if pilot_subcarriers(s.width).contains(&k) {
                let first = pilot(s.width, nss, stream, s.format, n, q).unwrap();
                q += 1;
                Point { first, second: 0 }
            } else {
                point(&labels.next().unwrap()).unwrap()
            };
            let p = turned(s.width, k, plain);
            floats.extend([float(p.first), float(p.second)]);
        }
    }
    floats
}

/// The data bits of symbol n, as the encoders take them.
fn own_bits(s: &Settings, payload: &[u8], n: u64) -> Vec<u8> {
    let d = data_bits_per_symbol(s.width, s.mcs) as usize;
    let all = data_bits(s, payload).unwrap();
    all[n as usize * d..(n as usize + 1) * d].to_vec()
}

/// The state before symbol n of a frame, by the frame's own bits.
fn true_state(s: &Settings, payload: &[u8], n: u64) -> State {
    let nes = encoders(s.mcs);
    let before = n as usize * data_bits_per_symbol(s.width, s.mcs) as usize;
    let all = data_bits(s, payload).unwrap();
    let mut history = [0; 2];
    for j in 0..nes {
        let mut inputs = encoder_inputs(&all[..before], nes, j);
        inputs.reverse();
        for (back, input) in inputs.iter().take(6).enumerate() {
            history[j as usize] += u64::from(*input) << back;
        }
    }
    let mut scrambler = register(s.seed);
    for _ in 0..before % 127 {
        scrambler.step();
    }
    let mut part = 0;
    let mut place = 0;
    for number in 16..before.clamp(16, 16 + 8 * s.length as usize) {
        if place == 8 {
            (part, place) = (0, 0);
        }
        let bit = payload[(number - 16) / 8] >> ((number - 16) % 8) & 1;
        part += u64::from(bit) << place;
        place += 1;
    }
    if place == 8 {
        part = 0;
    }
    State {
        symbol: n,
        history,
        scrambler: if n == 0 {
            0
        } else {
            u64::from(scrambler.number())
        },
        part,
        ended: n == symbols(s),
    }
}

/// Where the first level of a subcarrier of stream i stands in the slice.
fn index(width: u32, i: u32, k: i64) -> usize {
    let used = used_subcarriers(width);
    let place = used.iter().position(|other| *other == k).unwrap();
    2 * (used.len() * i as usize + place)
}

/// Turns over the coded bit of a name in the points of a symbol.
fn flip_coded(s: &Settings, points: &mut [f32], name: Name) {
    let b = bits_per_carrier(s.mcs);
    for (i, at_place) in (0..).zip(names_at_places(s.width, s.mcs)) {
        let Some(r) = at_place.iter().position(|other| *other == Some(name)) else {
            continue;
        };
        let k = data_subcarriers(s.width)[r / b as usize];
        let at = index(s.width, i, k);
        let table = data_table(s.width, b, k);
        let old = (points[at].to_bits(), points[at + 1].to_bits());
        let of = |label: &Vec<u8>| table.iter().find(|e| e.label == *label).unwrap();
        let entry = table.iter().find(|e| (e.first, e.second) == old).unwrap();
        let mut label = entry.label.clone();
        label[r % b as usize] ^= 1;
        points[at] = f32::from_bits(of(&label).first);
        points[at + 1] = f32::from_bits(of(&label).second);
        return;
    }
    panic!("no such coded bit");
}

/// Reads a whole frame and checks each answer, each state and each byte.
fn read_back(s: &Settings, payload: &[u8]) {
    let length = s.length as usize;
    let d = data_bits_per_symbol(s.width, s.mcs) as usize;
    let frame = frame_points(s, payload).unwrap();
    // No byte is as the payload has it, so that each write is seen.
    let mut got: Vec<u8> = payload[..length].iter().map(|byte| !byte).collect();
    got.extend([0x5A; 3]);
    let mut state = start(s);
    for (n, symbol) in (0..).zip(&frame) {
        if length <= 100 {
            assert_eq!(state, true_state(s, payload, n), "{s:?}, {n}");
        }
        let (answer, after) = step(s, &state, symbol, &mut got);
        let seed = if n == 0 { s.seed } else { 0 };
        assert_eq!(answer, Answer::Accepted { seed }, "{s:?}, symbol {n}");
        // "writes exactly the bytes now complete".
        let bits = ((n as usize + 1) * d).clamp(16, 16 + 8 * length) - 16;
        let complete = bits / 8;
        assert_eq!(got[..complete], payload[..complete]);
        for j in complete..length {
            assert_eq!(got[j], !payload[j]);
        }
        assert_eq!(got[length..], [0x5A; 3]);
        state = after;
    }
    assert_eq!(got[..length], payload[..length]);
    // Finished: no symbol is taken any more.
    assert_eq!((state.symbol, state.part), (symbols(s), 0));
    assert!(state.ended);
    if length <= 100 {
        assert_eq!(state, true_state(s, payload, symbols(s)));
    }
    for symbol in [&frame[0], &frame[frame.len() - 1]] {
        assert_eq!(step(s, &state, symbol, &mut got).0, Answer::Refused(12));
    }
}

#[test]
fn the_started_state_is_all_zero() {
    let s = settings(31, 40, 9, 1);
    let want = State {
        symbol: 0,
        history: [0, 0],
        scrambler: 0,
        part: 0,
        ended: false,
    };
    assert_eq!(reader_start(&open(&s)), Ok(want));
    assert_eq!(reader_start(&open(&other_format_and_flags(&s))), Ok(want));
}

#[test]
fn start_refusals_1_to_4_in_order() {
    // Each number is wrong, and would pass if it were narrowed.
    let mut s = open(&all_wrong());
    assert_eq!(reader_start(&s), Err(1));
    s.width = 20;
    assert_eq!(reader_start(&s), Err(2));
    s.mcs = 31;
    assert_eq!(reader_start(&s), Err(3));
    s.format = 1;
    assert_eq!(reader_start(&s), Err(4));
    s.length = 0;
    assert_eq!(reader_start(&s), Err(4));
    s.length = 65_536;
    assert_eq!(reader_start(&s), Err(4));
    s.length = 65_535;
    assert!(reader_start(&s).is_ok());
    s.mcs = 32;
    assert_eq!(reader_start(&s), Err(2));
}

#[test]
fn frames_of_every_setting_are_read_back() {
    for width in [20, 40] {
        for mcs in 0..=31 {
            for format in [0, 1] {
                for (length, seed) in [(1, 1), (2, 127), (7, 64), (8, 93), (100, 37)] {
                    let s = Settings {
                        format,
                        ..settings(mcs, width, length, seed)
                    };
                    read_back(&s, &some_bytes(length));
                }
            }
            for (length, seed) in [(33, 5), (321, 77), (1_000, 2)] {
                read_back(&settings(mcs, width, length, seed), &some_bytes(length));
            }
        }
    }
}

#[test]
fn frames_of_every_length_are_read_back() {
    for length in 1..=90 {
        for (mcs, width) in [(0, 20), (5, 20), (16, 20), (31, 40)] {
            read_back(&settings(mcs, width, length, 93), &some_bytes(length));
        }
    }
}

#[test]
fn every_seed_is_read_back() {
    for seed in 1..=127 {
        for (mcs, width) in [(0, 20), (7, 40), (16, 20), (31, 40)] {
            for payload in [[0; 4], [0xFF; 4]] {
                read_back(&settings(mcs, width, 4, seed), &payload);
            }
        }
    }
}

#[test]
fn the_longest_frames_are_read_back() {
    let payload = some_bytes(65_535);
    for (mcs, width, count) in [(0, 20, 20_166), (31, 40, 243)] {
        let s = settings(mcs, width, 65_535, 93);
        let mut state = start(&s);
        let mut got: Vec<u8> = payload.iter().map(|byte| !byte).collect();
        for (n, symbol) in (0..).zip(&frame_points(&s, &payload).unwrap()) {
            let (answer, after) = reader_step(&open(&s), &state, symbol, &mut got);
            let seed = if n == 0 { 93 } else { 0 };
            assert_eq!(answer, Answer::Accepted { seed });
            state = after;
            assert_eq!((state.symbol, state.ended), (n + 1, n + 1 == count));
        }
        assert_eq!(got, payload);
        assert_eq!(state, true_state(&s, &payload, count));
    }
}

#[test]
fn one_small_frame_by_hand() {
    // MCS 0 at 20 MHz, length 1, payload 0x31, seed 127: data bits
    // 00001110 11110010 01000101 000000 and 22 pad bits.
    let s = settings(0, 20, 1, 127);
    let frame = frame_points(&s, &[0x31]).unwrap();
    let mut got = [0xEE];
    let (answer, state) = step(&s, &start(&s), &frame[0], &mut got);
    assert_eq!(answer, Answer::Accepted { seed: 127 });
    assert_eq!(got, [0x31]);
    // Bits 20 to 25 are 0101 00, so the newest inputs are 0, 0, 1, 0, 1, 0.
    assert_eq!(state.history, [0b010100, 0]);
    // Outputs 19 to 25 are 01001 00, so x1 to x7 are 0 0 1 0 0 1 0.
    assert_eq!(state.scrambler, 0b0100100);
    assert_eq!((state.symbol, state.part, state.ended), (1, 0, false));
    let (answer, state) = step(&s, &state, &frame[1], &mut got);
    assert_eq!(answer, ACCEPTED);
    assert_eq!((state.symbol, state.part, state.ended), (2, 0, true));
    assert_eq!(got, [0x31]);
}

#[test]
fn a_part_of_a_byte_by_hand() {
    // MCS 0 at 20 MHz: symbol 0 has 10 payload bits, so byte 0 and the two
    // low bits of byte 1; symbol 1 has 26 more, 36 in all.
    let s = settings(0, 20, 7, 1);
    let payload = [0x12, 0xFE, 0x34, 0x56, 0xA9, 0x77, 0x88];
    let frame = frame_points(&s, &payload).unwrap();
    let mut got = [0xCC; 7];
    let (_, state) = step(&s, &start(&s), &frame[0], &mut got);
    assert_eq!(got, [0x12, 0xCC, 0xCC, 0xCC, 0xCC, 0xCC, 0xCC]);
    assert_eq!(state.part, 0b10);
    let (_, state) = step(&s, &state, &frame[1], &mut got);
    assert_eq!(got, [0x12, 0xFE, 0x34, 0x56, 0xCC, 0xCC, 0xCC]);
    assert_eq!(state.part, 0x9);
    let (_, state) = step(&s, &state, &frame[2], &mut got);
    assert_eq!(got, payload);
    assert_eq!((state.part, state.ended), (0, true));
}

#[test]
fn forward_gives_the_frame() {
    let payload = some_bytes(50);
    for width in [20, 40] {
        for mcs in 0..=31 {
            let s = settings(mcs, width, 50, 93);
            for (n, symbol) in (0..).zip(&frame_points(&s, &payload).unwrap()) {
                let history = true_state(&s, &payload, n).history;
                let got = forward(&s, n, history, &own_bits(&s, &payload, n));
                assert_eq!(float_bits(&got), float_bits(symbol));
            }
        }
    }
}

#[test]
fn every_bit_of_a_float_counts() {
    // Each bit of a float turned over, against the levels that B allows; the
    // pilots allow nothing else. In larger symbols not every bit of every
    // float, but each bit somewhere.
    for (mcs, width, stride) in [
        (0, 20, 1),
        (3, 20, 1),
        (8, 40, 5),
        (9, 40, 5),
        (13, 40, 5),
        (31, 20, 7),
    ] {
        let s = settings(mcs, width, 3, 93);
        let most = [0.0, 1.0, 1.0, 0.0, 3.0, 0.0, 7.0][bits_per_carrier(mcs) as usize];
        let used = used_subcarriers(width);
        let symbol = frame_points(&s, &[1, 2, 3]).unwrap().remove(0);
        for (at, old) in symbol.iter().enumerate() {
            let stream = (at / 2 / used.len()) as u32;
            let k = used[at / 2 % used.len()];
            for bit in (0..32).filter(|bit| (at + bit) % stride == 0) {
                let changed = f32::from_bits(old.to_bits() ^ (1 << bit));
                let mut wrong = symbol.clone();
                wrong[at] = changed;
                // A zero is where an axis carries no bits.
                let possible = *old != 0.0
                    && !pilot_subcarriers(width).contains(&k)
                    && [1.0, 3.0, 5.0, 7.0].contains(&changed.abs())
                    && changed.abs() <= most;
                let got = reader_place(&open(&s), &start(&s), &wrong);
                let want = (!possible).then_some((stream, k as i32));
                assert_eq!(got, Ok(want), "MCS {mcs}, {width} MHz, {at}: {bit}");
            }
        }
    }
}

#[test]
fn floats_that_no_rule_gives() {
    let odd = [
        -0.0,
        f32::NAN,
        -f32::NAN,
        f32::from_bits(0x7F80_0001),
        f32::from_bits(0xFFFF_FFFF),
        f32::INFINITY,
        f32::NEG_INFINITY,
        f32::from_bits(1),
        f32::MIN_POSITIVE,
        2.0,
        -4.0,
        9.0,
        0.999_999_94,
        1.000_000_1,
        f32::MAX,
    ];
    for width in [20, 40] {
        for mcs in 0..=31 {
            let s = settings(mcs, width, 1, 3);
            let symbol = frame_points(&s, &[7]).unwrap().remove(0);
            for i in 0..streams(mcs) {
                for (place, k) in used_subcarriers(width).into_iter().enumerate() {
                    let mut wrong = symbol.clone();
                    let at = index(width, i, k) + place % 2;
                    wrong[at] = odd[(place + mcs as usize) % odd.len()];
                    let got = reader_place(&open(&s), &start(&s), &wrong);
                    assert_eq!(got, Ok(Some((i, k as i32))));
                }
            }
        }
    }
}

#[test]
fn negative_zero_is_9_on_each_zero() {
    // E11: B = 1 and pilots, turned and not turned.
    for width in [20, 40] {
        for mcs in [0, 8, 16, 24, 7, 31] {
            let s = settings(mcs, width, 5, 93);
            let payload = some_bytes(5);
            for (n, symbol) in (0..).zip(&frame_points(&s, &payload).unwrap()) {
                let state = true_state(&s, &payload, n);
                let mut zeros = 0;
                for (at, level) in symbol.iter().enumerate() {
                    if level.to_bits() != 0 {
                        continue;
                    }
                    zeros += 1;
                    let mut wrong = symbol.clone();
                    wrong[at] = -0.0;
                    let used = used_subcarriers(width);
                    let k = used[at / 2 % used.len()];
                    // Above 0 at 40 MHz the zero is the first level.
                    let first = width == 40 && k > 0;
                    assert_eq!(at % 2 == 0, first);
                    let want = Answer::Point {
                        stream: (at / 2 / used.len()) as u32,
                        subcarrier: k as i32,
                    };
                    assert_eq!(step(&s, &state, &wrong, &mut [0; 5]).0, want);
                }
                let each = if mcs % 8 == 0 {
                    used_subcarriers(width).len()
                } else {
                    pilot_subcarriers(width).len()
                };
                assert_eq!(zeros, streams(mcs) as usize * each);
            }
        }
    }
}

#[test]
fn wrong_pilots() {
    for (mcs, width) in [(1, 20), (12, 40), (18, 20), (31, 40)] {
        let payload = some_bytes(200);
        let s = settings(mcs, width, 200, 93);
        for (n, symbol) in (0..).zip(&frame_points(&s, &payload).unwrap()) {
            let state = true_state(&s, &payload, n);
            for i in 0..streams(mcs) {
                for k in pilot_subcarriers(width) {
                    let at = index(width, i, k);
                    let (u, v) = (symbol[at], symbol[at + 1]);
                    // Negated, with the zero kept; the axes changed; a
                    // data point; nothing.
                    let negated = if u == 0.0 { (0.0, -v) } else { (-u, 0.0) };
                    for (u, v) in [negated, (v, u), (1.0, 1.0), (0.0, 0.0), (3.0, 0.0)] {
                        let mut wrong = symbol.clone();
                        wrong[at] = u;
                        wrong[at + 1] = v;
                        let want = Answer::Point {
                            stream: i,
                            subcarrier: k as i32,
                        };
                        assert_eq!(step(&s, &state, &wrong, &mut [0; 200]).0, want);
                    }
                }
            }
        }
    }
}

#[test]
fn the_first_failing_point_ends_the_search() {
    // E9: data and pilots together, stream after stream.
    let mut chance = Chance(5);
    for (mcs, width) in [(0, 20), (15, 40), (18, 20), (24, 40)] {
        let s = settings(mcs, width, 3, 93);
        let symbol = frame_points(&s, &[1, 2, 3]).unwrap().remove(0);
        let used = used_subcarriers(width);
        let all: Vec<(u32, i64)> = (0..streams(mcs))
            .flat_map(|i| used.iter().map(move |k| (i, *k)))
            .collect();
        for _ in 0..300 {
            let mut wrong = symbol.clone();
            let mut first = all.len();
            for _ in 0..1 + chance.below(4) {
                let place = chance.below(all.len() as u64) as usize;
                let (i, k) = all[place];
                let at = index(width, i, k) + chance.below(2) as usize;
                wrong[at] = chance.of(&[f32::NAN, -0.0, 2.0, 11.0]);
                first = first.min(place);
            }
            let (stream, k) = all[first];
            let want = Answer::Point {
                stream,
                subcarrier: k as i32,
            };
            assert_eq!(step(&s, &start(&s), &wrong, &mut [0; 3]).0, want);
        }
    }
    // A wrong data point at -20 goes before a wrong pilot at -7, after one
    // at -21.
    let s = settings(0, 20, 1, 1);
    let mut wrong = frame_points(&s, &[1]).unwrap().remove(0);
    for k in [28, 21, 8, 7, -7, -8, -20, -21, -22] {
        wrong[index(20, 0, k)] = 5.0;
        let got = reader_place(&open(&s), &start(&s), &wrong);
        assert_eq!(got, Ok(Some((0, k as i32))));
    }
}

#[test]
fn points_of_another_constellation_are_9() {
    // E10: a point of the constellation is never 9, another always is.
    let s = settings(3, 20, 3, 93);
    let symbol = frame_points(&s, &[1, 2, 3]).unwrap().remove(0);
    for u in -9..=9 {
        for v in -9..=9 {
            let mut other = symbol.clone();
            other[0] = float(u);
            other[1] = float(v);
            let good = [-3, -1, 1, 3].contains(&u) && [-3, -1, 1, 3].contains(&v);
            let want = (!good).then_some((0, -28));
            assert_eq!(reader_place(&open(&s), &start(&s), &other), Ok(want));
        }
    }
}

#[test]
fn the_other_format_is_9_where_the_polarity_differs() {
    // Polarities 2 and 3 are equal, 3 and 4 are not.
    for (mcs, width, k) in [(0, 20, -21), (8, 40, -53)] {
        let s = settings(mcs, width, 30, 93);
        let green = Settings { format: 1, ..s };
        let payload = some_bytes(30);
        let frame = frame_points(&green, &payload).unwrap();
        let mut got = [0; 30];
        let (answer, state) = step(&s, &start(&s), &frame[0], &mut got);
        assert_eq!(answer, Answer::Accepted { seed: 93 });
        let (answer, _) = step(&s, &state, &frame[1], &mut got);
        let want = Answer::Point {
            stream: 0,
            subcarrier: k,
        };
        assert_eq!(answer, want);
    }
}

#[test]
fn symbols_of_another_number_are_9_by_their_pilots() {
    // P12: symbol 0 has 1 1 1 -1, symbol 1 has -1 -1 1 -1.
    let s = settings(0, 20, 30, 93);
    let payload = some_bytes(30);
    let frame = frame_points(&s, &payload).unwrap();
    let want = Answer::Point {
        stream: 0,
        subcarrier: -21,
    };
    assert_eq!(step(&s, &start(&s), &frame[1], &mut [0; 30]).0, want);
    let (_, state) = step(&s, &start(&s), &frame[0], &mut [0; 30]);
    assert_eq!(step(&s, &state, &frame[0], &mut [0; 30]).0, want);
}

#[test]
fn one_wrong_coded_bit_at_rate_1_2_is_10() {
    for (mcs, width) in [(0, 20), (1, 40), (3, 20), (11, 40), (16, 20), (27, 40)] {
        let s = settings(mcs, width, 60, 93);
        let payload = some_bytes(60);
        let each = 2 * data_bits_per_symbol(width, mcs) / encoders(mcs);
        for (n, symbol) in (0..).zip(&frame_points(&s, &payload).unwrap()) {
            let state = true_state(&s, &payload, n);
            for encoder in 0..encoders(mcs) as usize {
                for number in (0..each as usize).step_by(13).chain([each as usize - 1]) {
                    let mut wrong = symbol.clone();
                    flip_coded(&s, &mut wrong, Name { encoder, number });
                    let answer = step(&s, &state, &wrong, &mut [0; 60]).0;
                    assert_eq!(answer, Answer::Refused(10));
                }
            }
        }
    }
}

#[test]
fn a_wrong_coded_bit_where_both_are_kept_is_10() {
    for mcs in [2, 4, 5, 6, 7, 10, 15, 18, 21, 23, 31] {
        let s = settings(mcs, 20, 200, 93);
        let payload = some_bytes(200);
        let period = rate(mcs).1 as usize;
        let state = true_state(&s, &payload, 1);
        let symbol = &frame_points(&s, &payload).unwrap()[1];
        for encoder in 0..encoders(mcs) as usize {
            for number in [0, 1, period, period + 1, 7 * period] {
                let mut wrong = symbol.clone();
                flip_coded(&s, &mut wrong, Name { encoder, number });
                let answer = step(&s, &state, &wrong, &mut [0; 200]).0;
                assert_eq!(answer, Answer::Refused(10), "MCS {mcs}");
            }
        }
    }
}

#[test]
fn a_last_coded_bit_alone_can_be_another_payload() {
    // MCS 7: the last kept bit is B4 alone, so it decides the last input,
    // and no other bit of the symbol speaks of it.
    let s = settings(7, 20, 200, 93);
    let payload = some_bytes(200);
    let mut symbol = frame_points(&s, &payload).unwrap().remove(0);
    let last = Name {
        encoder: 0,
        number: 311,
    };
    flip_coded(&s, &mut symbol, last);
    let mut got = [0; 200];
    let (answer, state) = step(&s, &start(&s), &symbol, &mut got);
    assert_eq!(answer, Answer::Accepted { seed: 93 });
    // D = 260, so data bit 259 is bit 3 of payload byte 30.
    let want = true_state(&s, &payload, 1);
    assert_eq!(state.history[0], want.history[0] ^ 1);
    assert_eq!(state.part, want.part ^ 0b1000);
    assert_eq!(got[..30], payload[..30]);
    // The next symbol of the old frame does not follow.
    let next = &frame_points(&s, &payload).unwrap()[1];
    assert_eq!(step(&s, &state, next, &mut got).0, Answer::Refused(10));
}

#[test]
fn a_symbol_of_another_frame_is_not_taken() {
    // The same settings, other bytes: the pilots are equal, but the earlier
    // inputs are not.
    for (mcs, width) in [(0, 20), (12, 40), (17, 20), (27, 40)] {
        let s = settings(mcs, width, 300, 93);
        let frame = frame_points(&s, &some_bytes(300)).unwrap();
        let other = frame_points(&s, &[0x6B; 300]).unwrap();
        let (_, state) = step(&s, &start(&s), &frame[0], &mut [0; 300]);
        let (answer, _) = step(&s, &state, &other[1], &mut [0; 300]);
        assert_eq!(answer, Answer::Refused(10), "MCS {mcs}");
    }
}

#[test]
fn a_wrong_service_tail_or_pad_bit_is_11() {
    // Each data bit of a frame turned over before the encoders.
    for (mcs, width, length) in [
        (0, 20, 1),
        (0, 20, 8),
        (2, 20, 5),
        (4, 40, 3),
        (5, 20, 70),
        (7, 20, 60),
        (9, 20, 7),
        (15, 40, 100),
        (16, 20, 7),
        (17, 20, 30),
        (23, 20, 10),
        (29, 20, 97),
        (31, 40, 265),
    ] {
        let s = settings(mcs, width, length, 93);
        let payload = some_bytes(length);
        let d = data_bits_per_symbol(width, mcs) as u64;
        let tail = 16 + 8 * length as usize;
        let mut kinds = [0, 0];
        for n in 0..symbols(&s) {
            let state = true_state(&s, &payload, n);
            let right = own_bits(&s, &payload, n);
            for m in 0..d as usize {
                let number = n as usize * d as usize + m;
                let in_payload = (16..tail).contains(&number);
                // Of the payload every seventh.
                if in_payload && number % 7 != 3 {
                    continue;
                }
                let mut bits = right.clone();
                bits[m] ^= 1;
                let symbol = forward(&s, n, state.history, &bits);
                let mut got = vec![0xA5; length as usize];
                let (answer, after) = step(&s, &state, &symbol, &mut got);
                if !in_payload {
                    assert_eq!(answer, Answer::Refused(11), "bit {number} of {s:?}");
                    kinds[0] += 1;
                    continue;
                }
                // Another payload, which has this symbol.
                let seed = if n == 0 { 93 } else { 0 };
                assert_eq!(answer, Answer::Accepted { seed });
                let mut other = payload.clone();
                other[(number - 16) / 8] ^= 1 << ((number - 16) % 8);
                assert_eq!(after, true_state(&s, &other, n + 1));
                let first = (n * d).saturating_sub(16) as usize / 8;
                let end = (((n + 1) * d - 16) as usize / 8).min(length as usize);
                assert_eq!(got[first..end], other[first..end]);
                kinds[1] += 1;
            }
        }
        assert!(kinds[0] > 16 && kinds[1] > 0);
    }
}

#[test]
fn a_seed_that_would_be_0_is_11() {
    for (mcs, width) in [(0, 20), (7, 40), (16, 20), (31, 40)] {
        let s = settings(mcs, width, 50, 1);
        // A scrambler at zero changes no bit.
        let d = data_bits_per_symbol(width, mcs) as usize;
        let plain = plain_bits(&s, &some_bytes(50)).unwrap();
        let symbol = forward(&s, 0, [0, 0], &plain[..d]);
        let answer = step(&s, &start(&s), &symbol, &mut [0; 50]).0;
        assert_eq!(answer, Answer::Refused(11));
    }
}

#[test]
fn every_seven_inputs_but_zeros_have_one_seed() {
    let mut seen = Vec::new();
    for number in 0..128u32 {
        let seven: Vec<u8> = (0..7).map(|place| (number >> place & 1) as u8).collect();
        match seed_of(&seven) {
            None => assert_eq!(number, 0),
            Some(seed) => seen.push(seed),
        }
    }
    seen.sort();
    let all: Vec<u32> = (1..=127).collect();
    assert_eq!(seen, all);
    assert_eq!(seed_of(&[]), None);
    assert_eq!(seed_of(&[1; 6]), None);
}

#[test]
fn a_tail_that_is_scrambled_or_a_pad_that_is_cleared_is_11() {
    // MCS 0 at 20 MHz, length 1: symbol 1 has bits 26 to 51, the tail ends
    // with bit 29.
    let mut differing = [0, 0];
    for seed in 1..=127 {
        let s = settings(0, 20, 1, seed);
        let state = true_state(&s, &[0x31], 1);
        let right = own_bits(&s, &[0x31], 1);
        let scrambled = scramble(seed, &plain_bits(&s, &[0x31]).unwrap());
        let mut tail = right.clone();
        tail[..4].copy_from_slice(&scrambled[26..30]);
        let mut pad = right.clone();
        pad[4..].fill(0);
        for (kind, bits) in [tail, pad].iter().enumerate() {
            let want = if *bits == right {
                ACCEPTED
            } else {
                differing[kind] += 1;
                Answer::Refused(11)
            };
            let symbol = forward(&s, 1, state.history, bits);
            assert_eq!(step(&s, &state, &symbol, &mut [0]).0, want);
        }
    }
    // Four outputs are zeros with 7 of the seeds, 22 with none.
    assert_eq!(differing, [120, 127]);
}

#[test]
fn the_order_is_12_8_9_10_11() {
    // Two encoders at rate 1/2. All is wrong at first; one fault after the
    // other is mended.
    let s = settings(16, 20, 7, 93);
    let payload = some_bytes(7);
    // 11: a wrong service bit, early and in encoder 0.
    let mut bits = own_bits(&s, &payload, 0);
    bits[8] ^= 1;
    let with_11 = forward(&s, 0, [0, 0], &bits);
    // 10: the last coded bit of encoder 1.
    let mut with_10 = with_11.clone();
    let last = Name {
        encoder: 1,
        number: 77,
    };
    flip_coded(&s, &mut with_10, last);
    // 9: the last float.
    let mut with_9 = with_10.clone();
    with_9[335] = -0.0;
    let with_8 = with_9[..335].to_vec();
    let closed = State {
        ended: true,
        ..start(&s)
    };

    let mut long = [0x77; 9];
    let (short, whole) = (6, 7);
    let no = |state: &State, points: &[f32], payload: &mut [u8]| {
        let (answer, _) = step(&s, state, points, payload);
        assert_eq!(closed_step(&open(&s), state, points, payload).0, answer);
        answer
    };
    let refused = Answer::Refused;
    assert_eq!(no(&closed, &with_8, &mut long[..short]), refused(12));
    assert_eq!(no(&start(&s), &with_8, &mut long[..short]), refused(8));
    assert_eq!(no(&start(&s), &with_8, &mut long[..whole]), refused(8));
    assert_eq!(no(&start(&s), &with_9, &mut long[..short]), refused(8));
    let want = Answer::Point {
        stream: 2,
        subcarrier: 28,
    };
    assert_eq!(no(&start(&s), &with_9, &mut long[..whole]), want);
    assert_eq!(no(&start(&s), &with_10, &mut long[..whole]), refused(10));
    assert_eq!(no(&start(&s), &with_11, &mut long[..whole]), refused(11));
    assert_eq!(long, [0x77; 9]);
    let right = &frame_points(&s, &payload).unwrap()[0];
    let want = Answer::Accepted { seed: 93 };
    assert_eq!(no(&start(&s), right, &mut long[..whole]), want);
}

#[test]
fn a_code_fault_in_one_encoder_goes_before_11_in_the_other() {
    // E13, with the fault in either encoder and the wrong bit in either.
    let s = settings(24, 40, 40, 5);
    for service in [14, 15] {
        let mut bits = own_bits(&s, &some_bytes(40), 0);
        bits[service] ^= 1;
        let symbol = forward(&s, 0, [0, 0], &bits);
        let mut got = [0; 40];
        let answer = step(&s, &start(&s), &symbol, &mut got).0;
        assert_eq!(answer, Answer::Refused(11));
        for encoder in [0, 1] {
            for number in [0, 1, 100, 215] {
                let mut wrong = symbol.clone();
                flip_coded(&s, &mut wrong, Name { encoder, number });
                let answer = step(&s, &start(&s), &wrong, &mut got).0;
                assert_eq!(answer, Answer::Refused(10));
            }
        }
    }
}

#[test]
fn short_slices_are_8_and_longer_are_not() {
    for (mcs, width) in [(0, 20), (8, 20), (23, 40), (31, 40)] {
        let s = settings(mcs, width, 9, 93);
        let payload = some_bytes(9);
        let needed = floats_per_symbol(width, mcs) as usize;
        for (n, symbol) in (0..).zip(&frame_points(&s, &payload).unwrap()) {
            // Also where the symbol has no payload bit.
            let state = true_state(&s, &payload, n);
            let mut longer = symbol.clone();
            longer.extend([f32::NAN, 2.0, -0.0]);
            for floats in [0, 1, needed - 1] {
                let mut got = [0; 9];
                let answer = step(&s, &state, &longer[..floats], &mut got).0;
                assert_eq!(answer, Answer::Refused(8));
                let place = reader_place(&open(&s), &state, &longer[..floats]);
                assert_eq!(place, Err(8));
            }
            for bytes in [0, 1, 8] {
                let mut got = [0; 9];
                let answer = step(&s, &state, symbol, &mut got[..bytes]).0;
                assert_eq!(answer, Answer::Refused(8));
                // The place search looks at no payload.
                assert_eq!(reader_place(&open(&s), &state, symbol), Ok(None));
            }
            for floats in [needed, needed + 1, needed + 3] {
                let mut got = [0; 12];
                let (answer, after) = step(&s, &state, &longer[..floats], &mut got);
                assert!(matches!(answer, Answer::Accepted { .. }));
                assert_eq!(after, true_state(&s, &payload, n + 1));
            }
        }
    }
}

/// Whether a state is closed, by a step with an empty slice of points: it
/// gives 12 or else 8.
fn is_closed(s: &OpenSettings, state: &State) -> bool {
    let (answer, after) = reader_step(s, state, &[], &mut []);
    assert_eq!(after, *state);
    match answer {
        Answer::Refused(12) => true,
        Answer::Refused(8) => false,
        _ => panic!("{answer:?}"),
    }
}

#[test]
fn settings_that_would_be_refused_are_12() {
    // E1: a width of 21 is 12, never 1.
    let s = settings(8, 40, 20, 93);
    let symbol = frame_points(&s, &[0; 20]).unwrap().remove(0);
    assert!(!is_closed(&open(&s), &start(&s)));
    let wrong = [
        Settings { width: 21, ..s },
        Settings { width: 296, ..s },
        Settings { mcs: 32, ..s },
        Settings { mcs: 264, ..s },
        Settings { format: 2, ..s },
        Settings { format: 256, ..s },
        Settings { length: 0, ..s },
        Settings {
            length: 65_536,
            ..s
        },
    ];
    for wrong in wrong {
        assert!(is_closed(&open(&wrong), &start(&s)));
        let mut got = vec![0; 65_536];
        let answer = step(&wrong, &start(&s), &symbol, &mut got).0;
        assert_eq!(answer, Answer::Refused(12));
    }
    let ended = State {
        ended: true,
        ..start(&s)
    };
    assert_eq!(
        step(&s, &ended, &symbol, &mut [0; 20]),
        (Answer::Refused(12), ended)
    );
}

#[test]
fn the_symbol_is_below_the_count() {
    for (mcs, width, length, count) in [
        (0, 20, 1, 2),
        (0, 20, 7, 3),
        (0, 20, 8, 4),
        (16, 20, 7, 2),
        (31, 40, 65_535, 243),
        (0, 20, 65_535, 20_166),
    ] {
        let s = open(&settings(mcs, width, length, 1));
        let at = |symbol| State {
            symbol,
            history: [0, 0],
            scrambler: 1,
            part: 0,
            ended: false,
        };
        for symbol in [0, 1, count - 1] {
            assert!(!is_closed(&s, &at(symbol)));
        }
        for symbol in [count, count + 1, 1 << 16, 1 << 32, (1 << 32) + 1, u64::MAX] {
            assert!(is_closed(&s, &at(symbol)));
        }
    }
}

#[test]
fn both_histories_are_below_64() {
    // E5: also with one encoder.
    for mcs in [0, 8, 16, 24] {
        let s = settings(mcs, 20, 100, 1);
        for symbol in [0, 1, 2] {
            let state = true_state(&s, &some_bytes(100), symbol);
            for (number, want) in [
                (0, false),
                (1, false),
                (63, false),
                (64, true),
                (65, true),
                (256, true),
                (1 << 32, true),
                (u64::MAX, true),
            ] {
                for history in [[number, 0], [0, number], [63, number], [number, number]] {
                    let state = State { history, ..state };
                    assert_eq!(is_closed(&open(&s), &state), want);
                }
            }
        }
    }
}

#[test]
fn the_scrambler_is_free_at_symbol_0_and_1_to_127_later() {
    for mcs in [0, 31] {
        let s = settings(mcs, 20, 200, 93);
        let payload = some_bytes(200);
        let symbol = frame_points(&s, &payload).unwrap().remove(0);
        let numbers = [0, 1, 64, 127, 128, 129, 255, 256, 1 << 32, u64::MAX];
        for scrambler in numbers {
            let state = State {
                scrambler,
                ..start(&s)
            };
            let mut got = [0; 200];
            let (answer, after) = step(&s, &state, &symbol, &mut got);
            assert_eq!(answer, Answer::Accepted { seed: 93 });
            assert_eq!(after, true_state(&s, &payload, 1));
            for n in [1, symbols(&s) - 1] {
                let state = State {
                    scrambler,
                    ..true_state(&s, &payload, n)
                };
                let want = !(1..=127).contains(&scrambler);
                assert_eq!(is_closed(&open(&s), &state), want);
            }
        }
    }
}

#[test]
fn the_part_has_no_bit_at_or_above_its_length() {
    for width in [20, 40] {
        for mcs in 0..=31 {
            for length in [1, 2, 3, 9, 40] {
                let s = settings(mcs, width, length, 1);
                let payload = some_bytes(length);
                for n in 0..symbols(&s) {
                    // The payload bits before the symbol, counted.
                    let d = u64::from(data_bits_per_symbol(width, mcs));
                    let tail = 16 + 8 * u64::from(length);
                    let before = (0..n * d).filter(|bit| (16..tail).contains(bit)).count();
                    let long = before as u64 % 8;
                    let state = true_state(&s, &payload, n);
                    for part in [0, (1 << long) - 1] {
                        let state = State { part, ..state };
                        assert!(!is_closed(&open(&s), &state));
                    }
                    for place in 0..64 {
                        let part = 1 << place;
                        let state = State { part, ..state };
                        assert_eq!(is_closed(&open(&s), &state), place >= long);
                    }
                    let state = State {
                        part: u64::MAX,
                        ..state
                    };
                    assert!(is_closed(&open(&s), &state));
                }
            }
        }
    }
}

#[test]
fn e2_past_the_payload_the_part_is_empty() {
    // MCS 0, 20 MHz, length 1, symbol 1: 8 bits before it, and not 10.
    let s = settings(0, 20, 1, 127);
    let state = true_state(&s, &[0x31], 1);
    assert_eq!(state.part, 0);
    let symbol = &frame_points(&s, &[0x31]).unwrap()[1];
    assert_eq!(step(&s, &state, symbol, &mut [0]).0, ACCEPTED);
    for part in [1, 2, 3, 4, 255, u64::MAX] {
        let state = State { part, ..state };
        let answer = step(&s, &state, symbol, &mut [0]).0;
        assert_eq!(answer, Answer::Refused(12));
    }
    // With length 2 there are 10 bits before it, so two are held.
    let s = settings(0, 20, 2, 127);
    for part in 0..8 {
        let state = State {
            part,
            ..true_state(&s, &[1, 2], 1)
        };
        assert_eq!(is_closed(&open(&s), &state), part > 3);
    }
}

#[test]
fn a_refused_start_has_no_open_state() {
    // E22: the state beside it, all zero and ended, is closed.
    let s = settings(0, 20, 1, 1);
    let state = State {
        ended: true,
        ..start(&s)
    };
    for s in [s, all_wrong()] {
        assert!(is_closed(&open(&s), &state));
        assert_eq!(reader_place(&open(&s), &state, &[1.0; 112]), Err(12));
    }
}

#[test]
fn forged_histories_are_believed_at_symbol_0_too() {
    // E6.
    for (mcs, width) in [(0, 20), (7, 40), (16, 20), (31, 40)] {
        let s = settings(mcs, width, 90, 93);
        let payload = some_bytes(90);
        let bits = own_bits(&s, &payload, 0);
        let genuine = forward(&s, 0, [0, 0], &bits);
        for history in [[1, 0], [32, 32], [63, 63], [0, 5], [21, 42]] {
            let state = State {
                history,
                ..start(&s)
            };
            let symbol = forward(&s, 0, history, &bits);
            let mut got = [0; 90];
            let (answer, after) = step(&s, &state, &symbol, &mut got);
            assert_eq!(answer, Answer::Accepted { seed: 93 });
            let mut want = true_state(&s, &payload, 1);
            if mcs < 16 {
                // "With one encoder the second history stays as given."
                want.history[1] = history[1];
            }
            assert_eq!(after, want);
            // The frame's own symbol is judged from these histories, too.
            let alike = float_bits(&symbol) == float_bits(&genuine);
            let (answer, _) = step(&s, &state, &genuine, &mut got);
            assert_eq!(answer == Answer::Accepted { seed: 93 }, alike);
            assert_eq!(alike, mcs < 16 && history[0] == 0);
        }
    }
}

#[test]
fn a_forged_scrambler_and_part_are_believed() {
    // E7: MCS 0 at 20 MHz, symbol 1, all of it payload, two bits held.
    let s = settings(0, 20, 30, 93);
    let payload = some_bytes(30);
    let symbol = &frame_points(&s, &payload).unwrap()[1];
    let state = true_state(&s, &payload, 1);
    let before = own_bits(&s, &payload, 1);
    for scrambler in 1..=127 {
        for part in 0..4 {
            let forged = State {
                scrambler,
                part,
                ..state
            };
            let mut got = [0xEE; 30];
            let (answer, after) = step(&s, &forged, symbol, &mut got);
            assert_eq!(answer, ACCEPTED);
            // Two bits held and 26 more: bytes 1 to 3 and four bits.
            let mut bits = vec![part as u8 % 2, part as u8 / 2];
            bits.extend(scramble(scrambler as u32, &before));
            let byte = |j: usize| -> u8 { (0..8).map(|place| bits[8 * j + place] << place).sum() };
            assert_eq!(got[..4], [0xEE, byte(0), byte(1), byte(2)]);
            assert_eq!(got[4..], [0xEE; 26]);
            bits.extend([0; 4]);
            let mut register = register(scrambler as u32);
            for _ in 0..26 {
                register.step();
            }
            let want = State {
                symbol: 2,
                history: true_state(&s, &payload, 2).history,
                scrambler: u64::from(register.number()),
                part: (0..4)
                    .map(|place| u64::from(bits[24 + place]) << place)
                    .sum(),
                ended: false,
            };
            assert_eq!(after, want);
        }
    }
}

#[test]
fn an_ended_state_is_12_whatever_ended_it() {
    // E19: after 9, 10 and 11, the right symbol is not taken any more.
    let s = settings(0, 20, 9, 93);
    let payload = some_bytes(9);
    let right = frame_points(&s, &payload).unwrap().remove(0);
    let mut with_9 = right.clone();
    with_9[0] = 0.0;
    let mut with_10 = right.clone();
    with_10[0] = -with_10[0];
    let mut bits = own_bits(&s, &payload, 0);
    bits[15] ^= 1;
    let with_11 = forward(&s, 0, [0, 0], &bits);
    for (no, symbol) in [(9, &with_9), (10, &with_10), (11, &with_11)] {
        let mut got = [0xEE; 9];
        let (answer, after) = step(&s, &start(&s), symbol, &mut got);
        match answer {
            Answer::Point { stream, subcarrier } => {
                assert_eq!((no, stream, subcarrier), (9, 0, -28));
            }
            _ => assert_eq!(answer, Answer::Refused(no)),
        }
        let want = State {
            ended: true,
            ..start(&s)
        };
        assert_eq!(after, want);
        assert_eq!(
            step(&s, &after, &right, &mut got),
            (Answer::Refused(12), after)
        );
        assert_eq!(got, [0xEE; 9]);
    }
    // 8 leaves the state open.
    let (answer, after) = step(&s, &start(&s), &right[..111], &mut [0; 9]);
    assert_eq!((answer, after), (Answer::Refused(8), start(&s)));
    let (answer, _) = step(&s, &after, &right, &mut [0; 9]);
    assert_eq!(answer, Answer::Accepted { seed: 93 });
}

#[test]
fn e21_bytes_before_a_fault_are_not_written() {
    // MCS 31 at 40 MHz, one symbol with all bytes; a pad bit near the end
    // is wrong.
    let s = settings(31, 40, 200, 93);
    assert_eq!(symbols(&s), 1);
    let payload = some_bytes(200);
    let mut bits = own_bits(&s, &payload, 0);
    bits[2_159] ^= 1;
    let symbol = forward(&s, 0, [0, 0], &bits);
    let mut got = [0xEE; 200];
    let (answer, _) = step(&s, &start(&s), &symbol, &mut got);
    assert_eq!(answer, Answer::Refused(11));
    assert_eq!(got, [0xEE; 200]);
}

#[test]
fn the_flags_play_no_part() {
    let s = settings(11, 20, 60, 93);
    let green = Settings { format: 1, ..s };
    let flags = other_format_and_flags(&s);
    let payload = some_bytes(60);
    for n in 0..symbols(&s) {
        let state = true_state(&s, &payload, n);
        let mut symbol = vec![0.0; 224];
        points(&green, &payload, n, &mut symbol).unwrap();
        let (mut one, mut other) = ([0; 60], [0; 60]);
        let got = step(&green, &state, &symbol, &mut one);
        assert!(matches!(got.0, Answer::Accepted { .. }));
        assert_eq!(step(&flags, &state, &symbol, &mut other), got);
        assert_eq!(one, other);
    }
}

#[test]
fn histories_packed_and_unpacked() {
    for history in 0..64 {
        assert_eq!(packed(&unpacked(history)), history);
    }
    let mut encoder = unpacked(0);
    for input in [1, 0, 1, 1, 0, 0] {
        encoder.step(input);
    }
    assert_eq!(packed(&encoder), 0b101100);
    assert_eq!(unpacked(u64::MAX), Encoder { earlier: [1; 6] });
    assert_eq!(packed(&Encoder { earlier: [255; 6] }), 63);
}

#[test]
fn kinds_are_16_and_payload_and_tail_and_pad() {
    for (mcs, tail) in [(0, 6), (15, 6), (16, 12), (31, 12)] {
        let s = open(&settings(mcs, 20, 3, 1));
        let mut counts = [0; 4];
        for number in 0..100 {
            let place = match kind(&s, number) {
                Kind::Service => 0,
                Kind::Payload => 1,
                Kind::Tail => 2,
                Kind::Pad => 3,
            };
            counts[place] += 1;
        }
        assert_eq!(counts, [16, 24, tail, 60 - tail]);
    }
}

/// Some wrong symbol, state and slices, and what the closed formulas say.
#[test]
fn chosen_faults_against_the_closed_formulas() {
    let mut chance = Chance(17);
    let mut seen = [0; 13];
    let lengths = [1, 2, 7, 8, 9, 30, 61, 99, 150, 200];
    let numbers = [0, 1, 2, 5, 63, 64, 127, 128, 255, 1 << 32, u64::MAX];
    for round in 0..8_000 {
        let width = chance.of(&[20, 40]);
        let mcs = chance.below(32) as u32;
        let length = chance.of(&lengths);
        let s = Settings {
            format: chance.below(2) as u32,
            ..settings(mcs, width, length, 1 + chance.below(127) as u32)
        };
        let payload: Vec<u8> = (0..length).map(|_| chance.below(256) as u8).collect();
        let n = chance.below(symbols(&s));
        let mut state = true_state(&s, &payload, n);
        let mut bits = own_bits(&s, &payload, n);
        let mut read = open(&s);

        // Another data bit, or all others.
        if chance.below(4) == 0 {
            let place = chance.below(bits.len() as u64) as usize;
            bits[place] ^= 1;
        }
        if chance.below(8) == 0 {
            bits.fill_with(|| chance.below(2) as u8);
        }
        // Other histories, before and after the symbol is made.
        if chance.below(6) == 0 {
            state.history = [chance.below(64), chance.below(64)];
        }
        let mut symbol = forward(&s, n, state.history, &bits);
        if chance.below(12) == 0 {
            state.history = [chance.below(64), chance.of(&numbers)];
        }
        // Other points of the constellation: the last coded bits more often
        // than others.
        if chance.below(5) == 0 {
            let nes = encoders(mcs) as u64;
            let share = names_at_places(width, mcs).concat().len() as u64 / nes;
            let back = chance.of(&[1, 2, 6, share]);
            let name = Name {
                encoder: chance.below(nes) as usize,
                number: (share - 1 - chance.below(back)) as usize,
            };
            flip_coded(&s, &mut symbol, name);
        }
        // Other floats.
        if chance.below(5) == 0 {
            let place = chance.below(symbol.len() as u64) as usize;
            let level = chance.below(17) as f32 - 8.0;
            let odd = [level, level, -0.0, f32::NAN, -symbol[place]];
            symbol[place] = chance.of(&odd);
        }
        // Other states, slices and settings.
        if chance.below(8) == 0 {
            state.scrambler = chance.of(&numbers);
        }
        if chance.below(8) == 0 {
            state.part = chance.of(&numbers);
        }
        if chance.below(20) == 0 {
            state.symbol = chance.of(&[0, 1, n + 1, symbols(&s), u64::MAX]);
        }
        if chance.below(40) == 0 {
            state.ended = true;
        }
        if chance.below(20) == 0 {
            symbol.pop();
        }
        if chance.below(10) == 0 {
            symbol.push(f32::NAN);
        }
        let mut bytes = length + chance.below(4) as u32;
        if chance.below(20) == 0 {
            bytes = length - 1;
        }
        if chance.below(40) == 0 {
            read.length = chance.of(&[0, length + 1, 65_536]);
        }
        if chance.below(40) == 0 {
            read.mcs = chance.of(&[mcs ^ 1, mcs ^ 8, mcs + 32]);
        }
        if chance.below(40) == 0 {
            read.format = chance.of(&[0, 1, 2]);
        }

        let given: Vec<u8> = (0..bytes).map(|_| chance.below(256) as u8).collect();
        let (mut one, mut other) = (given.clone(), given.clone());
        let got = reader_step(&read, &state, &symbol, &mut one);
        let want = closed_step(&read, &state, &symbol, &mut other);
        assert_eq!(got, want, "round {round}: {read:?}, {state:?}");
        assert_eq!(one, other, "round {round}: {read:?}, {state:?}");
        let place = reader_place(&read, &state, &symbol);
        let no = match got.0 {
            Answer::Accepted { .. } => {
                assert_eq!(place, Ok(None));
                0
            }
            Answer::Point { stream, subcarrier } => {
                assert_eq!(place, Ok(Some((stream, subcarrier))));
                assert_eq!(one, given);
                9
            }
            Answer::Refused(no) => {
                assert_eq!(one, given);
                no as usize
            }
        };
        seen[no] += 1;
    }
    for no in [0, 8, 9, 10, 11, 12] {
        assert!(seen[no] > 200, "{seen:?}");
    }
}

#[test]
fn accepted_frames_are_those_of_their_payload_and_seed() {
    // "accepts symbols exactly when some payload and seed give them, and
    // returns that payload and seed": frames with one other input are read to
    // the end where they can be, and then written again.
    let mut chance = Chance(3);
    let mut finished = 0;
    let mut refused = 0;
    for _ in 0..800 {
        let mcs = chance.below(32) as u32;
        let length = 1 + chance.below(120) as u32;
        let s = settings(mcs, 20, length, 1 + chance.below(127) as u32);
        let mut data = data_bits(&s, &some_bytes(length)).unwrap();
        let place = chance.below(data.len() as u64) as usize;
        data[place] ^= 1;
        let mut state = start(&s);
        let mut got = vec![0; length as usize];
        let mut seed = 0;
        let mut frame = Vec::new();
        let d = data_bits_per_symbol(20, mcs) as usize;
        let mut encoders_before = [0, 0];
        for (n, bits) in (0..).zip(data.chunks(d)) {
            let symbol = forward(&s, n, encoders_before, bits);
            let (answer, after) = step(&s, &state, &symbol, &mut got);
            if let Answer::Accepted { seed: read } = answer {
                seed += read;
                encoders_before = after.history;
                frame.push(symbol);
            }
            state = after;
        }
        let in_payload = (16..16 + 8 * length as usize).contains(&place);
        if frame.len() as u64 == symbols(&s) {
            finished += 1;
            assert!(in_payload);
            let again = frame_points(&Settings { seed, ..s }, &got).unwrap();
            assert_eq!(again, frame);
            let mut want = some_bytes(length);
            want[(place - 16) / 8] ^= 1 << ((place - 16) % 8);
            assert_eq!((seed, got), (s.seed, want));
        } else {
            refused += 1;
            assert!(!in_payload);
        }
    }
    assert!(finished > 100 && refused > 100);
}

#[test]
fn any_numbers_end_without_a_panic() {
    let numbers = [0, 1, 20, 31, 32, 40, 276, 65_535, 65_536, u32::MAX];
    let wide = [0, 1, 2, 63, 64, 20_165, 1 << 32, u64::MAX - 1, u64::MAX];
    let floats = [1.0; 1_000];
    let mut chance = Chance(9);
    for width in [20, 40, 21, u32::MAX] {
        for mcs in numbers {
            for length in numbers {
                for _ in 0..60 {
                    let s = OpenSettings {
                        format: chance.of(&numbers),
                        ..open(&settings(mcs, width, length, 1))
                    };
                    let state = State {
                        symbol: chance.of(&wide),
                        history: [chance.of(&wide), chance.of(&wide)],
                        scrambler: chance.of(&wide),
                        part: chance.of(&wide),
                        ended: chance.below(4) == 0,
                    };
                    let room = chance.of(&[0, 1, 111, 1_000]);
                    let mut payload = [0; 40];
                    let points = &floats[..room];
                    let _ = reader_start(&s);
                    let _ = reader_place(&s, &state, points);
                    let got = reader_step(&s, &state, points, &mut payload);
                    assert_eq!(got, closed_step(&s, &state, points, &mut [0; 40]));
                }
            }
        }
    }
    let s = open(&all_wrong());
    assert_eq!(payload_bits_before(&s, u64::MAX), 0);
    let s = open(&settings(31, 40, u32::MAX, 1));
    assert_eq!(payload_bits_before(&s, u64::MAX), 8 * u64::from(u32::MAX));
}
