//! A whole frame read by one call against the independent second program and against a `Reader` step by step: the seed,
//! the refusal with its symbol and place, and every lent byte, with guards on both sides of every lent slice.
//!
//! `HT_FUZZ_FRAMES` is the number of frames of `random_frames`, 4,000 without it.

mod common;

use common::reading::{
    any_room, edge_length, guarded, own_numbers, place_of, refused_settings, symbol, Damage, Edge,
    Frame, Lent, GUARD,
};
use common::{
    any_settings, bits, count_from, second_open, typed_settings, widths_and_mcs, Draw, GOOD,
};
use ht_core::{
    floats_per_symbol, read_frame, symbol_count, FrameRefusal, OpenSettings, ReadRefusal, Reader,
    Refusal, Settings, Step,
};
use second::FrameAnswer;

/// The call's answer in the second program's form.
fn answer_of(result: Result<u32, FrameRefusal>) -> FrameAnswer {
    let refusal = match result {
        Ok(seed) => return FrameAnswer::Accepted { seed },
        Err(refusal) => refusal,
    };
    let number = refusal.refusal().number();
    match refusal {
        FrameRefusal::Settings(_) => {
            assert!((1..=4).contains(&number), "{refusal}");
            FrameAnswer::Refused(number)
        }
        FrameRefusal::Room => FrameAnswer::Refused(number),
        FrameRefusal::Point {
            symbol,
            stream,
            subcarrier,
        } => point(symbol as usize, (stream, subcarrier)),
        FrameRefusal::Code { symbol } | FrameRefusal::Frame { symbol } => {
            in_symbol(number, symbol as usize)
        }
        other => panic!("no refusal that is known: {other:?}"),
    }
}

fn point(symbol: usize, (stream, subcarrier): (u32, i32)) -> FrameAnswer {
    FrameAnswer::Point {
        symbol: symbol as u64,
        stream,
        subcarrier,
    }
}

fn in_symbol(number: u32, symbol: usize) -> FrameAnswer {
    let symbol = symbol as u64;
    FrameAnswer::Symbol { number, symbol }
}

/// The refusal's number, 0 where the frame was accepted, and the refused symbol if there is one.
fn parts(answer: FrameAnswer) -> (u32, Option<usize>) {
    match answer {
        FrameAnswer::Accepted { .. } => (0, None),
        FrameAnswer::Point { symbol, .. } => (9, Some(symbol as usize)),
        FrameAnswer::Symbol { number, symbol } => (number, Some(symbol as usize)),
        FrameAnswer::Refused(number) => (number, None),
    }
}

/// The same by a `Reader` that is handed one symbol's floats at a time, with the bytes that it has written. That the
/// slices are long enough for the frame is tested here, before its first step.
fn by_steps(open: OpenSettings, points: &[f32], room: usize) -> (FrameAnswer, Vec<u8>) {
    let mut reader = match Reader::start(open) {
        Ok(reader) => reader,
        Err(refusal) => return (FrameAnswer::Refused(refusal.number()), vec![]),
    };
    let count = symbol_count(open.with_seed(1)).unwrap() as usize;
    let mut read = vec![0; open.length as usize];
    if points.len() < count * reader.floats() || room < read.len() {
        return (FrameAnswer::Refused(8), vec![]);
    }
    for (n, floats) in points.chunks(reader.floats()).enumerate() {
        reader = match reader.step(floats, &mut read) {
            Ok(Step::Next { reader, .. }) => reader,
            Ok(Step::Done { seed }) => {
                assert_eq!(n + 1, count);
                return (answer_of(Ok(seed)), read);
            }
            Ok(other) => panic!("no step that is known: {other:?}"),
            Err(ReadRefusal::Point { stream, subcarrier }) => {
                return (point(n, (stream, subcarrier)), read)
            }
            Err(refusal) => return (in_symbol(refusal.refusal().number(), n), read),
        }
    }
    panic!("the reader waits after all symbols of {open:?}");
}

/// Frames that were read, counted by their number (0 where the frame was accepted).
#[derive(Debug, Default)]
struct Frames {
    given: [usize; 13],
    /// Refused frames of which a `Reader` had written bytes before it came to the refused symbol.
    undone: usize,
}

impl Frames {
    fn count(&self) -> usize {
        self.given.iter().sum()
    }

    /// One frame by the call, by the second program and by steps: the answer and all memory. The payload slice is left as
    /// the core leaves it.
    fn read(
        &mut self,
        open: impl Into<OpenSettings>,
        points: &[f32],
        lent: &mut Lent,
    ) -> FrameAnswer {
        let open = open.into();
        let before = lent.clone();
        let mut theirs = lent.clone();
        let want = second::read_frame(&second_open(open), points, theirs.slice());

        let floats = guarded(points);
        let slice = &floats[GUARD..GUARD + points.len()];
        let got = answer_of(read_frame(open, slice, lent.slice()));
        let context = || {
            let (floats, room) = (points.len(), lent.bytes().len());
            format!("{open:?}, {floats} floats, room for {room}")
        };
        assert_eq!(got, want, "{}", context());
        assert!(lent.memory() == theirs.memory(), "payload of {}", context());
        assert!(
            bits(&floats) == bits(&guarded(points)),
            "points of {}",
            context()
        );
        let (stepped, read) = by_steps(open, points, lent.bytes().len());
        assert_eq!(got, stepped, "{}", context());

        // What holds of every frame, whatever the second program says.
        if let FrameAnswer::Accepted { seed } = got {
            let (payload, past) = lent.bytes().split_at(open.length as usize);
            assert!(payload == read, "bytes of {}", context());
            assert!(past == &before.bytes()[payload.len()..]);
            // This payload and seed give the points.
            let s = open.with_seed(seed);
            let per_symbol = floats_per_symbol(s).unwrap();
            let count = symbol_count(s).unwrap() as usize;
            for (n, floats) in points.chunks(per_symbol).take(count).enumerate() {
                let own = bits(&symbol(s, payload, n));
                assert!(own == bits(floats), "symbol {n} of {}", context());
            }
        } else {
            assert!(lent.memory() == before.memory(), "bytes of {}", context());
            self.undone += usize::from(read.iter().any(|byte| *byte != 0));
        }
        self.given[parts(got).0 as usize] += 1;
        got
    }

    /// A frame, from a slice of floats with some more and into a slice of bytes with some more.
    fn read_back(&mut self, s: Settings, draw: &mut Draw) {
        let frame = Frame::new(s, draw);
        let mut points = frame.symbols.concat();
        for _ in 0..draw.of(&[0, 0, 1, 200]) {
            points.push(f32::from_bits(draw.next() as u32));
        }
        let mut lent = frame.lent(draw);
        let answer = self.read(s, &points, &mut lent);
        assert_eq!(answer, FrameAnswer::Accepted { seed: s.seed }, "{s:?}");
        assert!(lent.bytes()[..frame.payload.len()] == frame.payload);
    }
}

trait Whole {
    /// All symbols in one slice, with other floats for symbol n.
    fn with(&self, n: usize, floats: &[f32]) -> Vec<f32>;
    /// Room for the payload, often for more. No byte of it is right.
    fn lent(&self, draw: &mut Draw) -> Lent;
}

impl Whole for Frame {
    fn with(&self, n: usize, floats: &[f32]) -> Vec<f32> {
        let mut symbols: Vec<&[f32]> = self.symbols.iter().map(|own| &own[..]).collect();
        symbols[n] = floats;
        symbols.concat()
    }

    fn lent(&self, draw: &mut Draw) -> Lent {
        let mut lent = Lent::new(self.payload.len() + draw.of(&[0, 0, 1, 17]), draw);
        for (place, byte) in lent.slice().iter_mut().zip(&self.payload) {
            *place = !byte;
        }
        lent
    }
}

/// A frame of this many symbols, at least two; the last one has 9 to 16 payload bits.
fn frame_of(symbols: u32, width: u32, mcs: u32, draw: &mut Draw) -> Frame {
    let d = second::data_bits_per_symbol(width, mcs);
    let frame = Frame::new(any_settings(width, mcs, (symbols - 1) * d / 8, draw), draw);
    assert_eq!(frame.count(), symbols as usize, "{:?}", frame.s);
    frame
}

/// Every MCS, width and format; the shortest lengths, some symbols, and the edges of tail and pad.
#[test]
fn frames_of_every_mcs_width_format_and_edge_length() {
    let mut draw = Draw::new(81);
    let mut frames = Frames::default();
    let mut symbols = 0;
    for (width, mcs) in widths_and_mcs() {
        let d = second::data_bits_per_symbol(width, mcs);
        let mut lengths = vec![1, 2, d / 8, 3 * d / 8, 1 + draw.below(d.into()) as u32];
        for edge in [Edge::TailInTwo, Edge::TailBegins, Edge::NoPad] {
            lengths.extend(edge_length(width, mcs, edge));
        }
        for format in 0..2u32 {
            for length in &lengths {
                let s = any_settings(width, mcs, *length, &mut draw);
                frames.read_back(s.format(format), &mut draw);
                symbols += symbol_count(s).unwrap();
            }
        }
    }
    // The edges that the 64 MCS and widths have, as in the reader's tests.
    assert_eq!(frames.given[0], 2 * (64 * 5 + 50 + 64 + 18));
    assert_eq!(frames.count(), frames.given[0]);
    assert!(symbols > 2_000, "{symbols}");
}

/// Every seed; with the shortest frame also every payload.
#[test]
fn every_seed_is_read() {
    let mut draw = Draw::new(82);
    let mut frames = Frames::default();
    for seed in 1..=127 {
        for (width, mcs, length) in [(20, 0, 40), (20, 18, 50), (40, 9, 90), (40, 31, 400)] {
            let s = any_settings(width, mcs, length, &mut draw);
            frames.read_back(s.seed(seed), &mut draw);
        }
        let s = GOOD.seed(seed);
        for byte in 0..=255 {
            let points = [0, 1].map(|n| symbol(s, &[byte], n)).concat();
            let mut lent = Lent::new(1, &mut draw);
            lent.slice()[0] = !byte;
            let answer = frames.read(s, &points, &mut lent);
            assert_eq!(answer, FrameAnswer::Accepted { seed });
            assert_eq!(lent.bytes(), [byte]);
        }
    }
    assert_eq!(frames.given[0], 127 * (4 + 256));
}

/// The seed of the settings is not looked at, and the flags are in no point.
#[test]
fn seed_and_flags_do_not_matter() {
    let mut draw = Draw::new(83);
    for (width, mcs) in widths_and_mcs() {
        let frame = frame_of(2, width, mcs, &mut draw);
        let points = frame.symbols.concat();
        for seed in [0, frame.s.seed % 127 + 1, 128, u32::MAX] {
            let other = any_settings(width, mcs, frame.s.length, &mut draw);
            let s = other.seed(seed).format(frame.s.format);
            let mut payload = vec![0; frame.payload.len()];
            assert_eq!(read_frame(s, &points, &mut payload), Ok(frame.s.seed));
            assert!(payload == frame.payload);
        }
    }
}

/// Damage of every kind to every symbol of a frame that has a place for it.
#[test]
fn damage_of_every_kind_to_every_symbol() {
    let mut draw = Draw::new(84);
    let mut frames = Frames::default();
    let mut given = [[0; 13]; Damage::ALL.len()];
    let mut other_payloads = 0;
    let mut later = 0;
    let mut early_tails = 0;
    for (width, mcs) in widths_and_mcs() {
        let mut whole = vec![frame_of(4, width, mcs, &mut draw)];
        // Where there is one, a frame whose tail stands in two symbols.
        if let Some(length) = edge_length(width, mcs, Edge::TailInTwo) {
            let s = any_settings(width, mcs, length, &mut draw);
            whole.push(Frame::new(s, &mut draw));
        }
        for frame in &whole {
            let last = frame.count() - 1;
            for (damage, given) in Damage::ALL.into_iter().zip(&mut given) {
                for n in 0..=last {
                    let mut floats = frame.symbols[n].clone();
                    if !damage.apply(frame, n, &mut floats, &mut draw) {
                        continue;
                    }
                    let mut lent = frame.lent(&mut draw);
                    let answer = frames.read(frame.open, &frame.with(n, &floats), &mut lent);
                    let (number, symbol) = parts(answer);
                    // No symbol before the damaged one is refused.
                    assert!(symbol.is_none_or(|symbol| symbol >= n), "{damage:?}");
                    later += usize::from(symbol.is_some_and(|symbol| symbol > n));
                    early_tails += usize::from(damage == Damage::TailBit && n < last);
                    // Floats that are too many stay where all symbols stand before them; else they move the later ones.
                    let moved = damage == Damage::Junk && n < last;
                    if let Some(always) = damage.always().filter(|_| !moved) {
                        let at = (always > 0).then_some(n);
                        assert_eq!((number, symbol), (always, at), "{damage:?}, {:?}", frame.s);
                    }
                    if number == 0 {
                        let read = &lent.bytes()[..frame.payload.len()];
                        other_payloads += usize::from(read != frame.payload);
                    }
                    given[number as usize] += 1;
                }
            }
        }
    }
    for (damage, given) in Damage::ALL.into_iter().zip(&given) {
        let done: usize = given.iter().sum();
        assert!(done >= 64, "{damage:?} {given:?}");
    }
    let of = |damage: Damage| given[damage as usize];
    assert!(of(Damage::FloatBit)[9] > 200 && of(Damage::FloatBit)[10] > 0);
    assert!(of(Damage::OtherPoint)[10] > 200);
    // A bit that no later symbol needs gives another frame.
    assert!(of(Damage::PayloadBit)[0] > 100 && of(Damage::PayloadBit)[10] > 5);
    assert!(of(Damage::OtherLength)[0] > 10 && of(Damage::OtherLength)[11] > 10);
    assert!(of(Damage::OtherFormat)[0] > 10 && of(Damage::OtherFormat)[9] > 10);
    assert!(other_payloads > 100, "{other_payloads} other payloads");
    assert!(later > 300, "{later} refused after the damage");
    assert_eq!(early_tails, 50);
    assert!(frames.undone > 3_000, "{} undone", frames.undone);
    for number in [0, 9, 10, 11] {
        assert!(frames.given[number] > 200, "{:?}", frames.given);
    }
    assert_eq!(frames.given[8], 0);
}

/// Every bit of every float of the shortest frame: only the sign of a data level leads to another point.
#[test]
fn every_bit_of_every_float() {
    let mut draw = Draw::new(85);
    let mut frames = Frames::default();
    let frame = Frame::new(any_settings(20, 0, 1, &mut draw), &mut draw);
    let points = frame.symbols.concat();
    assert_eq!(points.len(), 2 * 112);
    let mut lent = frame.lent(&mut draw);
    for place in 0..points.len() {
        for bit in 0..32 {
            let mut points = points.clone();
            points[place] = f32::from_bits(points[place].to_bits() ^ 1 << bit);
            let answer = frames.read(frame.open, &points, &mut lent);
            if parts(answer).0 == 9 {
                assert_eq!(answer, point(place / 112, place_of(20, place % 112 / 2)));
            }
        }
    }
    assert_eq!(frames.given[9], 2 * (112 * 32 - 52));
    assert_eq!(frames.count(), 2 * 112 * 32);
    // A wrong sign is one wrong coded bit, which at rate 1/2 no payload and seed give.
    assert_eq!(frames.given[0], 0);
    assert!(frames.given[10] > 2 * 52 - 8, "{:?}", frames.given);
}

/// Of two damaged symbols the first is given, whatever the numbers: 9, 10 or 11 before 9, 10 or 11.
#[test]
fn the_first_refused_symbol_ends_it() {
    let kinds = |number: u32, n: usize| match number {
        9 => vec![Damage::Nan, Damage::NoLevel, Damage::PilotSign],
        10 => vec![Damage::CodedBit],
        _ if n == 0 => vec![Damage::ServiceBit, Damage::SeedZero],
        _ => vec![Damage::TailBit],
    };
    let mut draw = Draw::new(86);
    let mut frames = Frames::default();
    for (width, mcs) in widths_and_mcs() {
        let frame = frame_of(4, width, mcs, &mut draw);
        // Service bits stand in symbol 0, the tail in symbol 3.
        for first in [9, 10, 11] {
            for second in [9, 10, 11] {
                let i = if first == 11 {
                    0
                } else {
                    draw.below(3) as usize
                };
                let j = if second == 11 {
                    3
                } else {
                    i + 1 + draw.below(3 - i as u64) as usize
                };
                let mut symbols = frame.symbols.clone();
                for (number, n) in [(first, i), (second, j)] {
                    let damage = draw.of(&kinds(number, n));
                    assert!(damage.apply(&frame, n, &mut symbols[n], &mut draw));
                }
                let mut lent = frame.lent(&mut draw);
                let answer = frames.read(frame.open, &symbols.concat(), &mut lent);
                assert_eq!(parts(answer), (first, Some(i)), "{second} in {j}");
            }
        }
    }
    assert_eq!(frames.given[9..12], [64 * 3; 3]);
}

/// All failing points of a frame: the first of the first symbol is the place.
#[test]
fn the_place_is_in_the_first_symbol_that_fails() {
    let mut draw = Draw::new(87);
    let mut frames = Frames::default();
    for (width, mcs) in widths_and_mcs() {
        let frame = frame_of(3, width, mcs, &mut draw);
        let per_symbol = frame.symbols[0].len();
        for _ in 0..8 {
            let mut points = frame.symbols.concat();
            let failing: Vec<usize> = (0..1 + draw.below(5))
                .map(|_| draw.below(points.len() as u64) as usize)
                .collect();
            for place in &failing {
                points[*place] = draw.of(&[2.0, f32::NAN, -0.0, f32::INFINITY, 9.0, 1e-40]);
            }
            let first = failing.iter().min().unwrap();
            let (n, place) = (first / per_symbol, first % per_symbol);
            let answer = frames.read(frame.open, &points, &mut frame.lent(&mut draw));
            assert_eq!(
                answer,
                point(n, place_of(width, place / 2)),
                "{:?}",
                frame.s
            );
        }
    }
    assert_eq!(frames.given[9], 64 * 8);
}

/// The symbols in another order: two exchanged, one left out or twice, all turned round.
#[test]
fn symbols_in_another_order() {
    let mut draw = Draw::new(88);
    let mut frames = Frames::default();
    for (width, mcs) in widths_and_mcs() {
        let frame = frame_of(5, width, mcs, &mut draw);
        for turn in 0..8 {
            let mut order = vec![0, 1, 2, 3, 4];
            let (i, j) = (draw.below(4) as usize, 1 + draw.below(4) as usize);
            match turn {
                0..=2 => order.swap(i, if i < j { j } else { i + 1 }),
                3 => order.reverse(),
                4 => order.rotate_left(j),
                5 => order[j] = i,
                6 => {
                    // One left out, and the last one again in its stead.
                    order.remove(i);
                    order.push(4);
                }
                _ => {
                    order.insert(i, i);
                    order.truncate(5);
                }
            }
            let symbols: Vec<&[f32]> = order.iter().map(|n| &frame.symbols[*n][..]).collect();
            let answer = frames.read(frame.open, &symbols.concat(), &mut frame.lent(&mut draw));
            let first = order.iter().enumerate().position(|(n, from)| n != *from);
            match parts(answer) {
                (0, None) => assert_eq!(first, None, "{order:?} of {:?}", frame.s),
                (_, symbol) => assert!(symbol >= first, "{order:?} of {:?}", frame.s),
            }
        }
    }
    assert_eq!(frames.count(), 64 * 8);
    let [accepted, .., point, code, form, _] = frames.given;
    assert!(accepted > 0 && accepted < 64, "{:?}", frames.given);
    // Pilots have other signs in most symbols; where they do not, the data is told apart.
    assert!(point > 300 && code + form > 10, "{:?}", frames.given);
}

/// Turns over some of the payload bits that are these data bits of the frame.
fn redraw(payload: &mut [u8], data_bits: std::ops::Range<usize>, draw: &mut Draw) {
    for number in data_bits.start.max(16)..data_bits.end.min(16 + 8 * payload.len()) {
        payload[number / 8 - 2] ^= (draw.below(2) as u8) << (number % 8);
    }
}

/// The first symbols of one frame and the others of another. Where the payloads agree on the last six steps of each encoder
/// before the cut, this is a third frame, and read.
#[test]
fn the_symbols_of_two_frames() {
    let mut draw = Draw::new(89);
    let mut third = Frames::default();
    let mut refused = Frames::default();
    for (width, mcs) in widths_and_mcs() {
        let whole = frame_of(5, width, mcs, &mut draw);
        for cut in 1..5 {
            let start = own_numbers(whole.open, cut).start;
            let end = own_numbers(whole.open, 4).end;
            let six_steps = 6 * second::encoders(mcs) as usize;
            let (mut before, mut after) = (whole.payload.clone(), whole.payload.clone());
            redraw(&mut before, start..end, &mut draw);
            redraw(&mut after, 0..start - six_steps, &mut draw);
            let join = |one: &[u8], other: &[u8], s: Settings| {
                let own = (0..cut).map(|n| symbol(whole.s, one, n));
                own.chain((cut..5).map(|n| symbol(s, other, n)))
                    .collect::<Vec<_>>()
                    .concat()
            };
            let points = join(&before, &after, whole.s);
            let mut lent = whole.lent(&mut draw);
            let answer = third.read(whole.open, &points, &mut lent);
            assert_eq!(
                answer,
                FrameAnswer::Accepted { seed: whole.s.seed },
                "cut at {cut} of {:?}",
                whole.s
            );
            assert!(lent.bytes()[..whole.payload.len()] == whole.payload);

            // Any other payload; then another seed, the other format, another length.
            let any = draw.bytes(whole.payload.len());
            after.push(draw.next() as u8);
            let seed = whole.s.seed % 127 + 1;
            let (format, length) = (1 - whole.s.format, whole.s.length + 1);
            for (other, s) in [
                (&any, whole.s),
                (&after, whole.s.seed(seed)),
                (&after, whole.s.format(format)),
                (&after, whole.s.length(length)),
            ] {
                let points = join(&before, other, s);
                let answer = refused.read(whole.open, &points, &mut whole.lent(&mut draw));
                if let (_, Some(symbol)) = parts(answer) {
                    assert!(symbol >= cut, "cut at {cut} of {:?}", whole.s);
                }
            }
        }
    }
    assert_eq!(third.given[0], 64 * 4);
    assert_eq!(refused.count(), 64 * 4 * 4);
    let [accepted, .., point, code, form, _] = refused.given;
    // With the same six steps by chance this is a third frame too. The other format has other pilots in symbol 4, and a
    // longer frame has payload where this one has its tail.
    assert!(accepted > 0 && accepted < 20, "{:?}", refused.given);
    assert!(
        point == 64 * 4 && code > 300 && form > 200,
        "{:?}",
        refused.given
    );
    assert!(refused.undone > 600, "{}", refused.undone);
}

/// Slices of lengths around the needed ones: 8 before the points are looked at; what is too much stays.
#[test]
fn short_and_longer_slices() {
    let mut draw = Draw::new(90);
    let mut frames = Frames::default();
    for (width, mcs) in widths_and_mcs() {
        let frame = frame_of(2, width, mcs, &mut draw);
        let (need, length) = (2 * frame.symbols[0].len(), frame.payload.len());
        let mut points = frame.symbols.concat();
        points.resize(need + 1_000, f32::NAN);
        for count in [
            0,
            1,
            need / 2,
            need - 2,
            need - 1,
            need,
            need + 1,
            need + 1_000,
        ] {
            for room in [0, 1, length - 1, length, length + 1, length + 70_000] {
                let short = count < need || room < length;
                let want = match short {
                    true => FrameAnswer::Refused(8),
                    false => FrameAnswer::Accepted { seed: frame.s.seed },
                };
                let mut lent = Lent::new(room, &mut draw);
                let answer = frames.read(frame.open, &points[..count], &mut lent);
                assert_eq!(answer, want, "{count}, {room} of {:?}", frame.s);
                if short {
                    // The same of points that are none.
                    let none = vec![f32::NAN; count];
                    assert_eq!(frames.read(frame.open, &none, &mut lent), want);
                }
            }
        }
    }
    assert_eq!((frames.given[0], frames.given[8]), (64 * 9, 64 * 39 * 2));
}

/// Any of 1, 2, 3, 4, 8, 9, 10 and 11 at once, by a mask: the first in this order is given.
#[test]
fn refusals_in_order() {
    const ORDER: [u32; 8] = [1, 2, 3, 4, 8, 9, 10, 11];
    let mut draw = Draw::new(91);
    let mut frames = Frames::default();
    for mask in 0..256u32 {
        for _ in 0..4 {
            let frame = Frame::any(draw.of(&[20, 40]), draw.below(32) as u32, 3, &mut draw);
            let last = frame.count() - 1;
            let has = |number: u32| {
                let bit = ORDER.iter().position(|other| *other == number).unwrap();
                mask >> bit & 1 == 1
            };
            let (n, damage) = draw.of(&[
                (0, Damage::ServiceBit),
                (0, Damage::SeedZero),
                (last, Damage::TailBit),
            ]);
            let mut floats = frame.symbols[n].clone();
            let mut apply = |damage: Damage, draw: &mut Draw| {
                assert!(damage.apply(&frame, n, &mut floats, draw));
            };
            if has(11) {
                apply(damage, &mut draw);
            }
            if has(10) {
                apply(Damage::CodedBit, &mut draw);
            }
            if has(9) {
                let damage = draw.of(&[Damage::Nan, Damage::NoLevel, Damage::PilotSign]);
                apply(damage, &mut draw);
            }
            let mut points = frame.with(n, &floats);
            let mut room = frame.payload.len();
            if has(8) {
                let which = draw.below(3);
                if which < 2 {
                    points.truncate(draw.of(&[0, points.len() - 1]));
                }
                if which > 0 {
                    room = draw.of(&[0, room - 1]);
                }
            }
            let mut open = frame.open;
            for number in 1..=4 {
                if has(number) {
                    open = refused_settings(open, number.into(), &mut draw);
                }
            }
            let answer = frames.read(open, &points, &mut Lent::new(room, &mut draw));
            let first = ORDER.get(mask.trailing_zeros() as usize).copied();
            let (number, symbol) = parts(answer);
            assert_eq!(number, first.unwrap_or(0), "{mask:#b} of {open:?}");
            assert_eq!(symbol, (number > 8).then_some(n), "{mask:#b} of {open:?}");
        }
    }
    let want = [1, 128, 64, 32, 16, 0, 0, 0, 8, 4, 2, 1, 0].map(|masks| 4 * masks);
    assert_eq!(frames.given, want);
}

/// With refused settings no slice is looked at, however long it is.
#[test]
fn refused_settings_with_any_slices() {
    let mut draw = Draw::new(92);
    let mut frames = Frames::default();
    for (width, mcs) in widths_and_mcs() {
        let frame = frame_of(2, width, mcs, &mut draw);
        let points = frame.symbols.concat();
        for number in [1, 2, 3, 4] {
            for floats in [&points[..], &points[1..], &[]] {
                let open = refused_settings(frame.open, number, &mut draw);
                let room = draw.of(&[0, 1, frame.payload.len(), 66_000]);
                let answer = frames.read(open, floats, &mut Lent::new(room, &mut draw));
                assert_eq!(answer, FrameAnswer::Refused(number as u32), "{open:?}");
            }
        }
    }
    assert_eq!(frames.given[1..5], [64 * 3; 4]);
}

/// The longest payload, in the fewest symbols and in the most. Then with one symbol damaged, the last one among others.
#[test]
fn the_longest_frames() {
    let mut draw = Draw::new(93);
    for (width, mcs, count) in [(40, 31, 243), (20, 0, 20_166)] {
        let mut frames = Frames::default();
        let frame = Frame::new(any_settings(width, mcs, 65_535, &mut draw), &mut draw);
        assert_eq!(frame.count(), count);
        let whole = FrameAnswer::Accepted { seed: frame.s.seed };
        let mut lent = frame.lent(&mut draw);
        let mut points = frame.symbols.concat();
        assert_eq!(frames.read(frame.s, &points, &mut lent), whole);
        assert!(lent.bytes()[..65_535] == frame.payload);

        // One float too few, or one byte.
        let last = points.pop().unwrap();
        assert_eq!(
            frames.read(frame.s, &points, &mut lent),
            FrameAnswer::Refused(8)
        );
        points.push(last);
        let mut short = Lent::new(65_534, &mut draw);
        assert_eq!(
            frames.read(frame.s, &points, &mut short),
            FrameAnswer::Refused(8)
        );

        let mut lent = frame.lent(&mut draw);
        let middle = 1 + draw.below(count as u64 - 2) as usize;
        for (n, damage) in [
            (0, Damage::ServiceBit),
            (middle, Damage::Nan),
            (middle, Damage::CodedBit),
            (count - 1, Damage::PilotSign),
            (count - 1, Damage::CodedBit),
            (count - 1, Damage::TailBit),
            (count - 1, Damage::PadBit),
        ] {
            let mut floats = frame.symbols[n].clone();
            assert!(damage.apply(&frame, n, &mut floats, &mut draw));
            let answer = frames.read(frame.s, &frame.with(n, &floats), &mut lent);
            assert_eq!(parts(answer), (damage.always().unwrap(), Some(n)));
        }
        assert_eq!(frames.given[8..12], [2, 2, 2, 3]);
        // All but that of symbol 0.
        assert_eq!(frames.undone, 6);
    }
}

/// Any settings, damage, order of symbols and room.
#[test]
fn random_frames() {
    let count = count_from("HT_FUZZ_FRAMES", 4_000);
    let mut draw = Draw::new(94);
    let mut frames = Frames::default();
    while frames.count() < count {
        let frame = Frame::any(draw.of(&[20, 40]), draw.below(32) as u32, 5, &mut draw);
        for _ in 0..4 {
            random_frame(&frame, &mut frames, &mut draw);
        }
    }
    let given = frames.given;
    for number in [0, 8, 9, 10, 11] {
        assert!(given[number] * 50 > frames.count(), "{given:?}");
    }
    for number in [1, 2, 3, 4] {
        assert!(given[number] * 400 > frames.count(), "{given:?}");
    }
    assert!(frames.undone * 10 > frames.count(), "{}", frames.undone);
}

fn random_frame(frame: &Frame, frames: &mut Frames, draw: &mut Draw) {
    let mut open = frame.open;
    let mut symbols = frame.symbols.clone();
    for _ in 0..draw.of(&[0, 1, 1, 1, 1, 2]) {
        let n = draw.below(symbols.len() as u64) as usize;
        Damage::any(draw).apply(frame, n, &mut symbols[n], draw);
    }
    // Symbols of another frame of the same settings, or of other ones, from somewhere on.
    if draw.below(8) == 0 {
        let mut other = frame.payload.clone();
        let from = draw.below(8 * other.len() as u64 + 16) as usize;
        redraw(&mut other, from..usize::MAX, draw);
        let cut = draw.below(symbols.len() as u64) as usize;
        for (n, floats) in symbols.iter_mut().enumerate().skip(cut) {
            *floats = symbol(frame.s, &other, n);
        }
    }
    if draw.below(16) == 0 {
        let [i, j] = [0; 2].map(|_| draw.below(symbols.len() as u64) as usize);
        symbols.swap(i, j);
    }
    let mut points = symbols.concat();
    match draw.below(24) {
        0 => points.truncate(draw.below(points.len() as u64) as usize),
        1 => points.truncate(points.len() - 1),
        2 => points.extend([f32::NAN; 5]),
        3 => {
            // All floats from one on stand one place too low, or too high.
            let place = draw.below(points.len() as u64) as usize;
            match draw.below(2) {
                0 => drop(points.remove(place)),
                _ => points.insert(place, draw.of(&[0.0, 1.0, -1.0])),
            }
        }
        _ => {}
    }
    let room = any_room(frame.payload.len(), draw);
    // Settings that are refused, or that are others than the frame's.
    match draw.below(24) {
        0 | 1 => open = refused_settings(open, 1 + draw.below(4), draw),
        2 => open.format = 1 - open.format,
        3 => open.length = draw.of(&[open.length + 1, (open.length - 1).max(1)]),
        4 => open.mcs = open.mcs / 8 * 8 + draw.below(8) as u32,
        _ => {}
    }
    frames.read(open, &points, &mut Lent::new(room, draw));
}

/// The typed settings with a seed and without one, and what the typed refusals say.
#[test]
fn typed_settings_and_refusals() {
    let mut draw = Draw::new(95);
    for (width, mcs) in widths_and_mcs() {
        let length = 3 * second::data_bits_per_symbol(width, mcs) / 8;
        let s = typed_settings(width, mcs, length, &mut draw);
        let frame = Frame::new(s, &mut draw);
        let points = frame.symbols.concat();
        let mut payload = vec![0; frame.payload.len()];
        assert_eq!(read_frame(s, &points, &mut payload), Ok(s.seed));
        assert!(payload == frame.payload);
        let open = OpenSettings::from(s);
        payload.fill(0);
        assert_eq!(read_frame(open, &points, &mut payload), Ok(s.seed));
        assert!(payload == frame.payload);

        let mut damaged = frame.symbols.clone();
        assert!(Damage::CodedBit.apply(&frame, 2, &mut damaged[2], &mut draw));
        let code = read_frame(open, &damaged.concat(), &mut payload).unwrap_err();
        assert_eq!(code, FrameRefusal::Code { symbol: 2 });
        assert_eq!(
            format!("{code:#}"),
            format!("symbol 2: {:#}", Refusal::Code)
        );
        assert_eq!(code.to_string(), "refusal 10 CODE in symbol 2");

        let mut damaged = frame.symbols.clone();
        assert!(Damage::TailBit.apply(&frame, 3, &mut damaged[3], &mut draw));
        let form = read_frame(open, &damaged.concat(), &mut payload).unwrap_err();
        assert_eq!(form, FrameRefusal::Frame { symbol: 3 });
        assert_eq!(
            format!("{form:#}"),
            format!("symbol 3: {:#}", Refusal::Frame)
        );
        assert_eq!(form.to_string(), "refusal 11 FRAME in symbol 3");

        let mcs = open.mcs(32);
        let settings = read_frame(mcs, &points, &mut payload).unwrap_err();
        assert_eq!(settings, FrameRefusal::Settings(Refusal::Mcs));
        assert_eq!(
            format!("{settings:#}"),
            "the MCS is over 31 (refusal 2 MCS)"
        );
        assert_eq!(settings.to_string(), "refusal 2 MCS");
        assert!(payload == frame.payload);
    }
}

#[test]
fn refusals_in_words() {
    let point = FrameRefusal::Point {
        symbol: 12,
        stream: 1,
        subcarrier: -7,
    };
    let words = "symbol 12, stream 1, subcarrier -7: a point or a pilot is not one that the rules give at its place (refusal 9 POINT)";
    assert_eq!(format!("{point:#}"), words);
    assert_eq!(
        format!("{:#}", FrameRefusal::Room),
        format!("{:#}", Refusal::Room)
    );
    let words = "refusal 9 POINT in symbol 12 at stream 1, subcarrier -7";
    assert_eq!(point.to_string(), words);
    assert_eq!(FrameRefusal::Room.to_string(), "refusal 8 ROOM");
    let all = [
        (FrameRefusal::Settings(Refusal::Length), 4, None),
        (FrameRefusal::Room, 8, None),
        (point, 9, Some(12)),
        (FrameRefusal::Code { symbol: 0 }, 10, Some(0)),
        (FrameRefusal::Frame { symbol: 20_165 }, 11, Some(20_165)),
    ];
    for (refusal, number, symbol) in all {
        assert_eq!(refusal.refusal().number(), number);
        assert_eq!(refusal.symbol(), symbol);
        let boxed: Box<dyn std::error::Error> = Box::new(refusal);
        assert_eq!(boxed.to_string(), refusal.to_string());
    }
}
