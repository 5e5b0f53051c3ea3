//! The points and the one-subcarrier question against the independent second program, float for float by bits.

mod common;

use common::reading::GUARD;
use common::{bits, carried, numbered, question_range, second_settings, Draw, GOOD};
use ht_core::{carrier, floats_per_symbol, points, raw, symbol_count, Settings, MAX_FLOATS};

/// The bits of 0, 1, -1, 3, -3, 5, -5, 7 and -7: no other float is written, and no negative zero.
const LEVELS: [u32; 9] = [
    0x0000_0000,
    0x3F80_0000,
    0xBF80_0000,
    0x4040_0000,
    0xC040_0000,
    0x40A0_0000,
    0xC0A0_0000,
    0x40E0_0000,
    0xC0E0_0000,
];

/// What lent memory holds before a call, by the place in it.
type Fill = fn(usize) -> u32;

/// A quiet NaN, a signalling one, signalling ones that all differ, negative zeros, ordinary numbers, and NaNs of all kinds.
const FILLS: [Fill; 6] = [
    |_| 0x7FC0_0000,
    |_| 0x7FA0_0001,
    |place| 0xFF80_0001 + place as u32,
    |_| 0x8000_0000,
    |place| (0.37 * place as f32 - 11.0).to_bits(),
    any_nan,
];

/// NaNs, no two of neighbouring places alike: quiet and signalling, of both signs, each payload bit set in some.
fn any_nan(place: usize) -> u32 {
    let mixed = (place as u32 + 1).wrapping_mul(0x9E37_79B1);
    (mixed << 31) | 0x7F80_0000 | (mixed >> 9).max(1)
}

/// Memory with `room` floats to lend between the guards.
fn memory(room: usize, fill: Fill) -> Vec<f32> {
    (0..GUARD + room + GUARD)
        .map(|place| f32::from_bits(fill(place)))
        .collect()
}

/// The bits of that memory after a call that wrote `written` at the start of the lent slice.
fn after(room: usize, fill: Fill, written: &[u32]) -> Vec<u32> {
    let mut bits: Vec<u32> = (0..GUARD + room + GUARD).map(fill).collect();
    bits[GUARD..GUARD + written.len()].copy_from_slice(written);
    bits
}

/// One symbol as the second program has it.
fn second_symbol(s: Settings, payload: &[u8], symbol: u32) -> Result<Vec<u32>, u32> {
    let mut out = [0.0; MAX_FLOATS];
    let count = second::points(&second_settings(s), payload, symbol.into(), &mut out)?;
    Ok(bits(&out[..count]))
}

/// How much was compared.
#[derive(Debug, Default, PartialEq, Eq)]
struct Compared {
    symbols: usize,
    floats: usize,
}

/// One points call with `room` floats: the answer and all memory, where `want` is the symbol with enough room.
fn compare_points(
    (s, payload, symbol): (Settings, &[u8], u32),
    room: usize,
    fill: Fill,
    want: &Result<Vec<u32>, u32>,
) {
    let want = match want {
        Ok(floats) if floats.len() > room => Err(8),
        Ok(floats) => Ok(floats.as_slice()),
        Err(number) => Err(*number),
    };
    let mut lent = memory(room, fill);
    let got = numbered(points(s, payload, symbol, &mut lent[GUARD..GUARD + room]));
    let context = || {
        let bytes = payload.len();
        format!("symbol {symbol} of {s:?}, payload of {bytes}, room for {room}")
    };
    assert_eq!(got, want.map(|floats| floats.len()), "{}", context());
    let written = want.unwrap_or(&[]);
    assert!(
        bits(&lent) == after(room, fill, written),
        "floats of {}",
        context()
    );
    if let Ok(count) = got {
        assert_eq!(numbered(floats_per_symbol(s)), Ok(count));
        assert!(written.iter().all(|level| LEVELS.contains(level)));
    }
}

/// A frame's first symbol, its last two, and three of any number.
fn some_symbols(s: Settings, draw: &mut Draw) -> [u32; 6] {
    let count = symbol_count(s).unwrap();
    let last = count - 1;
    let mut any = || draw.below(count.into()) as u32;
    [0, last, last.saturating_sub(1), any(), any(), any()]
}

/// Five short lengths; three times the length that fills the last symbol as far as bytes can, and one byte more; the
/// longest. Also the number of those that fill it to the last bit.
fn edge_lengths(width: u32, mcs: u32) -> ([u32; 12], usize) {
    let per_symbol = second::data_bits_per_symbol(width, mcs);
    let around = 16 + 6 * second::encoders(mcs);
    let exact = |symbols: &u32| (symbols * per_symbol - around).is_multiple_of(8);
    // Three numbers of symbols with room for a byte; of those up to 40, ones that bytes can fill exactly, if there are any.
    let usable: Vec<u32> = (1..=40).filter(|n| n * per_symbol >= around + 8).collect();
    let mut numbers: Vec<u32> = usable.iter().copied().filter(exact).take(3).collect();
    let filled = numbers.len();
    numbers.extend(usable.iter().take(3 - filled));
    let [a, b, c] = [0, 1, 2].map(|n| (numbers[n] * per_symbol - around) / 8);
    let lengths = [1, 2, 3, 7, 8, a, a + 1, b, b + 1, c, c + 1, 65_535];
    (lengths, filled)
}

#[test]
fn every_mcs_width_format_and_edge_length() {
    let mut draw = Draw::new(11);
    let mut compared = Compared::default();
    let mut filled = 0;
    let mut seen = [0u64; LEVELS.len()];
    for width in [20u32, 40] {
        for mcs in 0..32 {
            let (lengths, exact) = edge_lengths(width, mcs);
            filled += exact;
            for format in 0..2u32 {
                for length in lengths {
                    let s = GOOD
                        .width(width)
                        .mcs(mcs)
                        .format(format)
                        .length(length)
                        .seed(draw.of(&[1, 2, 64, 93, 126, 127]));
                    let payload = draw.bytes(length as usize);
                    for symbol in some_symbols(s, &mut draw) {
                        let want = second_symbol(s, &payload, symbol);
                        let floats = want.as_ref().unwrap();
                        let room = floats.len() + draw.of(&[0, 0, 1, 17]);
                        compare_points((s, &payload, symbol), room, draw.of(&FILLS), &want);
                        compared.symbols += 1;
                        compared.floats += floats.len();
                        for (count, level) in seen.iter_mut().zip(LEVELS) {
                            *count += floats.iter().filter(|f| **f == level).count() as u64;
                        }
                    }
                }
            }
        }
    }
    // 64 MCS and widths, 2 formats, 12 lengths, 6 symbols. The symbols of the 32 MCS of a width have
    // 8 (1 + 2 + 3 + 4) = 80 streams together, of 112 or 228 floats.
    let want = Compared {
        symbols: 64 * 2 * 12 * 6,
        floats: 80 * (112 + 228) * 2 * 12 * 6,
    };
    assert_eq!(compared, want);
    // 18 of the 64 MCS and widths have lengths that fill a symbol to its last bit.
    assert_eq!(filled, 18 * 3);
    assert!(seen.iter().all(|count| *count > 10_000), "{seen:?}");
    assert_eq!(seen.iter().sum::<u64>(), compared.floats as u64);
}

/// Every room and every fill: the needed floats are written and the rest stays, or nothing is written.
#[test]
fn every_room_and_fill() {
    let mut draw = Draw::new(12);
    let mut calls = [0; 2];
    for width in [20u32, 40] {
        for mcs in 0..32 {
            let s = GOOD
                .width(width)
                .mcs(mcs)
                .format(mcs % 2)
                .length(1 + draw.below(300) as u32)
                .seed(1 + draw.below(127) as u32);
            let payload = draw.bytes(s.length as usize);
            let symbol = draw.below(symbol_count(s).unwrap().into()) as u32;
            let want = second_symbol(s, &payload, symbol);
            let need = want.as_ref().unwrap().len();
            for room in [0, 1, need - 1, need, need + 1, need + 17] {
                for fill in FILLS {
                    compare_points((s, &payload, symbol), room, fill, &want);
                    calls[usize::from(room < need)] += 1;
                }
            }
        }
    }
    assert_eq!(calls, [64 * 3 * FILLS.len(); 2]);
}

/// Bytes past the length are not looked at; one byte too few is 6 for every symbol, also for one without payload bits.
#[test]
fn payload_slices_of_every_length() {
    let mut draw = Draw::new(13);
    let mut calls = 0;
    for width in [20u32, 40] {
        for mcs in 0..32 {
            let length = 1 + draw.below(200) as u32;
            let s = GOOD
                .width(width)
                .mcs(mcs)
                .format(mcs % 2)
                .length(length)
                .seed(1 + draw.below(127) as u32);
            let payload = draw.bytes(length as usize);
            for symbol in some_symbols(s, &mut draw) {
                let want = second_symbol(s, &payload, symbol);
                let room = want.as_ref().unwrap().len();
                for more in [0, 1, 17, 1000] {
                    let longer = [payload.clone(), draw.bytes(more)].concat();
                    compare_points((s, &longer, symbol), room, draw.of(&FILLS), &want);
                }
                for short in [&payload[..length as usize - 1], &[]] {
                    compare_points((s, short, symbol), room, draw.of(&FILLS), &Err(6));
                }
                calls += 6;
            }
        }
    }
    assert_eq!(calls, 64 * 6 * 6);
}

/// Frames of every MCS and width, and four of the longest, against the second program's coding of the frame as a whole.
#[test]
fn whole_frames() {
    let mut draw = Draw::new(14);
    let mut frames: Vec<(u32, u32, u32)> = Vec::new();
    for width in [20u32, 40] {
        frames.extend((0..32).map(|mcs| (width, mcs, 300)));
    }
    frames.extend([
        (20, 0, 65_535),
        (20, 15, 65_535),
        (40, 18, 65_535),
        (40, 31, 65_535),
    ]);
    let mut compared = Compared::default();
    for (width, mcs, length) in frames {
        let s = GOOD
            .width(width)
            .mcs(mcs)
            .format(draw.below(2) as u32)
            .length(length)
            .seed(1 + draw.below(127) as u32);
        let payload = draw.bytes(length as usize);
        let frame = second::frame_points(&second_settings(s), &payload).unwrap();
        assert_eq!(numbered(symbol_count(s)), Ok(frame.len() as u32));
        for (symbol, floats) in (0..).zip(&frame) {
            let want = Ok(bits(floats));
            compare_points((s, &payload, symbol), floats.len(), FILLS[1], &want);
            compared.symbols += 1;
            compared.floats += floats.len();
        }
        let past = frame.len() as u32;
        compare_points((s, &payload, past), MAX_FLOATS, FILLS[1], &Err(7));
    }
    // The 64 frames of 300 bytes have 773 symbols together; then the four of 65,535.
    let want = Compared {
        symbols: 773 + 20_166 + 1_009 + 1_079 + 243,
        floats: 225_656 + 20_166 * 112 + 1_009 * 224 + 1_079 * 684 + 243 * 912,
    };
    assert_eq!(compared, want);
}

/// One call of the points and of the question: settings, the payload's length, the place and the room.
#[derive(Clone, Copy, Debug)]
struct Call {
    s: Settings,
    bytes: usize,
    symbol: u32,
    stream: u32,
    subcarrier: i32,
    room: usize,
    question_room: usize,
}

/// Any accepted call.
fn accepted_call(draw: &mut Draw, longest: u64) -> Call {
    let s = GOOD
        .width(draw.of(&[20u32, 40]))
        .mcs(draw.below(32) as u32)
        .format(draw.below(2) as u32)
        .length(1 + draw.below(longest) as u32)
        .seed(1 + draw.below(127) as u32)
        .smoothing(draw.of(&[0, 1, 2, u32::MAX]))
        .not_sounding(draw.of(&[0, 1, 256, u32::MAX]))
        .aggregation(draw.of(&[0u32, 1, 1 << 31]))
        .short_guard(draw.of(&[0u32, 1, 1 << 16]));
    let (lowest, highest) = question_range(s.width);
    Call {
        s,
        bytes: s.length as usize + draw.of(&[0, 0, 1, 40]),
        symbol: draw.below(symbol_count(s).unwrap().into()) as u32,
        stream: draw.below(u64::from(s.mcs / 8 + 1)) as u32,
        subcarrier: lowest + draw.below((highest - lowest + 1) as u64) as i32,
        room: floats_per_symbol(s).unwrap() + draw.of(&[0, 0, 1, 17]),
        question_room: draw.of(&[2, 2, 3, 19]),
    }
}

/// Makes a call wrong so that refusal `number` applies to the points, and to the question too. The wrong numbers are near
/// the right ones, or right ones with a bit above the eighth or the sixteenth.
fn spoil(call: &mut Call, good: &Call, number: u32, draw: &mut Draw) {
    let s = &mut call.s;
    match number {
        1 => s.width = draw.of(&[0, 19, 21, 39, 41, 276, 65_556, 65_576, u32::MAX]),
        2 => s.mcs = draw.of(&[32, 33, 127, 256, 287, 65_536, u32::MAX]),
        3 => s.format = draw.of(&[2, 3, 256, 257, 65_536, u32::MAX]),
        4 => s.length = draw.of(&[0, 65_536, 65_537, 1 << 24 | 1, u32::MAX]),
        5 => s.seed = draw.of(&[0, 128, 129, 255, 257, 65_537, u32::MAX]),
        6 => call.bytes = draw.of(&[0, good.s.length as usize - 1]),
        7 => {
            let count = symbol_count(good.s).unwrap();
            call.symbol = draw.of(&[count, count + 1, 1 << 16 | good.symbol, 1 << 31, u32::MAX]);
        }
        _ => {
            call.room = draw.of(&[0, floats_per_symbol(good.s).unwrap() - 1]);
            call.question_room = draw.below(2) as usize;
        }
    }
}

/// The points of a call, against the second program's own answer and memory.
fn compare_call(call: &Call, pool: &[u8], fill: Fill) -> Result<usize, u32> {
    let (s, room) = (call.s, call.room);
    let payload = &pool[..call.bytes];
    let mut theirs = memory(room, fill);
    let want = second::points(
        &second_settings(s),
        payload,
        call.symbol.into(),
        &mut theirs[GUARD..GUARD + room],
    );
    let mut ours = memory(room, fill);
    let got = numbered(points(
        s,
        payload,
        call.symbol,
        &mut ours[GUARD..GUARD + room],
    ));
    assert_eq!(got, want, "{call:?}");
    assert!(bits(&ours) == bits(&theirs), "floats of {call:?}");
    if want.is_err() {
        assert!(bits(&ours) == after(room, fill, &[]), "floats of {call:?}");
    }
    got
}

/// The question of a call, with and without its floats lent. The second program lends none, so 8 is told here.
fn compare_question(call: &Call, pool: &[u8], fill: Fill) -> Result<Vec<u32>, u32> {
    let Call {
        s,
        symbol,
        stream,
        subcarrier,
        question_room: room,
        ..
    } = *call;
    let payload = &pool[..call.bytes];
    let answer = second::carrier(
        &second_settings(s),
        payload,
        symbol.into(),
        stream.into(),
        subcarrier.into(),
    );
    let answer = answer.map(|answer| match answer {
        second::Carrier::Silent => vec![],
        second::Carrier::Pilot(sign) => vec![sign.to_bits()],
        second::Carrier::Data(first, second) => vec![first.to_bits(), second.to_bits()],
    });
    let want = match &answer {
        Ok(_) if room < 2 => Err(8),
        other => other.clone(),
    };
    let mut lent = memory(room, fill);
    let slice = &mut lent[GUARD..GUARD + room];
    let got = raw::carrier(s, payload, symbol, stream, subcarrier, slice);
    assert_eq!(numbered(got).map(carried), want, "{call:?}");
    let written = want.as_deref().unwrap_or(&[]);
    assert!(
        bits(&lent) == after(room, fill, written),
        "floats of {call:?}"
    );
    let plain = carrier(s, payload, symbol, stream, subcarrier);
    assert_eq!(numbered(plain).map(carried), answer, "{call:?}");
    answer
}

/// Any of refusals 1 to 8 at once, by a mask: the lowest number is given, by both calls, and nothing is written.
#[test]
fn refusals_come_in_order() {
    let mut draw = Draw::new(15);
    let pool = draw.bytes(1_100);
    let mut given = [0; 9];
    for mask in 0..256u32 {
        for _ in 0..8 {
            let good = accepted_call(&mut draw, 1_000);
            let mut call = good;
            let faults = (1..=8).filter(|number| mask >> (number - 1) & 1 == 1);
            for number in faults.clone() {
                spoil(&mut call, &good, number, &mut draw);
            }
            let first = faults.min().unwrap_or(0);
            let got = compare_call(&call, &pool, draw.of(&FILLS));
            assert_eq!(got.err().unwrap_or(0), first, "{call:?}");

            // The question has three kinds of place to be wrong.
            if mask >> 6 & 1 == 1 {
                let (lowest, highest) = question_range(good.s.width);
                let streams = good.s.mcs / 8 + 1;
                let kinds = 1 + draw.below(7);
                if kinds & 1 == 0 {
                    call.symbol = good.symbol;
                }
                if kinds & 2 == 2 {
                    call.stream = draw.of(&[streams, 4, 256 | good.stream, 1 << 16, u32::MAX]);
                }
                if kinds & 4 == 4 {
                    let far = good.subcarrier + draw.of(&[-65_536, -256, 256, 65_536]);
                    call.subcarrier = draw.of(&[lowest - 1, highest + 1, far, i32::MIN, i32::MAX]);
                }
            }
            let answer = compare_question(&call, &pool, draw.of(&FILLS));
            // With its own two floats the question has no refusal 8.
            let without_room = if first == 8 { 0 } else { first };
            assert_eq!(answer.err().unwrap_or(0), without_room, "{call:?}");
            given[first as usize] += 1;
        }
    }
    assert_eq!(given, [8, 1024, 512, 256, 128, 64, 32, 16, 8]);
}

/// The proofs know one NaN only; here lent floats hold NaNs of many bit patterns. Each stays as it is, bit for bit, under every refusal
/// of both calls, past what they write, and under a silent subcarrier.
#[test]
fn nans_keep_their_bits() {
    let nans: Vec<u32> = (0..GUARD + MAX_FLOATS + GUARD).map(any_nan).collect();
    assert!(nans.iter().all(|bits| f32::from_bits(*bits).is_nan()));
    assert!(nans.windows(2).all(|pair| pair[0] != pair[1]));
    assert_eq!(nans.iter().fold(0, |all, bits| all | bits), u32::MAX);
    for (sign, quiet) in [(0, 0), (0, 1), (1, 0), (1, 1)] {
        let kind = |bits: &&u32| **bits >> 31 == sign && **bits >> 22 & 1 == quiet;
        assert!(nans.iter().filter(kind).count() > 100);
    }

    let mut draw = Draw::new(20);
    let pool = draw.bytes(400);
    let (mut given, mut answered) = ([0; 9], [0; 3]);
    for fill in [FILLS[0], FILLS[1], FILLS[2], any_nan] {
        for number in 0..=8 {
            for _ in 0..30 {
                let good = accepted_call(&mut draw, 300);
                let mut call = good;
                if number > 0 {
                    spoil(&mut call, &good, number, &mut draw);
                }
                let got = compare_call(&call, &pool, fill);
                assert_eq!(got.err().unwrap_or(0), number, "{call:?}");
                given[number as usize] += 1;
                // The question is refused too, or answered; 8 is its answer with two floats of its own.
                if let Ok(levels) = compare_question(&call, &pool, fill) {
                    answered[levels.len()] += 1;
                }
                let silent = Call {
                    subcarrier: draw.of(&[0, question_range(good.s.width).0]),
                    ..good
                };
                assert_eq!(compare_question(&silent, &pool, fill), Ok(vec![]));
            }
        }
    }
    assert_eq!(given, [4 * 30; 9]);
    assert!(answered.iter().all(|count| *count > 10), "{answered:?}");
}

/// Numbers that would pass if they were cut to 8 or 16 bits, with slices that would suffice.
#[test]
fn nothing_wraps() {
    let pool = Draw::new(16).bytes(65_600);
    let good = Call {
        s: GOOD.mcs(8),
        bytes: 65_600,
        symbol: 0,
        stream: 0,
        subcarrier: 1,
        room: MAX_FLOATS,
        question_room: 2,
    };
    assert_eq!(compare_call(&good, &pool, FILLS[0]), Ok(224));
    let settings = [
        (1, good.s.width(276u32)),
        (1, good.s.width(1u32 << 16 | 40)),
        (2, good.s.mcs(256)),
        (2, good.s.mcs(1 << 16 | 31)),
        (3, good.s.format(256u32)),
        (3, good.s.format(1u32 << 16 | 1)),
        (4, good.s.length(65_537)),
        (4, good.s.length(1 << 31 | 1)),
        (5, good.s.seed(129)),
        (5, good.s.seed(257)),
        (5, good.s.seed(1 << 16 | 1)),
    ];
    for (number, s) in settings {
        let call = Call { s, ..good };
        assert_eq!(compare_call(&call, &pool, FILLS[1]), Err(number));
        assert_eq!(compare_question(&call, &pool, FILLS[1]), Err(number));
    }
    for symbol in [1 << 8, 1 << 16, 1 << 24, 1 << 31, u32::MAX] {
        let call = Call { symbol, ..good };
        assert_eq!(compare_call(&call, &pool, FILLS[1]), Err(7));
        assert_eq!(compare_question(&call, &pool, FILLS[1]), Err(7));
    }
    for stream in [2, 3, 4, 1 << 8, 1 << 16, 1 << 31, u32::MAX] {
        let call = Call { stream, ..good };
        assert_eq!(compare_question(&call, &pool, FILLS[1]), Err(7));
    }
    for wrap in [1 << 6, 1 << 7, 1 << 8, 1 << 16, 1 << 30] {
        for subcarrier in [1 - wrap, 1 + wrap, i32::MIN, i32::MAX] {
            let call = Call { subcarrier, ..good };
            assert_eq!(compare_question(&call, &pool, FILLS[1]), Err(7));
        }
    }
}

#[test]
fn random_calls() {
    let mut draw = Draw::new(17);
    let pool = draw.bytes(65_600);
    let mut given = [0; 9];
    for turn in 0..20_000 {
        let longest = if turn % 8 == 0 { 65_535 } else { 400 };
        let good = accepted_call(&mut draw, longest);
        let mut call = good;
        for number in 1..=8 {
            if draw.below(12) == 0 {
                spoil(&mut call, &good, number, &mut draw);
            }
        }
        let got = compare_call(&call, &pool, draw.of(&FILLS));
        given[got.err().unwrap_or(0) as usize] += 1;
        compare_question(&call, &pool, draw.of(&FILLS)).ok();
    }
    assert_eq!(given.iter().sum::<u32>(), 20_000);
    assert!(given.iter().all(|count| *count > 500), "{given:?}");
}

/// Step 8 on bits: at 40 MHz above 0 (a, b) becomes (-b, a), and -0 is 0.
fn turned(width: u32, subcarrier: i32, (a, b): (u32, u32)) -> [u32; 2] {
    if width == 40 && subcarrier > 0 {
        [if b == 0 { 0 } else { b ^ 1 << 31 }, a]
    } else {
        [a, b]
    }
}

/// What the question was asked and answered.
#[derive(Debug, Default, PartialEq, Eq)]
struct Asked {
    silent: usize,
    pilots: usize,
    data: usize,
    refused: usize,
}

/// Every subcarrier and two beyond on each side, every stream and one beyond. The answers, turned, are the points.
#[test]
fn the_question_for_every_stream_and_subcarrier() {
    let mut draw = Draw::new(18);
    let mut asked = Asked::default();
    for width in [20u32, 40] {
        for mcs in 0..32 {
            let good = accepted_call(&mut draw, 200);
            let s = good.s.width(width).mcs(mcs);
            let payload = draw.bytes(s.length as usize);
            let [first, last, _, any, ..] = some_symbols(s, &mut draw);
            for symbol in [first, last, any] {
                let mut out = [0.0; MAX_FLOATS];
                let count = points(s, &payload, symbol, &mut out).unwrap();
                let mut floats = bits(&out[..count]).into_iter();
                let (lowest, highest) = question_range(width);
                for stream in 0..=mcs / 8 + 1 {
                    for subcarrier in lowest - 2..=highest + 2 {
                        let call = Call {
                            s,
                            bytes: payload.len(),
                            symbol,
                            stream,
                            subcarrier,
                            question_room: draw.of(&[2, 3, 19]),
                            ..good
                        };
                        let answer = compare_question(&call, &payload, draw.of(&FILLS));
                        let outside = subcarrier < lowest || subcarrier > highest;
                        assert_eq!(answer.is_err(), outside || stream > mcs / 8, "{call:?}");
                        let point = match answer.as_deref() {
                            Err(number) => {
                                assert_eq!(*number, 7);
                                asked.refused += 1;
                                continue;
                            }
                            Ok([]) => {
                                asked.silent += 1;
                                continue;
                            }
                            Ok([sign]) => {
                                assert!(*sign == 0x3F80_0000 || *sign == 0xBF80_0000);
                                asked.pilots += 1;
                                (*sign, 0)
                            }
                            Ok(levels) => {
                                assert!(levels.iter().all(|level| LEVELS.contains(level)));
                                asked.data += 1;
                                (levels[0], levels[1])
                            }
                        };
                        for level in turned(width, subcarrier, point) {
                            assert_eq!(floats.next(), Some(level), "{call:?}");
                        }
                    }
                }
                assert_eq!(floats.next(), None);
            }
        }
    }
    // Of 3 symbols, the 32 MCS of a width have 80 streams together, and 32 more are beyond.
    let want = Asked {
        silent: 3 * 80 * (8 + 14),
        pilots: 3 * 80 * (4 + 6),
        data: 3 * 80 * (52 + 108),
        refused: 3 * (80 * (4 + 4) + 32 * (68 + 132)),
    };
    assert_eq!(asked, want);
}

/// Fewer than two floats are 8 for silent subcarriers and pilots too, and after 7.
#[test]
fn the_question_needs_two_floats_whatever_the_answer() {
    let mut draw = Draw::new(19);
    let mut calls = 0;
    for (width, mcs) in [(20, 0), (20, 21), (40, 2), (40, 31)] {
        let good = accepted_call(&mut draw, 30);
        let s = good.s.width(width).mcs(mcs);
        let payload = draw.bytes(s.length as usize);
        let (lowest, highest) = question_range(width);
        for stream in 0..=mcs / 8 + 1 {
            for subcarrier in lowest - 2..=highest + 2 {
                for question_room in [0, 1] {
                    let call = Call {
                        s,
                        bytes: payload.len(),
                        symbol: 0,
                        stream,
                        subcarrier,
                        question_room,
                        ..good
                    };
                    for fill in FILLS {
                        compare_question(&call, &payload, fill).ok();
                        calls += 1;
                    }
                }
            }
        }
    }
    // Streams and one beyond: 2 and 4 at 20 MHz, 2 and 5 at 40.
    assert_eq!(calls, ((2 + 4) * 68 + (2 + 5) * 132) * 2 * FILLS.len());
}
