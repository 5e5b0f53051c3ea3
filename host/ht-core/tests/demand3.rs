//! Demand 3, run on pairs of frames of the core alone: what two frames share whatever their payloads hold, when a symbol
//! is equal, and when it differs. Only the data bits per symbol and the encoders' number come from the second program.

mod common;

use common::{
    any_settings, bits, carried, numbered, pilot_places, question_range, reading, Draw, GOOD,
};
use ht_core::{carrier, floats_per_symbol, points, raw, symbol_count, Settings};
use std::collections::HashSet;
use std::ops::Range;

/// A symbol's levels by bits.
fn symbol(s: Settings, payload: &[u8], n: u32) -> Vec<u32> {
    bits(&reading::symbol(s, payload, n as usize))
}

/// The question's answers for every stream and subcarrier of a symbol, one after the other.
fn answers(s: Settings, payload: &[u8], n: u32) -> impl Iterator<Item = Vec<u32>> + '_ {
    let (lowest, highest) = question_range(s.width);
    (0..s.mcs / 8 + 1)
        .flat_map(move |stream| (lowest..=highest).map(move |k| (stream, k)))
        .map(move |(stream, k)| carried(carrier(s, payload, n, stream, k).unwrap()))
}

/// Whether some stream and subcarrier of symbol n has unequal data points.
fn data_points_differ(one: (Settings, &[u8]), other: (Settings, &[u8]), n: u32) -> bool {
    answers(one.0, one.1, n)
        .zip(answers(other.0, other.1, n))
        .any(|(a, b)| a.len() == 2 && b.len() == 2 && a != b)
}

/// The payload's data bits: bit b of byte j is 16 + 8j + b.
fn payload_bits(length: u32) -> Range<u64> {
    16..16 + 8 * u64::from(length)
}

fn flip(payload: &mut [u8], data_bit: u64) {
    let place = data_bit as usize - 16;
    payload[place / 8] ^= 1 << (place % 8);
}

/// A slice that begins with the payload and goes on with bytes that are not looked at.
fn slice(payload: &[u8], draw: &mut Draw) -> Vec<u8> {
    let more = draw.of(&[0, 0, 1, 30]);
    [payload.to_vec(), draw.bytes(more)].concat()
}

/// One frame asked for a place, with room for floats and for signal bytes.
#[derive(Clone, Copy, Debug)]
struct Ask {
    s: Settings,
    symbol: u32,
    stream: u32,
    subcarrier: i32,
    room: usize,
    question_room: usize,
    sig_room: usize,
}

/// What must not depend on the payload: count, signal bytes, pilots, kind and pilot sign, and every refusal.
#[derive(Debug, PartialEq, Eq)]
struct Open {
    count: Result<u32, u32>,
    sig: Result<Vec<u8>, u32>,
    pilots: Result<Vec<[u32; 2]>, u32>,
    /// The number of floats, and a pilot's sign.
    kind: Result<(usize, Option<u32>), u32>,
}

/// The frame's answers, with lent memory that holds `fill` beforehand.
fn open(ask: &Ask, payload: &[u8], fill: u8) -> Open {
    let s = ask.s;
    let mut sig = vec![fill; ask.sig_room];
    let mut out = vec![f32::from(fill); ask.room];
    let written = numbered(points(s, payload, ask.symbol, &mut out));
    let (places, used) = pilot_places(s.width);
    let mut two = vec![f32::from(fill); ask.question_room];
    let answer = raw::carrier(s, payload, ask.symbol, ask.stream, ask.subcarrier, &mut two);
    Open {
        count: numbered(symbol_count(s)),
        sig: numbered(raw::sig_write(s, &mut sig)).map(|()| sig[..6].to_vec()),
        pilots: written.map(|count| {
            bits(&out[..count])
                .chunks(2 * used)
                .flat_map(|stream| places.iter().map(|f| [stream[2 * f], stream[2 * f + 1]]))
                .collect()
        }),
        kind: numbered(answer).map(|answer| {
            let floats = carried(answer);
            let sign = (floats.len() == 1).then(|| floats[0]);
            (floats.len(), sign)
        }),
    }
}

/// 'Signal bits, symbol count, refusals and pilots are equal', for settings and places that are refused too.
#[test]
fn signal_bits_count_refusals_and_pilots_are_equal() {
    let mut draw = Draw::new(31);
    let pools = [
        draw.bytes(65_600),
        draw.bytes(65_600),
        vec![0; 65_600],
        vec![255; 65_600],
    ];
    let mut pairs = 0;
    let mut pilots = 0;
    let mut refused = [0; 9];
    for turn in 0..64 * 120u32 {
        let (width, mcs) = ([20, 40][(turn % 2) as usize], turn / 2 % 32);
        let length = match draw.below(8) {
            0 => 1 + draw.below(65_535) as u32,
            _ => 1 + draw.below(300) as u32,
        };
        let good = any_settings(width, mcs, length, &mut draw);
        let (lowest, highest) = question_range(width);
        let count = symbol_count(good).unwrap();
        let need = floats_per_symbol(good).unwrap();
        let mut ask = Ask {
            s: good,
            symbol: draw.below(u64::from(count)) as u32,
            stream: draw.below(u64::from(mcs / 8 + 1)) as u32,
            subcarrier: lowest + draw.below((highest - lowest + 1) as u64) as i32,
            room: need + draw.of(&[0, 1, 17]),
            question_room: draw.of(&[1, 2, 2, 2, 3]),
            sig_room: draw.of(&[0, 5, 6, 7]),
        };
        match draw.below(16) {
            0 => ask.s.width = draw.of(&[0, 21, 276, u32::MAX]),
            1 => ask.s.mcs = draw.of(&[32, 256, u32::MAX]),
            2 => ask.s.format = draw.of(&[2, 256, u32::MAX]),
            3 => ask.s.length = draw.of(&[0, 65_536, 65_537]),
            4 => ask.s.seed = draw.of(&[0, 128, 129, u32::MAX]),
            5 => ask.symbol = draw.of(&[count, count + 1, u32::MAX]),
            6 => ask.stream = draw.of(&[mcs / 8 + 1, 4, u32::MAX]),
            7 => ask.subcarrier = draw.of(&[lowest - 1, highest + 1, i32::MIN, i32::MAX]),
            8 => ask.room = draw.of(&[0, 1, need - 1]),
            _ => {}
        }
        // Two payloads, both whole, in slices of any such length.
        let whole = ask.s.length as usize;
        let pool = draw.below(4);
        let another = (pool + 1 + draw.below(3)) % 4;
        let [one, other] = [pool, another].map(|pool| {
            let bytes = whole + draw.of(&[0, 1, 40]);
            (&pools[pool as usize][..bytes], draw.of(&[0x5A, 0xC3, 0x00]))
        });
        let got = open(&ask, one.0, one.1);
        assert_eq!(got, open(&ask, other.0, other.1), "{ask:?}");
        pairs += 1;
        for number in [got.count.err(), got.sig.err(), got.kind.err()] {
            refused[number.unwrap_or(0) as usize] += 1;
        }
        match got.pilots {
            Ok(signs) => pilots += signs.len(),
            Err(number) => refused[number as usize] += 1,
        }
    }
    assert_eq!(pairs, 64 * 120);
    assert!(pilots > 50_000, "{pilots} pilots were compared");
    // Both payloads are whole, so 6 is not given; every other answer is.
    for (number, count) in refused.iter().enumerate() {
        assert_eq!(*count > 200, number != 6, "{refused:?}");
    }
}

/// The question's kind and the pilot's sign, for every stream and subcarrier of a symbol.
#[test]
fn kinds_and_pilot_signs_are_equal() {
    let mut draw = Draw::new(32);
    let mut kinds = [0; 3];
    for width in [20, 40] {
        for mcs in 0..32 {
            let s = any_settings(width, mcs, 1 + draw.below(200) as u32, &mut draw);
            let number = draw.below(symbol_count(s).unwrap().into()) as u32;
            let [one, other] = [0, 1].map(|_| draw.bytes(s.length as usize + 3));
            let one = answers(s, &one, number);
            for (a, b) in one.zip(answers(s, &other, number)) {
                assert_eq!(a.len(), b.len(), "{s:?}");
                assert!(a.len() == 2 || a == b, "{s:?}");
                kinds[a.len()] += 1;
            }
        }
    }
    // Silent, pilot and data subcarriers of the 80 streams of a width's 32 MCS.
    assert_eq!(kinds, [80 * (8 + 14), 80 * (4 + 6), 80 * (52 + 108)]);
}

/// The data bits that symbol n depends on: its own and those of each encoder's last six steps before it.
fn window(width: u32, mcs: u32, n: u64) -> Range<u64> {
    let per_symbol = u64::from(second::data_bits_per_symbol(width, mcs));
    let before = 6 * u64::from(second::encoders(mcs));
    (n * per_symbol).saturating_sub(before)..(n + 1) * per_symbol
}

/// A length with which a frame has a few symbols.
fn few_symbols(width: u32, mcs: u32, draw: &mut Draw) -> u32 {
    let per_symbol = u64::from(second::data_bits_per_symbol(width, mcs));
    let bytes = (2 * per_symbol + draw.below(4 * per_symbol)) / 8;
    bytes as u32
}

/// 'Each symbol is equal whenever the payloads agree on every byte with a bit in that symbol's own data bits or in the
/// last six steps of each encoder before it': every other byte differs here.
#[test]
fn a_symbol_is_equal_where_its_bytes_are() {
    let mut draw = Draw::new(33);
    let mut pairs = 0;
    let mut changed_bytes = 0;
    let mut compared = 0;
    for width in [20, 40] {
        for mcs in 0..32 {
            for turn in 0..6 {
                let s = any_settings(width, mcs, few_symbols(width, mcs, &mut draw), &mut draw);
                let count = u64::from(symbol_count(s).unwrap());
                let n = match turn {
                    0 => 0,
                    1 => count - 1,
                    _ => draw.below(count),
                };
                let one = draw.bytes(s.length as usize);
                let mut other = one.clone();
                let window = window(width, mcs, n);
                for (j, byte) in (0..).zip(&mut other) {
                    let first = 16 + 8 * j;
                    if first + 7 < window.start || first >= window.end {
                        *byte ^= 1 + draw.below(255) as u8;
                        changed_bytes += 1;
                    }
                }
                assert_ne!(one, other, "{s:?}: no byte is outside symbol {n}");
                let (one, other) = (slice(&one, &mut draw), slice(&other, &mut draw));
                let n = n as u32;
                assert!(symbol(s, &one, n) == symbol(s, &other, n), "{n} of {s:?}");
                if turn < 3 {
                    for (a, b) in answers(s, &one, n).zip(answers(s, &other, n)) {
                        assert_eq!(a, b, "{n} of {s:?}");
                        compared += 1;
                    }
                }
                pairs += 1;
            }
        }
    }
    assert_eq!(pairs, 64 * 6);
    assert!(changed_bytes > 20_000, "{changed_bytes}");
    assert_eq!(compared, 3 * 80 * (64 + 128));
}

/// The window is no wider than it has to be: each of its bits before the symbol's own shows in the symbol, and the step
/// before them does not.
#[test]
fn the_six_steps_before_a_symbol_show_in_it() {
    let mut draw = Draw::new(34);
    let mut shown = 0;
    let mut hidden = 0;
    for width in [20, 40] {
        for mcs in 0..32 {
            let per_symbol = u64::from(second::data_bits_per_symbol(width, mcs));
            let encoders = u64::from(second::encoders(mcs));
            let length = (4 * per_symbol / 8) as u32;
            let s = any_settings(width, mcs, length, &mut draw);
            let n = 2;
            let one = draw.bytes(length as usize);
            let whole = symbol(s, &one, n as u32);
            let own = n * per_symbol;
            for data_bit in own - 7 * encoders..own {
                assert!(payload_bits(length).contains(&data_bit));
                let mut other = one.clone();
                flip(&mut other, data_bit);
                let differs = symbol(s, &other, n as u32) != whole;
                assert_eq!(
                    differs,
                    data_bit >= own - 6 * encoders,
                    "{data_bit} of {s:?}"
                );
                if differs {
                    assert!(data_points_differ((s, &one), (s, &other), n as u32));
                    shown += 1;
                } else {
                    hidden += 1;
                }
            }
        }
    }
    // One encoder in half of the MCS, two in the other half.
    assert_eq!((shown, hidden), (32 * 6 + 32 * 12, 32 + 32 * 2));
}

/// 'Where both frames are accepted and their payloads differ, the symbol that carries the first differing bit differs',
/// and the question shows it.
#[test]
fn the_symbol_of_the_first_differing_bit_differs() {
    let mut draw = Draw::new(35);
    let mut pairs = 0;
    for width in [20, 40] {
        for mcs in 0..32 {
            let per_symbol = u64::from(second::data_bits_per_symbol(width, mcs));
            for turn in 0..16 {
                let length = match turn {
                    0 => 65_535,
                    _ => few_symbols(width, mcs, &mut draw),
                };
                let s = any_settings(width, mcs, length, &mut draw);
                let range = payload_bits(length);
                let within = range.end - range.start;
                // The ends of the payload, the ends of a symbol, and any bit.
                let first = match turn {
                    1 => range.start,
                    2 => range.end - 1,
                    3 => (1 + draw.below(2)) * per_symbol,
                    4 => (1 + draw.below(2)) * per_symbol - 1,
                    _ => range.start + draw.below(within),
                };
                let first = first.clamp(range.start, range.end - 1);
                let one = draw.bytes(length as usize);
                let mut other = one.clone();
                flip(&mut other, first);
                // All that follows is any payload, in every other pair the same one.
                if turn % 2 == 1 {
                    for data_bit in first + 1..range.end.min(first + 20_000) {
                        if draw.below(2) == 1 {
                            flip(&mut other, data_bit);
                        }
                    }
                }
                let (one, other) = (slice(&one, &mut draw), slice(&other, &mut draw));
                let n = (first / per_symbol) as u32;
                assert!(
                    symbol(s, &one, n) != symbol(s, &other, n),
                    "{first} of {s:?}"
                );
                assert!(
                    data_points_differ((s, &one), (s, &other), n),
                    "{first} of {s:?}"
                );
                pairs += 1;
            }
        }
    }
    assert_eq!(pairs, 64 * 16);
}

/// The scrambler's first outputs for a seed, x^7 + x^4 + 1, as a payload from data bit 16 on.
fn scrambled_zeros(seed: u32, bytes: usize) -> Vec<u8> {
    let mut register = seed;
    let mut outputs = (0..)
        .map(|_| {
            let output = (register >> 6 ^ register >> 3) & 1;
            register = (register << 1 | output) & 0x7F;
            output as u8
        })
        .skip(16);
    (0..bytes)
        .map(|_| (0..8).fold(0, |byte, b| byte | outputs.next().unwrap() << b))
        .collect()
}

/// 'Any two accepted frames of unequal seeds, equal in every other setting, differ in symbol 0, whatever whole payloads
/// they have': all pairs of seeds, with payloads drawn apart, with equal ones, and with ones that undo the scrambler, so
/// that the frames differ in the 16 service bits alone.
#[test]
fn frames_of_unequal_seeds_differ_in_symbol_0() {
    let mut draw = Draw::new(36);
    let mut pairs = 0;
    let mut questions = 0;
    for width in [20, 40] {
        for mcs in 0..32 {
            for kind in 0..3 {
                let length = few_symbols(width, mcs, &mut draw);
                let s = any_settings(width, mcs, length, &mut draw);
                let bytes = length as usize;
                let shared = draw.bytes(bytes);
                let frames: Vec<(Settings, Vec<u8>)> = (1..=127)
                    .map(|seed| {
                        let payload = match kind {
                            0 => draw.bytes(bytes),
                            1 => shared.clone(),
                            _ => scrambled_zeros(seed, bytes)
                                .iter()
                                .zip(&shared)
                                .map(|(a, b)| a ^ b)
                                .collect(),
                        };
                        (s.seed(seed), slice(&payload, &mut draw))
                    })
                    .collect();
                let distinct = |n| {
                    let symbols = frames.iter().map(|(s, payload)| symbol(*s, payload, n));
                    symbols.collect::<HashSet<_>>().len()
                };
                assert_eq!(distinct(0), 127, "two seeds give one symbol 0: {s:?}");
                pairs += 127 * 126 / 2;
                if kind == 2 {
                    assert_eq!(distinct(1), 1, "the scrambler is not undone: {s:?}");
                }

                for _ in 0..10 {
                    let a = draw.below(127) as usize;
                    let b = (a + 1 + draw.below(126) as usize) % 127;
                    let [(one, p), (other, q)] = [&frames[a], &frames[b]];
                    assert_ne!(one.seed, other.seed);
                    assert!(
                        data_points_differ((*one, p), (*other, q), 0),
                        "{one:?} {other:?}"
                    );
                    questions += 1;
                }
            }
        }
    }
    assert_eq!(pairs, 64 * 3 * 8_001);
    assert_eq!(questions, 64 * 3 * 10);
}

/// The frames of these tests are no single symbol repeated: symbols of one frame differ from each other.
#[test]
fn symbols_of_a_frame_are_no_copies() {
    let mut draw = Draw::new(37);
    let s = GOOD.length(400).seed(93);
    let payload = draw.bytes(400);
    let count = symbol_count(s).unwrap();
    let symbols: HashSet<Vec<u32>> = (0..count).map(|n| symbol(s, &payload, n)).collect();
    assert_eq!((count, symbols.len()), (124, 124));
}
