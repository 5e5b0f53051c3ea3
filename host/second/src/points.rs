//! Document 01, "From payload to points", step 8, and the points of a symbol.
//!
//! At 40 MHz each subcarrier above 0, (a, b), becomes (-b, a), data and pilots.
//! A point is two f32 levels, each an exact whole number; zero has a clear sign
//! bit. Points stand stream by stream, subcarriers rising, first level then
//! second.
//!
//! All is done on whole numbers; each level becomes a float at the very end.

use crate::carriers::{pilot_subcarriers, used_subcarriers};
use crate::chain::{carrier_labels, frame_labels, own_labels};
use crate::mapper::{point, Point};
use crate::pilots::pilot;
use crate::rates::{bits_per_carrier, streams};
use crate::refusal;
use crate::settings::Settings;

/// The turn by 90°: (a, b) becomes (-b, a).
///
/// For `i32::MIN`, which is no level, -b is given as `i32::MAX`.
pub fn turn(point: Point) -> Point {
    Point {
        first: point.second.saturating_neg(),
        second: point.first,
    }
}

/// Step 8: turned at 40 MHz on a subcarrier above 0, else as it was.
pub fn turned(width: u32, subcarrier: i64, point: Point) -> Point {
    if width == 40 && subcarrier > 0 {
        turn(point)
    } else {
        point
    }
}

/// A level as a float. Whole numbers from -7 to 7 are exact; the whole number
/// zero has no sign, so its float has a clear sign bit.
pub fn float(level: i32) -> f32 {
    level as f32
}

/// The floats of one symbol: streams × used subcarriers × 2.
///
/// As in `rates`, a product beyond `u32` is given as `u32::MAX`.
pub fn floats_per_symbol(width: u32, mcs: u32) -> u32 {
    let used = used_subcarriers(width).len() as u64;
    let floats = u64::from(streams(mcs)) * used * 2;
    u32::try_from(floats).unwrap_or(u32::MAX)
}

/// Steps 1 to 8 for one symbol: its levels as whole numbers, in the order of
/// the slice.
///
/// Refusals 1 to 5, then 6 for a payload slice shorter than `length`, then 7
/// for a symbol that is not in the frame.
pub fn symbol_levels(s: &Settings, payload: &[u8], symbol: u64) -> Result<Vec<i32>, u32> {
    let labels = own_labels(s, payload, symbol)?;
    Ok(levels_of(s, symbol, &labels))
}

/// The points call: writes the levels of one symbol at the start of `out`, and
/// gives their number; the rest stays.
///
/// Refusals as in `symbol_levels`, then 8 for too few floats; a refusal writes
/// nothing.
pub fn points(s: &Settings, payload: &[u8], symbol: u64, out: &mut [f32]) -> Result<usize, u32> {
    let levels = symbol_levels(s, payload, symbol)?;
    if out.len() < levels.len() {
        return Err(refusal::ROOM);
    }
    for (place, level) in out.iter_mut().zip(&levels) {
        *place = float(*level);
    }
    Ok(levels.len())
}

/// The points of all symbols of a frame in order, each as `points` writes them,
/// from the coded bits of the whole frame. Refusals 1 to 6.
pub fn frame_points(s: &Settings, payload: &[u8]) -> Result<Vec<Vec<f32>>, u32> {
    let mut frame = Vec::new();
    for (symbol, labels) in (0..).zip(&frame_labels(s, payload)?) {
        let mut floats = Vec::new();
        for level in levels_of(s, symbol, labels) {
            floats.push(float(level));
        }
        frame.push(floats);
    }
    Ok(frame)
}

/// Steps 6 to 8 for one symbol, `labels[i]` the label bits of stream i: stream
/// by stream, subcarriers rising, first level then second.
fn levels_of(s: &Settings, symbol: u64, labels: &[Vec<u8>]) -> Vec<i32> {
    let mut levels = Vec::new();
    for (stream, label_bits) in (0..).zip(labels) {
        let unturned = stream_points(s, symbol, stream, label_bits);
        for (subcarrier, point) in used_subcarriers(s.width).into_iter().zip(unturned) {
            let point = turned(s.width, subcarrier, point);
            levels.push(point.first);
            levels.push(point.second);
        }
    }
    levels
}

/// Steps 6 and 7 for one stream: the point of each used subcarrier, rising.
/// Pilots stand at their places on the first level; data fill the rest.
///
/// Nothing is given where the labels or the pilots do not suffice, which they
/// do in every accepted frame.
fn stream_points(s: &Settings, symbol: u64, stream: u32, label_bits: &[u8]) -> Vec<Point> {
    let labels = carrier_labels(label_bits, bits_per_carrier(s.mcs));
    let mut data = labels.iter();
    let pilots = pilot_subcarriers(s.width);
    let mut q = 0;
    let mut points = Vec::new();
    for subcarrier in used_subcarriers(s.width) {
        let next = if pilots.contains(&subcarrier) {
            let sign = pilot(s.width, streams(s.mcs), stream, s.format, symbol, q);
            q += 1;
            sign.map(pilot_point)
        } else {
            data.next().and_then(|label| point(label))
        };
        let Some(next) = next else {
            return Vec::new();
        };
        points.push(next);
    }
    points
}

/// A pilot as a point before step 8: its sign on the first level.
fn pilot_point(sign: i32) -> Point {
    Point {
        first: sign,
        second: 0,
    }
}

#[cfg(test)]
mod tests {
    use super::*;
    use crate::carriers::data_subcarriers;
    use crate::chain::symbol_labels;
    use crate::rates::symbol_count;
    use crate::samples::{all_wrong, bits, other_format_and_flags, settings};

    /// A float that no rule gives, and whose bits must stay.
    const UNTOUCHED: u32 = 0x7FC1_2345;

    fn untouched(count: usize) -> Vec<f32> {
        vec![f32::from_bits(UNTOUCHED); count]
    }

    fn float_bits(floats: &[f32]) -> Vec<u32> {
        floats.iter().map(|f| f.to_bits()).collect()
    }

    /// Byte j is 37·j + 11 modulo 256.
    fn some_bytes(count: u32) -> Vec<u8> {
        (0..count).map(|j| ((37 * j + 11) % 256) as u8).collect()
    }

    fn written(s: &Settings, payload: &[u8], symbol: u64) -> Vec<f32> {
        let mut out = untouched(1_000);
        let count = points(s, payload, symbol, &mut out).unwrap();
        out.truncate(count);
        out
    }

    /// The bits of the floats -7 to 7, as IEEE 754 has them.
    fn bits_of_level(level: i32) -> u32 {
        match level {
            -7 => 0xC0E0_0000,
            -5 => 0xC0A0_0000,
            -3 => 0xC040_0000,
            -1 => 0xBF80_0000,
            0 => 0x0000_0000,
            1 => 0x3F80_0000,
            3 => 0x4040_0000,
            5 => 0x40A0_0000,
            7 => 0x40E0_0000,
            _ => UNTOUCHED,
        }
    }

    fn at(first: i32, second: i32) -> Point {
        Point { first, second }
    }

    #[test]
    fn the_turn_of_1_0_is_0_1_with_a_clear_sign_bit() {
        let p = turn(at(1, 0));
        assert_eq!(p, at(0, 1));
        assert_eq!(float(p.first).to_bits(), 0);
        assert_eq!(float(p.second).to_bits(), 0x3F80_0000);
        let p = turn(at(-1, 0));
        assert_eq!(p, at(0, -1));
        assert_eq!(float(p.first).to_bits(), 0);
    }

    #[test]
    fn the_turn_is_a_quarter_round() {
        assert_eq!(turn(at(3, 5)), at(-5, 3));
        assert_eq!(turn(at(-7, 1)), at(-1, -7));
        for a in -7..=7 {
            for b in -7..=7 {
                assert_eq!(turn(turn(at(a, b))), at(-a, -b));
                assert_eq!(turn(turn(turn(turn(at(a, b))))), at(a, b));
            }
        }
    }

    #[test]
    fn only_above_0_at_40_mhz_is_turned() {
        for k in -64..=63 {
            assert_eq!(turned(20, k, at(3, 5)), at(3, 5));
            let want = if k > 0 { at(-5, 3) } else { at(3, 5) };
            assert_eq!(turned(40, k, at(3, 5)), want);
        }
    }

    #[test]
    fn bit_patterns_of_the_floats() {
        for level in -7..=7 {
            if level % 2 != 0 || level == 0 {
                assert_eq!(float(level).to_bits(), bits_of_level(level));
            }
            assert_eq!(float(level) as i32, level);
        }
    }

    #[test]
    fn floats_of_a_symbol() {
        assert_eq!(
            [0, 8, 16, 24].map(|m| floats_per_symbol(20, m)),
            [112, 224, 336, 448]
        );
        assert_eq!(
            [7, 15, 23, 31].map(|m| floats_per_symbol(40, m)),
            [228, 456, 684, 912]
        );
        for width in [20, 40] {
            for mcs in 0..=31 {
                let levels = symbol_levels(&settings(mcs, width, 1, 1), &[0], 0).unwrap();
                assert_eq!(levels.len() as u32, floats_per_symbol(width, mcs));
            }
        }
    }

    #[test]
    fn one_small_frame_by_hand() {
        // The labels of MCS 0 at 20 MHz, length 1, payload 0, seed 127, with
        // the pilots of P12 as + and - at -21, -7, 7 and 21.
        let texts = [
            "0110000 + 1010101110101 + 010101 000011 + 1011110011110 - 1000011",
            "0101010 - 0011101111111 - 011011 001010 + 1000100000111 - 1101000",
        ];
        for (n, text) in (0..).zip(texts) {
            let mut want = Vec::new();
            for c in text.bytes().filter(|c| *c != b' ') {
                want.push(match c {
                    b'1' | b'+' => 0x3F80_0000,
                    _ => 0xBF80_0000,
                });
                want.push(0);
            }
            assert_eq!(want.len(), 112);
            let got = written(&settings(0, 20, 1, 127), &[0], n);
            assert_eq!(float_bits(&got), want, "symbol {n}");
        }
    }

    /// The sum of all levels, the first times 1, the second times 2, ...
    fn weighted(levels: &[i32]) -> i32 {
        (1..).zip(levels).map(|(n, level)| n * level).sum()
    }

    /// One symbol's first and last twelve levels, its sum and weighted sum.
    struct Apart {
        s: Settings,
        symbol: u64,
        first: [i32; 12],
        last: [i32; 12],
        sums: (i32, i32),
    }

    /// These values were worked out from the closed formulas of document 01
    /// apart from this program.
    #[test]
    fn larger_frames_by_values_worked_out_apart() {
        let green = |s: Settings| Settings { format: 1, ..s };
        let cases = [
            Apart {
                s: settings(0, 20, 100, 93),
                symbol: 5,
                first: [1, 0, -1, 0, -1, 0, -1, 0, 1, 0, -1, 0],
                last: [-1, 0, -1, 0, 1, 0, -1, 0, -1, 0, -1, 0],
                sums: (-18, -810),
            },
            Apart {
                s: green(settings(8, 40, 100, 77)),
                symbol: 2,
                first: [1, 0, 1, 0, 1, 0, -1, 0, 1, 0, 1, 0],
                last: [0, -1, 0, 1, 0, 1, 0, -1, 0, 1, 0, 1],
                sums: (-30, -6_982),
            },
            Apart {
                s: settings(11, 20, 200, 5),
                symbol: 3,
                first: [3, -1, 1, 3, 1, 1, 1, -3, -1, -3, 1, 1],
                last: [3, -3, -3, -3, 3, 3, -1, 3, 1, 1, 1, -3],
                sums: (36, 2_532),
            },
            Apart {
                s: settings(16, 40, 50, 127),
                symbol: 1,
                first: [1, 0, 1, 0, -1, 0, 1, 0, 1, 0, -1, 0],
                last: [0, -1, 0, -1, 0, 1, 0, 1, 0, -1, 0, -1],
                sums: (-12, -9_565),
            },
            Apart {
                s: green(settings(20, 20, 300, 93)),
                symbol: 1,
                first: [1, -3, 1, -3, 3, 1, 1, -1, 1, 3, 1, -3],
                last: [-3, 3, -3, 3, 3, -1, -3, -1, -3, -3, 3, -1],
                sums: (56, 9_688),
            },
            Apart {
                s: settings(23, 40, 1_000, 64),
                symbol: 0,
                first: [3, -5, -7, 7, -1, -7, 5, 1, 7, 1, 1, 0],
                last: [0, 1, -3, -5, -3, 1, 7, -5, 5, -5, 1, -3],
                sums: (108, 64_201),
            },
            Apart {
                s: green(settings(29, 20, 999, 12)),
                symbol: 4,
                first: [5, -3, -1, 7, 1, 5, 7, -1, 7, -5, -7, 1],
                last: [5, -7, -3, -1, 5, 7, 3, -1, 1, -7, -7, -3],
                sums: (-78, -24_894),
            },
            Apart {
                s: green(settings(31, 40, 1_000, 1)),
                symbol: 2,
                first: [-1, 5, -3, 1, 3, -1, -3, -7, -3, 5, 1, 0],
                last: [0, -1, 1, 5, -1, 7, -5, 5, 1, 7, -1, 5],
                sums: (-124, -13_460),
            },
        ];
        let payload = some_bytes(1_000);
        for case in cases {
            let levels = symbol_levels(&case.s, &payload, case.symbol).unwrap();
            assert_eq!(levels[..12], case.first, "{:?}", case.s);
            assert_eq!(levels[levels.len() - 12..], case.last, "{:?}", case.s);
            let sums = (levels.iter().sum(), weighted(&levels));
            assert_eq!(sums, case.sums, "{:?}", case.s);
        }
    }

    /// The level of an axis by its Gray code: each bit changes with those
    /// before it, and the number n so written is the level 2n + 1 - 2^bits.
    fn gray_level(label: &[u8]) -> i32 {
        let mut bit = 0;
        let mut number = 0;
        for next in label {
            bit ^= i32::from(*next);
            number = 2 * number + bit;
        }
        2 * number + 1 - (1 << label.len())
    }

    /// Where the first level of a subcarrier of stream i stands in the slice.
    fn index(width: u32, i: usize, k: i64) -> usize {
        let (used, place) = match (width, k < 0) {
            (20, true) => (56, k + 28),
            (20, false) => (56, k + 27),
            (_, true) => (114, k + 58),
            (_, false) => (114, k + 55),
        };
        2 * (used * i + place as usize)
    }

    #[test]
    fn every_float_stands_at_its_index() {
        let payload = some_bytes(90);
        for width in [20, 40] {
            for mcs in 0..=31 {
                for format in [0, 1] {
                    let s = Settings {
                        format,
                        ..settings(mcs, width, 90, 93)
                    };
                    for n in 0..u64::from(symbol_count(&s).unwrap()) {
                        let labels = symbol_labels(&s, &payload, n).unwrap();
                        let mut want = vec![UNTOUCHED; floats_per_symbol(width, mcs) as usize];
                        for (i, label_bits) in labels.iter().enumerate() {
                            let mut put = |k: i64, a: i32, b: i32| {
                                let (a, b) = if width == 40 && k > 0 {
                                    (-b, a)
                                } else {
                                    (a, b)
                                };
                                want[index(width, i, k)] = bits_of_level(a);
                                want[index(width, i, k) + 1] = bits_of_level(b);
                            };
                            let bits_each = label_bits.len() / data_subcarriers(width).len();
                            for (c, k) in data_subcarriers(width).into_iter().enumerate() {
                                let label = &label_bits[c * bits_each..(c + 1) * bits_each];
                                let half = label.len() / 2;
                                if half == 0 {
                                    put(k, gray_level(label), 0);
                                } else {
                                    put(k, gray_level(&label[..half]), gray_level(&label[half..]));
                                }
                            }
                            for (q, k) in (0..).zip(pilot_subcarriers(width)) {
                                let nss = streams(mcs);
                                let sign = pilot(width, nss, i as u32, format, n, q).unwrap();
                                put(k, sign, 0);
                            }
                        }
                        assert_eq!(float_bits(&written(&s, &payload, n)), want, "{s:?}: {n}");
                    }
                }
            }
        }
    }

    #[test]
    fn p12_in_the_slice() {
        let s = settings(0, 20, 7, 93);
        let pilots_at = |n: u64| -> Vec<f32> {
            let got = written(&s, &[9; 7], n);
            [-21, -7, 7, 21].map(|k| got[index(20, 0, k)]).to_vec()
        };
        assert_eq!(pilots_at(0), [1.0, 1.0, 1.0, -1.0]);
        assert_eq!(pilots_at(1), [-1.0, -1.0, 1.0, -1.0]);
    }

    #[test]
    fn pilots_above_0_at_40_mhz_stand_on_the_second_level() {
        // Table 12, one stream: 1 1 1 -1 -1 1, polarity 3 is 1.
        let got = written(&settings(0, 40, 1, 93), &[9], 0);
        let mut pairs = Vec::new();
        for k in [-53, -25, -11, 11, 25, 53] {
            let at = index(40, 0, k);
            pairs.push((got[at].to_bits(), got[at + 1].to_bits()));
        }
        let (plus, minus) = (0x3F80_0000, 0xBF80_0000);
        let want = [
            (plus, 0),
            (plus, 0),
            (plus, 0),
            (0, minus),
            (0, minus),
            (0, plus),
        ];
        assert_eq!(pairs, want);
    }

    #[test]
    fn zero_never_has_a_sign_bit_and_every_float_is_a_level() {
        let payload = some_bytes(130);
        let mut zeros = 0;
        for width in [20, 40] {
            for mcs in 0..=31 {
                for seed in [1, 64, 127] {
                    let s = settings(mcs, width, 130, seed);
                    for n in 0..u64::from(symbol_count(&s).unwrap()) {
                        for f in written(&s, &payload, n) {
                            assert_ne!(f.to_bits(), 0x8000_0000);
                            assert!((-7.0..=7.0).contains(&f));
                            assert_eq!(f.to_bits(), bits_of_level(f as i32));
                            zeros += u32::from(f == 0.0);
                        }
                    }
                }
            }
        }
        assert!(zeros > 10_000);
    }

    #[test]
    fn a_frame_at_once_is_its_symbols() {
        let payload = some_bytes(300);
        for width in [20, 40] {
            for mcs in 0..=31 {
                for (length, seed) in [(1, 127), (9, 3), (300, 93)] {
                    let s = settings(mcs, width, length, seed);
                    let frame = frame_points(&s, &payload).unwrap();
                    assert_eq!(frame.len() as u32, symbol_count(&s).unwrap());
                    for (n, symbol) in (0..).zip(&frame) {
                        let alone = written(&s, &payload, n);
                        assert_eq!(float_bits(&alone), float_bits(symbol));
                    }
                }
            }
        }
    }

    #[test]
    fn the_longest_frames() {
        let payload = some_bytes(65_535);
        for (mcs, width, count) in [(0, 20, 20_166), (31, 40, 243)] {
            let s = settings(mcs, width, 65_535, 93);
            let frame = frame_points(&s, &payload).unwrap();
            assert_eq!(frame.len(), count);
            for n in [0, 1, 2, count / 2, count - 2, count - 1] {
                let alone = written(&s, &payload, n as u64);
                assert_eq!(float_bits(&alone), float_bits(&frame[n]));
            }
            let mut out = untouched(1_000);
            assert_eq!(points(&s, &payload, count as u64, &mut out), Err(7));
        }
    }

    #[test]
    fn the_needed_floats_are_written_and_the_rest_stays() {
        for width in [20, 40] {
            for mcs in 0..=31 {
                let s = settings(mcs, width, 5, 93);
                let needed = floats_per_symbol(width, mcs) as usize;
                let want = float_bits(&frame_points(&s, &[7; 5]).unwrap()[0]);
                for room in [needed, needed + 1, needed + 100] {
                    let mut out = untouched(room);
                    assert_eq!(points(&s, &[7; 5], 0, &mut out), Ok(needed));
                    assert_eq!(float_bits(&out[..needed]), want);
                    assert!(out[needed..].iter().all(|f| f.to_bits() == UNTOUCHED));
                }
                // One float too few is 8, and nothing is written.
                for room in [0, 1, needed / 2, needed - 1] {
                    let mut out = untouched(room);
                    assert_eq!(points(&s, &[7; 5], 0, &mut out), Err(8));
                    assert!(out.iter().all(|f| f.to_bits() == UNTOUCHED));
                }
            }
        }
    }

    #[test]
    fn refusals_1_to_8_in_order_and_nothing_written() {
        // All is wrong at first; one fault after the other is mended.
        let mut s = all_wrong();
        let refused = |s: &Settings, payload: &[u8], symbol: u64, room: usize| {
            let mut out = untouched(room);
            let refused = points(s, payload, symbol, &mut out);
            let written = out.iter().filter(|f| f.to_bits() != UNTOUCHED).count();
            assert_eq!(written, refused.unwrap_or(0));
            if refused.is_err() && refused != Err(8) {
                let levels = symbol_levels(s, payload, symbol).map(|_| ());
                assert_eq!(levels, refused.map(|_| ()));
            }
            if refused.is_err() && refused != Err(7) && refused != Err(8) {
                let frame = frame_points(s, payload).map(|_| ());
                assert_eq!(frame, refused.map(|_| ()));
            }
            refused
        };
        assert_eq!(refused(&s, &[], u64::MAX, 111), Err(1));
        s.width = 20;
        assert_eq!(refused(&s, &[], u64::MAX, 111), Err(2));
        s.mcs = 0;
        assert_eq!(refused(&s, &[], u64::MAX, 111), Err(3));
        s.format = 1;
        assert_eq!(refused(&s, &[], u64::MAX, 111), Err(4));
        s.length = 7;
        assert_eq!(refused(&s, &[], u64::MAX, 111), Err(5));
        s.seed = 127;
        assert_eq!(refused(&s, &[0; 6], u64::MAX, 111), Err(6));
        assert_eq!(refused(&s, &[0; 6], 0, 1_000), Err(6));
        assert_eq!(refused(&s, &[0; 7], u64::MAX, 111), Err(7));
        assert_eq!(refused(&s, &[0; 7], 3, 111), Err(7));
        assert_eq!(refused(&s, &[0; 7], 2, 111), Err(8));
        assert_eq!(refused(&s, &[0; 7], 2, 112), Ok(112));
        assert_eq!(refused(&s, &[0; 8], 2, 500), Ok(112));
    }

    #[test]
    fn each_refusal_alone_writes_nothing() {
        let good = settings(9, 40, 20, 93);
        let wrong = [
            Settings { width: 30, ..good },
            Settings { mcs: 32, ..good },
            Settings { format: 2, ..good },
            Settings { length: 0, ..good },
            Settings { seed: 128, ..good },
            Settings { length: 21, ..good },
        ];
        for (no, s) in (1..).zip(&wrong) {
            let mut out = untouched(1_000);
            assert_eq!(points(s, &[0; 20], 0, &mut out), Err(no));
            assert!(out.iter().all(|f| f.to_bits() == UNTOUCHED));
        }
        let count = u64::from(symbol_count(&good).unwrap());
        // Symbol numbers do not wrap.
        for n in [count, count + 1, 1 << 16, 1 << 32, (1 << 32) + 1, u64::MAX] {
            let mut out = untouched(1_000);
            assert_eq!(points(&good, &[0; 20], n, &mut out), Err(7));
            assert!(out.iter().all(|f| f.to_bits() == UNTOUCHED));
        }
    }

    #[test]
    fn the_format_acts_on_the_pilots_only_and_the_flags_on_nothing() {
        let payload = some_bytes(60);
        for (mcs, width) in [(0, 20), (12, 40), (18, 20), (31, 40)] {
            let s = settings(mcs, width, 60, 93);
            let green = Settings { format: 1, ..s };
            let mut pilots_differ = false;
            for n in 0..u64::from(symbol_count(&s).unwrap()) {
                let mixed = float_bits(&written(&s, &payload, n));
                let other = float_bits(&written(&green, &payload, n));
                let flags = other_format_and_flags(&s);
                assert_eq!(float_bits(&written(&flags, &payload, n)), other);
                for i in 0..streams(mcs) as usize {
                    for k in data_subcarriers(width) {
                        let at = index(width, i, k);
                        assert_eq!(mixed[at..at + 2], other[at..at + 2]);
                    }
                    for k in pilot_subcarriers(width) {
                        let at = index(width, i, k);
                        pilots_differ |= mixed[at..at + 2] != other[at..at + 2];
                    }
                }
            }
            // Polarities 2 and 3 are equal, so one symbol shows no difference.
            assert_eq!(pilots_differ, symbol_count(&s).unwrap() > 1);
        }
    }

    #[test]
    fn the_payload_acts_on_no_pilot() {
        for (mcs, width) in [(3, 20), (15, 40), (17, 40), (28, 20)] {
            let s = settings(mcs, width, 80, 5);
            let one = frame_points(&s, &some_bytes(80)).unwrap();
            let other = frame_points(&s, &[0xFF; 80]).unwrap();
            for (a, b) in one.iter().zip(&other) {
                for i in 0..streams(mcs) as usize {
                    for k in pilot_subcarriers(width) {
                        let at = index(width, i, k);
                        assert_eq!(float_bits(&a[at..at + 2]), float_bits(&b[at..at + 2]));
                    }
                }
            }
            assert_ne!(one[0], other[0]);
        }
    }

    #[test]
    fn any_two_seeds_differ_in_symbol_0() {
        for (mcs, width) in [(0, 20), (8, 40), (16, 20), (31, 40)] {
            let mut all = Vec::new();
            for seed in 1..=127 {
                all.push(symbol_levels(&settings(mcs, width, 4, seed), &[0; 4], 0).unwrap());
            }
            all.sort();
            all.dedup();
            assert_eq!(all.len(), 127);
        }
    }

    #[test]
    fn too_few_labels_give_no_points() {
        let s = settings(3, 20, 1, 1);
        assert_eq!(stream_points(&s, 0, 0, &bits("0110")), []);
        assert_eq!(stream_points(&s, 0, 0, &[0; 207]), []);
        assert_eq!(stream_points(&s, 0, 0, &[0; 208]).len(), 56);
        assert_eq!(stream_points(&s, 0, 1, &[0; 208]), []);
        assert_eq!(levels_of(&s, 0, &[]), []);
        assert_eq!(levels_of(&s, 0, &[vec![0; 207]]), []);
    }

    #[test]
    fn any_numbers_end_without_a_panic() {
        assert_eq!(turn(at(i32::MIN, i32::MIN)), at(i32::MAX, i32::MIN));
        assert_eq!(turn(at(i32::MAX, i32::MAX)), at(-i32::MAX, i32::MAX));
        assert_eq!(float(i32::MIN), -2_147_483_648.0);
        assert_eq!(floats_per_symbol(40, u32::MAX), u32::MAX);
        assert_eq!(floats_per_symbol(21, u32::MAX), 0);
        let numbers = [0, 1, 20, 31, 40, 127, 65_535, 65_536, u32::MAX];
        let mut out = untouched(2_000);
        for a in numbers {
            for b in numbers {
                let _ = turned(a, i64::MIN, at(1, 0));
                let _ = turned(a, i64::MAX, at(1, 0));
                for c in numbers {
                    let s = settings(a, b, c, a);
                    let _ = points(&s, &[0; 40], u64::from(c), &mut out);
                    let _ = frame_points(&s, &[0; 40]);
                }
            }
        }
    }
}
