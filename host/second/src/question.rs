//! Document 01, "From payload to points": the one-subcarrier question.
//!
//! It says that a subcarrier is silent, carries a pilot sign, or carries a data
//! point (before step 8); it takes -32..31 or -64..63, where every unused one
//! is silent; others are 7.

use crate::carriers::{data_subcarriers, pilot_subcarriers, question_range};
use crate::chain::{check_symbol, own_labels};
use crate::mapper::point;
use crate::pilots::pilot;
use crate::points::float;
use crate::rates::{bits_per_carrier, streams};
use crate::refusal;
use crate::settings::Settings;

/// What a subcarrier carries, before step 8.
#[derive(Clone, Copy, Debug, PartialEq)]
pub enum Carrier {
    /// Not used.
    Silent,
    /// The pilot's sign, polarity included: 1 or -1.
    Pilot(f32),
    /// The data point: first level, second level.
    Data(f32, f32),
}

/// The one-subcarrier question.
///
/// Refusals 1 to 5, then 6 for a payload slice shorter than `length`, then 7
/// for a symbol, stream or subcarrier that is not in the frame.
pub fn carrier(
    s: &Settings,
    payload: &[u8],
    symbol: u64,
    stream: u64,
    subcarrier: i64,
) -> Result<Carrier, u32> {
    check_symbol(s, payload, symbol)?;
    let stream = check_stream(s, stream)?;
    check_subcarrier(s, subcarrier)?;

    if let Some(q) = place_in(&pilot_subcarriers(s.width), subcarrier) {
        // Every pilot of an accepted frame has a sign.
        let sign = pilot(s.width, streams(s.mcs), stream, s.format, symbol, q as u32)
            .ok_or(refusal::PLACE)?;
        return Ok(Carrier::Pilot(float(sign)));
    }
    if let Some(k) = place_in(&data_subcarriers(s.width), subcarrier) {
        let labels = own_labels(s, payload, symbol)?;
        // Every data carrier of an accepted frame has a label.
        let label = label_of(
            &labels,
            stream as usize,
            k,
            bits_per_carrier(s.mcs) as usize,
        );
        let point = label.and_then(point).ok_or(refusal::PLACE)?;
        return Ok(Carrier::Data(float(point.first), float(point.second)));
    }
    Ok(Carrier::Silent)
}

/// The stream's number, or 7 where the frame does not have it.
fn check_stream(s: &Settings, stream: u64) -> Result<u32, u32> {
    let Ok(stream) = u32::try_from(stream) else {
        return Err(refusal::PLACE);
    };
    if stream >= streams(s.mcs) {
        return Err(refusal::PLACE);
    }
    Ok(stream)
}

/// 7 for a subcarrier other than -32..31 or -64..63.
fn check_subcarrier(s: &Settings, subcarrier: i64) -> Result<(), u32> {
    let Some((lowest, highest)) = question_range(s.width) else {
        return Err(refusal::PLACE);
    };
    if subcarrier < lowest || subcarrier > highest {
        return Err(refusal::PLACE);
    }
    Ok(())
}

/// The place, from 0, at which a subcarrier stands in a list.
fn place_in(list: &[i64], subcarrier: i64) -> Option<usize> {
    for (place, entry) in list.iter().enumerate() {
        if *entry == subcarrier {
            return Some(place);
        }
    }
    None
}

/// The label of data carrier k: bits k·B to k·B + B - 1 of its stream.
fn label_of(labels: &[Vec<u8>], stream: usize, k: usize, b: usize) -> Option<&[u8]> {
    let first = k.checked_mul(b)?;
    let end = first.checked_add(b)?;
    labels.get(stream)?.get(first..end)
}

#[cfg(test)]
mod tests {
    use super::*;
    use crate::carriers::used_subcarriers;
    use crate::mapper::Point;
    use crate::points::{frame_points, turned};
    use crate::rates::symbol_count;
    use crate::samples::{all_wrong, settings};

    /// Byte j is 37·j + 11 modulo 256.
    fn some_bytes(count: u32) -> Vec<u8> {
        (0..count).map(|j| ((37 * j + 11) % 256) as u8).collect()
    }

    /// The answer as whole numbers before step 8, none where it is silent.
    fn answer(s: &Settings, payload: &[u8], n: u64, i: u64, k: i64) -> Option<Point> {
        let whole = |f: f32| {
            assert_ne!(f.to_bits(), 0x8000_0000);
            assert_eq!((f as i32) as f32, f);
            f as i32
        };
        match carrier(s, payload, n, i, k).unwrap() {
            Carrier::Silent => None,
            Carrier::Pilot(sign) => {
                assert!(sign == 1.0 || sign == -1.0);
                Some(Point {
                    first: whole(sign),
                    second: 0,
                })
            }
            Carrier::Data(first, second) => Some(Point {
                first: whole(first),
                second: whole(second),
            }),
        }
    }

    #[test]
    fn the_question_against_the_points() {
        for width in [20, 40] {
            let (lowest, highest) = question_range(width).unwrap();
            for mcs in 0..=31 {
                for (format, length, seed) in [(0, 3, 93), (1, 25, 1)] {
                    let s = Settings {
                        format,
                        ..settings(mcs, width, length, seed)
                    };
                    let payload = some_bytes(length);
                    let frame = frame_points(&s, &payload).unwrap();
                    for (n, symbol) in (0..).zip(&frame) {
                        // The answers, turned, in the order of the slice.
                        let mut floats = Vec::new();
                        for i in 0..u64::from(streams(mcs)) {
                            for k in lowest..=highest {
                                if let Some(p) = answer(&s, &payload, n, i, k) {
                                    let p = turned(width, k, p);
                                    floats.push((p.first as f32).to_bits());
                                    floats.push((p.second as f32).to_bits());
                                }
                            }
                        }
                        let want: Vec<u32> = symbol.iter().map(|f| f.to_bits()).collect();
                        assert_eq!(floats, want, "{s:?}: {n}");
                    }
                }
            }
        }
    }

    #[test]
    fn silent_pilot_or_data_by_the_subcarrier_alone() {
        for width in [20, 40] {
            for mcs in 0..=31 {
                let s = settings(mcs, width, 1, 93);
                let (lowest, highest) = question_range(width).unwrap();
                for i in 0..u64::from(streams(mcs)) {
                    let mut counts = [0; 3];
                    for k in lowest..=highest {
                        let used = used_subcarriers(width).contains(&k);
                        let is_pilot = pilot_subcarriers(width).contains(&k);
                        match carrier(&s, &[9], 0, i, k).unwrap() {
                            Carrier::Silent => {
                                assert!(!used);
                                counts[0] += 1;
                            }
                            Carrier::Pilot(_) => {
                                assert!(is_pilot);
                                counts[1] += 1;
                            }
                            Carrier::Data(_, _) => {
                                assert!(used && !is_pilot);
                                counts[2] += 1;
                            }
                        }
                    }
                    let want = if width == 20 {
                        [8, 4, 52]
                    } else {
                        [14, 6, 108]
                    };
                    assert_eq!(counts, want);
                }
            }
        }
    }

    #[test]
    fn b8_the_ends_of_the_range() {
        let s = settings(8, 20, 1, 93);
        for k in [-32, -29, 0, 29, 31] {
            assert_eq!(carrier(&s, &[9], 0, 1, k), Ok(Carrier::Silent));
        }
        for k in [-33, 32, -64, 63, 1 << 32, (1 << 32) + 7, i64::MIN, i64::MAX] {
            assert_eq!(carrier(&s, &[9], 0, 1, k), Err(7));
        }
        let s = settings(8, 40, 1, 93);
        for k in [-64, -59, -1, 0, 1, 59, 63] {
            assert_eq!(carrier(&s, &[9], 0, 1, k), Ok(Carrier::Silent));
        }
        for k in [-65, 64, 1 << 32, (1 << 32) + 7, i64::MIN, i64::MAX] {
            assert_eq!(carrier(&s, &[9], 0, 1, k), Err(7));
        }
    }

    #[test]
    fn p12_by_the_question() {
        let s = settings(0, 20, 7, 93);
        for (n, want) in [(0, [1.0, 1.0, 1.0, -1.0]), (1, [-1.0, -1.0, 1.0, -1.0])] {
            for (k, sign) in [-21, -7, 7, 21].into_iter().zip(want) {
                assert_eq!(carrier(&s, &[9; 7], n, 0, k), Ok(Carrier::Pilot(sign)));
            }
        }
    }

    #[test]
    fn d13_before_step_8() {
        // Table 12, one stream: 1 1 1 -1 -1 1, polarity 3 is 1. B = 1: the
        // second level is 0 above 0 too.
        let s = settings(0, 40, 1, 93);
        let want = [1.0, 1.0, 1.0, -1.0, -1.0, 1.0];
        for (k, sign) in [-53, -25, -11, 11, 25, 53].into_iter().zip(want) {
            assert_eq!(carrier(&s, &[9], 0, 0, k), Ok(Carrier::Pilot(sign)));
        }
        for k in data_subcarriers(40) {
            let Ok(Carrier::Data(first, second)) = carrier(&s, &[9], 0, 0, k) else {
                panic!("no data point at {k}");
            };
            assert_eq!(first.abs(), 1.0);
            assert_eq!(second.to_bits(), 0);
        }
    }

    #[test]
    fn one_small_frame_by_hand() {
        // MCS 0 at 20 MHz, length 1, payload 0, seed 127: the labels begin
        // 0110000 and end 1000011.
        let s = settings(0, 20, 1, 127);
        let first = [-1.0, 1.0, 1.0, -1.0, -1.0, -1.0, -1.0];
        for (k, level) in (-28..).zip(first) {
            assert_eq!(carrier(&s, &[0], 0, 0, k), Ok(Carrier::Data(level, 0.0)));
        }
        let last = [1.0, -1.0, -1.0, -1.0, -1.0, 1.0, 1.0];
        for (k, level) in (22..).zip(last) {
            assert_eq!(carrier(&s, &[0], 0, 0, k), Ok(Carrier::Data(level, 0.0)));
        }
    }

    #[test]
    fn refusals_1_to_7_in_order() {
        // All is wrong at first; one fault after the other is mended.
        let mut s = all_wrong();
        let ask = |s: &Settings, payload: &[u8]| carrier(s, payload, u64::MAX, u64::MAX, i64::MAX);
        assert_eq!(ask(&s, &[]), Err(1));
        s.width = 20;
        assert_eq!(ask(&s, &[]), Err(2));
        s.mcs = 8;
        assert_eq!(ask(&s, &[]), Err(3));
        s.format = 1;
        assert_eq!(ask(&s, &[]), Err(4));
        s.length = 7;
        assert_eq!(ask(&s, &[]), Err(5));
        s.seed = 127;
        assert_eq!(ask(&s, &[]), Err(6));
        assert_eq!(ask(&s, &[0; 6]), Err(6));
        assert_eq!(ask(&s, &[0; 7]), Err(7));
        assert_eq!(carrier(&s, &[0; 7], 1, u64::MAX, i64::MAX), Err(7));
        assert_eq!(carrier(&s, &[0; 7], 1, 1, i64::MAX), Err(7));
        assert!(carrier(&s, &[0; 7], 1, 1, 28).is_ok());
        // A short slice is 6 for silent subcarriers and pilots too.
        for k in [0, 7, 28] {
            assert_eq!(carrier(&s, &[0; 6], 1, 1, k), Err(6));
        }
    }

    #[test]
    fn each_place_alone_is_refusal_7() {
        for width in [20, 40] {
            for mcs in 0..=31 {
                let s = settings(mcs, width, 30, 93);
                let payload = some_bytes(30);
                let count = u64::from(symbol_count(&s).unwrap());
                let nss = u64::from(streams(mcs));
                for k in [0, 7, 11, 28] {
                    assert!(carrier(&s, &payload, count - 1, nss - 1, k).is_ok());
                    for n in [count, 1 << 32, u64::MAX] {
                        assert_eq!(carrier(&s, &payload, n, 0, k), Err(7));
                    }
                    for i in [nss, 4, 256, 1 << 32, (1 << 32) + 1, u64::MAX] {
                        assert_eq!(carrier(&s, &payload, 0, i, k), Err(7));
                    }
                }
            }
        }
    }

    #[test]
    fn the_symbol_of_the_first_differing_bit_shows_it() {
        // The first payload bit differs: some data point of symbol 0 does.
        for (mcs, width) in [(0, 20), (15, 40), (18, 20), (31, 40)] {
            let s = settings(mcs, width, 10, 93);
            let payload = some_bytes(10);
            let mut other = payload.clone();
            other[0] ^= 1;
            let mut differ = 0;
            for i in 0..u64::from(streams(mcs)) {
                for k in used_subcarriers(width) {
                    let one = carrier(&s, &payload, 0, i, k).unwrap();
                    let two = carrier(&s, &other, 0, i, k).unwrap();
                    if one != two {
                        assert!(matches!(one, Carrier::Data(_, _)));
                        differ += 1;
                    }
                }
            }
            assert!(differ > 0);
        }
    }

    #[test]
    fn any_numbers_end_without_a_panic() {
        let labels = [vec![0, 1, 0, 1]];
        assert_eq!(label_of(&labels, 0, 1, 2), Some(&[0, 1][..]));
        assert_eq!(label_of(&labels, 0, 2, 2), None);
        assert_eq!(label_of(&labels, 1, 0, 2), None);
        assert_eq!(label_of(&labels, usize::MAX, usize::MAX, usize::MAX), None);
        assert_eq!(label_of(&labels, 0, 1, usize::MAX), None);
        assert_eq!(check_subcarrier(&settings(0, 21, 1, 1), 0), Err(7));
        let numbers = [0, 1, 20, 31, 40, 127, 65_535, 65_536, u32::MAX];
        for a in numbers {
            for b in numbers {
                for c in numbers {
                    let s = settings(a, b, c, a);
                    let (n, i) = (u64::from(a), u64::from(b));
                    let _ = carrier(&s, &[0; 40], n, i, i64::from(c));
                    let _ = carrier(&s, &[0; 40], n, i, -i64::from(c));
                }
            }
        }
    }
}
