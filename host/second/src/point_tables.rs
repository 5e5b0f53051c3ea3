//! Document 01, refusal 9: the points that the rules give, as tables.
//!
//! "reader: some point or pilot is not one the rules give". For each used
//! subcarrier there is a table of all points that steps 6 to 8 can put there: on
//! a data carrier one for every label of B bits, on a pilot the one of its
//! symbol. The two floats that stand in the slice are looked up in it.
//!
//! "The reader compares levels by their bits." The entries are the bits of the
//! floats as they stand after step 8, and nothing in the slice is turned back: a
//! NaN, an infinity and -0 agree with no entry.

use crate::carriers::{pilot_subcarriers, used_subcarriers};
use crate::mapper::{point, Point};
use crate::pilots::pilot;
use crate::points::{float, turned};
use crate::rates::{bits_per_carrier, streams};

/// A point that the rules give: the bits of its two floats as they stand in the
/// slice, and its label. A pilot has an empty label.
#[derive(Clone, Debug, PartialEq, Eq)]
pub struct Entry {
    pub first: u32,
    pub second: u32,
    pub label: Vec<u8>,
}

/// Steps 6 and 8 for a data carrier: the points of all labels of B bits.
///
/// Of the subcarrier, step 8 asks only whether it is above 0. Nothing is given
/// for a B other than 1, 2, 4, 6.
pub fn data_table(width: u32, b: u32, subcarrier: i64) -> Vec<Entry> {
    let mut table = Vec::new();
    for label in all_labels(b) {
        if let Some(point) = point(&label) {
            table.push(entry(width, subcarrier, point, label));
        }
    }
    table
}

/// Steps 7 and 8 for the pilot at place q: its one point in symbol n, with its
/// sign on the first level before step 8.
///
/// Nothing is given where there is no such pilot.
pub fn pilot_table(width: u32, nss: u32, stream: u32, format: u32, n: u64, q: u32) -> Vec<Entry> {
    let mut table = Vec::new();
    let subcarrier = pilot_subcarriers(width).get(q as usize).copied();
    let sign = pilot(width, nss, stream, format, n, q);
    if let (Some(subcarrier), Some(sign)) = (subcarrier, sign) {
        let point = Point {
            first: sign,
            second: 0,
        };
        table.push(entry(width, subcarrier, point, Vec::new()));
    }
    table
}

/// The label bits of each stream, streams × block, that give the points of
/// symbol n; or the place, as (stream, subcarrier), of the first point that is
/// in no table.
///
/// "streams in order, subcarriers rising, the first failing point ends the
/// search": data and pilots are searched together. Floats past the needed part
/// are not looked at; where there are too few, the first point that is not whole
/// fails. With a number of streams other than 1 to 4, no stream is given.
pub fn read_labels(
    width: u32,
    mcs: u32,
    format: u32,
    n: u64,
    points: &[f32],
) -> Result<Vec<Vec<u8>>, (u32, i32)> {
    let nss = streams(mcs);
    if nss > 4 {
        return Ok(Vec::new());
    }
    let b = bits_per_carrier(mcs);
    let below_0 = data_table(width, b, -1);
    let above_0 = data_table(width, b, 1);
    let pilots = pilot_subcarriers(width);

    let mut labels = Vec::new();
    let mut pairs = points.chunks_exact(2);
    let mut failing = None;
    'streams: for stream in 0..nss {
        let mut label_bits = Vec::new();
        let mut q = 0;
        for subcarrier in used_subcarriers(width) {
            let of_pilot;
            let table = if pilots.contains(&subcarrier) {
                of_pilot = pilot_table(width, nss, stream, format, n, q);
                q += 1;
                &of_pilot
            } else if subcarrier < 0 {
                &below_0
            } else {
                &above_0
            };
            let Some(entry) = pairs.next().and_then(|pair| look_up(table, pair)) else {
                failing = Some((stream, subcarrier as i32));
                break 'streams;
            };
            label_bits.extend(&entry.label);
        }
        labels.push(label_bits);
    }
    match failing {
        Some(place) => Err(place),
        None => Ok(labels),
    }
}

/// The entry whose two floats have the bits of this pair. The points of a table
/// differ, so there is at most one.
fn look_up<'a>(table: &'a [Entry], pair: &[f32]) -> Option<&'a Entry> {
    let [first, second] = pair else {
        return None;
    };
    table
        .iter()
        .find(|entry| entry.first == first.to_bits() && entry.second == second.to_bits())
}

/// The entry of a point before step 8: turned where step 8 turns it, then as
/// floats.
fn entry(width: u32, subcarrier: i64, point: Point, label: Vec<u8>) -> Entry {
    let point = turned(width, subcarrier, point);
    Entry {
        first: float(point.first).to_bits(),
        second: float(point.second).to_bits(),
        label,
    }
}

/// All labels of B bits, for B = 1, 2, 4 or 6; no other has any.
fn all_labels(b: u32) -> Vec<Vec<u8>> {
    if b != 1 && b != 2 && b != 4 && b != 6 {
        return Vec::new();
    }
    let mut labels = vec![Vec::new()];
    for _ in 0..b {
        let mut longer = Vec::new();
        for label in &labels {
            for bit in [0, 1] {
                let mut label: Vec<u8> = label.clone();
                label.push(bit);
                longer.push(label);
            }
        }
        labels = longer;
    }
    labels
}

#[cfg(test)]
mod tests {
    use super::*;
    use crate::carriers::data_subcarriers;
    use crate::chain::frame_labels;
    use crate::points::frame_points;
    use crate::samples::settings;
    use crate::settings::Settings;

    fn some_bytes(count: u32) -> Vec<u8> {
        (0..count).map(|j| ((37 * j + 11) % 256) as u8).collect()
    }

    #[test]
    fn every_label_once() {
        for (b, count) in [(1, 2), (2, 4), (4, 16), (6, 64)] {
            let mut labels = all_labels(b);
            assert_eq!(labels.len(), count);
            assert!(labels.iter().all(|label| label.len() as u32 == b));
            labels.sort();
            labels.dedup();
            assert_eq!(labels.len(), count);
        }
    }

    #[test]
    fn the_table_of_b1_by_hand() {
        let by = |width, subcarrier| {
            let mut got = Vec::new();
            for entry in data_table(width, 1, subcarrier) {
                got.push((entry.label[0], entry.first, entry.second));
            }
            got
        };
        let plain = [(0, 0xBF80_0000, 0), (1, 0x3F80_0000, 0)];
        let turned = [(0, 0, 0xBF80_0000), (1, 0, 0x3F80_0000)];
        assert_eq!(by(20, -28), plain);
        assert_eq!(by(20, 28), plain);
        assert_eq!(by(40, -58), plain);
        assert_eq!(by(40, 58), turned);
    }

    #[test]
    fn the_table_of_b2_above_0_at_40_mhz_by_hand() {
        // 00 is (-1, -1) and becomes (1, -1); 01 is (-1, 1), becomes (-1, -1).
        let one = 0x3F80_0000;
        let minus = 0xBF80_0000;
        let want = [
            (vec![0, 0], one, minus),
            (vec![0, 1], minus, minus),
            (vec![1, 0], one, one),
            (vec![1, 1], minus, one),
        ];
        let mut got = Vec::new();
        for entry in data_table(40, 2, 2) {
            got.push((entry.label, entry.first, entry.second));
        }
        assert_eq!(got, want);
    }

    #[test]
    fn the_points_of_a_table_differ() {
        for width in [20, 40] {
            for b in [1, 2, 4, 6] {
                for subcarrier in [-1, 1] {
                    let table = data_table(width, b, subcarrier);
                    assert_eq!(table.len(), 1 << b);
                    let mut points: Vec<(u32, u32)> =
                        table.iter().map(|e| (e.first, e.second)).collect();
                    points.sort();
                    points.dedup();
                    assert_eq!(points.len(), 1 << b);
                    // No -0 in any of them.
                    for (a, b) in points {
                        assert!(a != 0x8000_0000 && b != 0x8000_0000);
                    }
                }
            }
        }
    }

    #[test]
    fn only_the_side_of_0_counts() {
        for width in [20, 40] {
            for b in [1, 2, 4, 6] {
                for subcarrier in data_subcarriers(width) {
                    let side = if subcarrier < 0 { -1 } else { 1 };
                    let table = data_table(width, b, subcarrier);
                    assert_eq!(table, data_table(width, b, side));
                }
            }
        }
    }

    #[test]
    fn pilots_by_hand() {
        // P12: mixed, 20, one stream: symbol 0: 1 1 1 -1; symbol 1: -1 -1 1 -1.
        let plus = 0x3F80_0000;
        let minus = 0xBF80_0000;
        for (n, signs) in [
            (0, [plus, plus, plus, minus]),
            (1, [minus, minus, plus, minus]),
        ] {
            for (q, sign) in (0..).zip(signs) {
                let want = Entry {
                    first: sign,
                    second: 0,
                    label: Vec::new(),
                };
                assert_eq!(pilot_table(20, 1, 0, 0, n, q), [want]);
            }
        }
        // Table 12, one stream: 1 1 1 -1 -1 1, polarity 3 is 1; above 0 the
        // sign stands on the second level, with +0 before it.
        let want = [
            (plus, 0),
            (plus, 0),
            (plus, 0),
            (0, minus),
            (0, minus),
            (0, plus),
        ];
        for (q, (first, second)) in (0..).zip(want) {
            let want = Entry {
                first,
                second,
                label: Vec::new(),
            };
            assert_eq!(pilot_table(40, 1, 0, 0, 0, q), [want]);
        }
    }

    #[test]
    fn labels_of_whole_frames() {
        let payload = some_bytes(100);
        for width in [20, 40] {
            for mcs in 0..=31 {
                for format in [0, 1] {
                    let s = Settings {
                        format,
                        ..settings(mcs, width, 100, 93)
                    };
                    let labels = frame_labels(&s, &payload).unwrap();
                    let points = frame_points(&s, &payload).unwrap();
                    for (n, symbol) in (0..).zip(&points) {
                        let got = read_labels(width, mcs, format, n, symbol);
                        assert_eq!(got.as_ref(), Ok(&labels[n as usize]));
                        // Floats past the needed part are not looked at.
                        let mut longer = symbol.clone();
                        longer.extend([f32::NAN; 3]);
                        assert_eq!(read_labels(width, mcs, format, n, &longer), got);
                    }
                }
            }
        }
    }

    #[test]
    fn a_point_that_is_not_whole_fails() {
        let s = settings(8, 20, 1, 1);
        let symbol = &frame_points(&s, &[9]).unwrap()[0];
        let got = |count: usize| read_labels(20, 8, 0, 0, &symbol[..count]).map(|_| ());
        assert_eq!(got(0), Err((0, -28)));
        assert_eq!(got(1), Err((0, -28)));
        assert_eq!(got(2), Err((0, -27)));
        assert_eq!(got(56), Err((0, 1)));
        assert_eq!(got(111), Err((0, 28)));
        assert_eq!(got(112), Err((1, -28)));
        assert_eq!(got(223), Err((1, 28)));
        assert_eq!(got(224), Ok(()));
    }

    #[test]
    fn any_numbers_end_without_a_panic() {
        let numbers = [0, 1, 2, 3, 4, 6, 20, 31, 32, 40, 276, u32::MAX];
        let floats = [1.0; 2_000];
        for a in numbers {
            for b in numbers {
                let good = matches!(b, 1 | 2 | 4 | 6);
                let count = if good { 1 << b } else { 0 };
                assert_eq!(data_table(a, b, i64::MIN).len(), count);
                assert_eq!(data_table(a, b, i64::MAX).len(), count);
                for c in numbers {
                    let _ = read_labels(a, b, c, u64::MAX, &floats);
                    let _ = pilot_table(20, a, b, c, u64::MAX, 3);
                    let _ = pilot_table(a, 4, b, 0, u64::MAX, c);
                }
            }
        }
        assert_eq!(read_labels(20, 32, 0, 0, &floats), Ok(Vec::new()));
        assert_eq!(read_labels(21, 31, 0, 0, &floats), Ok(vec![Vec::new(); 4]));
        assert_eq!(read_labels(20, 0, 2, 0, &floats), Err((0, -28)));
    }
}
