//! Document 01, "From payload to points", step 6 (clause 18): the levels.
//!
//! B = 1: 0 to -1, 1 to 1, second level 0. B = 2: the same sign rule on each
//! level. B = 4: 00 -3, 01 -1, 11 1, 10 3. B = 6: 000 -7, 001 -5, 011 -3,
//! 010 -1, 110 1, 111 3, 101 5, 100 7. First half of the bits is the first
//! level.

/// A point: two levels, each a whole number.
#[derive(Clone, Copy, Debug, PartialEq, Eq)]
pub struct Point {
    pub first: i32,
    pub second: i32,
}

/// The level of the bits on one axis, by the printed tables: one bit for B = 1
/// and 2, two for B = 4, three for B = 6. First bit first.
///
/// One bit stands in each byte, read by its remainder modulo 2. Another number
/// of bits has no level.
pub fn level(bits: &[u8]) -> Option<i32> {
    let mut remainders = Vec::new();
    for bit in bits {
        remainders.push(bit % 2);
    }
    match remainders.as_slice() {
        // B = 1 and B = 2.
        [0] => Some(-1),
        [1] => Some(1),
        // B = 4.
        [0, 0] => Some(-3),
        [0, 1] => Some(-1),
        [1, 1] => Some(1),
        [1, 0] => Some(3),
        // B = 6.
        [0, 0, 0] => Some(-7),
        [0, 0, 1] => Some(-5),
        [0, 1, 1] => Some(-3),
        [0, 1, 0] => Some(-1),
        [1, 1, 0] => Some(1),
        [1, 1, 1] => Some(3),
        [1, 0, 1] => Some(5),
        [1, 0, 0] => Some(7),
        _ => None,
    }
}

/// The data point of one carrier's label of B bits. The first half of the bits
/// is the first level; B = 1 has the second level 0.
///
/// Bits as in `level`. None for a B other than 1, 2, 4, 6.
pub fn point(label: &[u8]) -> Option<Point> {
    match label.len() {
        1 => Some(Point {
            first: level(label)?,
            second: 0,
        }),
        2 | 4 | 6 => {
            let (first, second) = label.split_at(label.len() / 2);
            Some(Point {
                first: level(first)?,
                second: level(second)?,
            })
        }
        _ => None,
    }
}

#[cfg(test)]
mod tests {
    use super::*;
    use crate::samples::bits;

    /// All labels of B bits.
    fn labels(b: u32) -> Vec<Vec<u8>> {
        (0..1u32 << b)
            .map(|n| (0..b).rev().map(|place| (n >> place & 1) as u8).collect())
            .collect()
    }

    fn at(label: &str) -> Option<(i32, i32)> {
        point(&bits(label)).map(|p| (p.first, p.second))
    }

    #[test]
    fn levels_as_printed() {
        let printed = "0 -1, 1 1, \
            00 -3, 01 -1, 11 1, 10 3, \
            000 -7, 001 -5, 011 -3, 010 -1, 110 1, 111 3, 101 5, 100 7";
        let mut count = 0;
        for entry in printed.split(", ") {
            let (label, number) = entry.split_once(' ').unwrap();
            assert_eq!(level(&bits(label)), number.parse().ok(), "{entry}");
            count += 1;
        }
        assert_eq!(count, 2 + 4 + 8);
    }

    #[test]
    fn b1_has_the_second_level_0() {
        assert_eq!(at("0"), Some((-1, 0)));
        assert_eq!(at("1"), Some((1, 0)));
    }

    #[test]
    fn b2_has_the_sign_rule_on_each_level() {
        assert_eq!(at("00"), Some((-1, -1)));
        assert_eq!(at("01"), Some((-1, 1)));
        assert_eq!(at("10"), Some((1, -1)));
        assert_eq!(at("11"), Some((1, 1)));
    }

    #[test]
    fn first_half_of_the_bits_is_the_first_level() {
        assert_eq!(at("0010"), Some((-3, 3)));
        assert_eq!(at("1001"), Some((3, -1)));
        assert_eq!(at("1110"), Some((1, 3)));
        assert_eq!(at("100 000"), Some((7, -7)));
        assert_eq!(at("001 110"), Some((-5, 1)));
        assert_eq!(at("011 101"), Some((-3, 5)));
        assert_eq!(at("010 111"), Some((-1, 3)));
    }

    #[test]
    fn every_point_of_the_square_has_one_label() {
        for (b, side) in [(2, vec![-1, 1]), (4, vec![-3, -1, 1, 3])] {
            assert_eq!(square(b), crossed(&side));
        }
        assert_eq!(square(6), crossed(&[-7, -5, -3, -1, 1, 3, 5, 7]));
    }

    /// The points of all labels of B bits, sorted.
    fn square(b: u32) -> Vec<(i32, i32)> {
        let mut all = Vec::new();
        for label in labels(b) {
            let p = point(&label).unwrap();
            all.push((p.first, p.second));
        }
        all.sort();
        all
    }

    /// All pairs of levels, sorted.
    fn crossed(side: &[i32]) -> Vec<(i32, i32)> {
        let mut all = Vec::new();
        for first in side {
            for second in side {
                all.push((*first, *second));
            }
        }
        all
    }

    #[test]
    fn neighbouring_levels_differ_in_one_bit() {
        for count in [1, 2, 3] {
            let mut rising: Vec<(i32, Vec<u8>)> = labels(count)
                .into_iter()
                .map(|label| (level(&label).unwrap(), label))
                .collect();
            rising.sort();
            for pair in rising.windows(2) {
                assert_eq!(pair[1].0 - pair[0].0, 2);
                let differing = (0..count as usize).filter(|n| pair[0].1[*n] != pair[1].1[*n]);
                assert_eq!(differing.count(), 1);
            }
            // The first bit is the sign.
            for (number, label) in &rising {
                assert_eq!(*number > 0, label[0] == 1);
            }
        }
    }

    #[test]
    fn bytes_count_by_their_remainder() {
        assert_eq!(level(&[255, 2, 4]), Some(7));
        assert_eq!(point(&[3, 254]), point(&[1, 0]));
        assert_eq!(point(&[3]), point(&[1]));
    }

    #[test]
    fn other_numbers_of_bits_have_no_point() {
        for count in 0..200 {
            let label = vec![1; count];
            assert_eq!(level(&label).is_some(), matches!(count, 1..=3));
            assert_eq!(point(&label).is_some(), matches!(count, 1 | 2 | 4 | 6));
        }
    }
}
