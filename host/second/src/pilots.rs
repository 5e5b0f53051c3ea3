//! Document 01, "From payload to points", step 7, and EWC 4.6: the pilots.
//!
//! The pilot at place q (from 0) in symbol n is pattern((n+q) mod pilots) from
//! tables 11 and 12, times polarity n+z mod 127: z = 3 mixed, 2 green field.
//! Polarity is the scrambler sequence of seed 127, 0 as 1, 1 as -1.

use crate::scrambler::register;

/// A row of EWC table 11 or 12: NSS, the stream, and the pattern.
struct Row {
    nss: u32,
    stream: u32,
    pattern: &'static [i32],
}

const fn row(nss: u32, stream: u32, pattern: &'static [i32]) -> Row {
    Row {
        nss,
        stream,
        pattern,
    }
}

/// EWC table 11: pilot values for 20 MHz.
const TABLE_11: [Row; 10] = [
    row(1, 0, &[1, 1, 1, -1]),
    row(2, 0, &[1, 1, -1, -1]),
    row(2, 1, &[1, -1, -1, 1]),
    row(3, 0, &[1, 1, -1, -1]),
    row(3, 1, &[1, -1, 1, -1]),
    row(3, 2, &[-1, 1, 1, -1]),
    row(4, 0, &[1, 1, 1, -1]),
    row(4, 1, &[1, 1, -1, 1]),
    row(4, 2, &[1, -1, 1, 1]),
    row(4, 3, &[-1, 1, 1, 1]),
];

/// EWC table 12: pilot values for 40 MHz.
const TABLE_12: [Row; 10] = [
    row(1, 0, &[1, 1, 1, -1, -1, 1]),
    row(2, 0, &[1, 1, -1, -1, -1, -1]),
    row(2, 1, &[1, 1, 1, -1, 1, 1]),
    row(3, 0, &[1, 1, -1, -1, -1, -1]),
    row(3, 1, &[1, 1, 1, -1, 1, 1]),
    row(3, 2, &[1, -1, 1, -1, -1, 1]),
    row(4, 0, &[1, 1, -1, -1, -1, -1]),
    row(4, 1, &[1, 1, 1, -1, 1, 1]),
    row(4, 2, &[1, -1, 1, -1, -1, 1]),
    row(4, 3, &[-1, 1, 1, 1, -1, 1]),
];

/// The pattern of a stream of `nss`, from table 11 at 20 MHz and table 12 at 40.
///
/// None for another width, and for a number of streams or a stream that is not
/// in the tables.
pub fn pilot_pattern(width: u32, nss: u32, stream: u32) -> Option<&'static [i32]> {
    let table = match width {
        20 => &TABLE_11,
        40 => &TABLE_12,
        _ => return None,
    };
    for row in table {
        if row.nss == nss && row.stream == stream {
            return Some(row.pattern);
        }
    }
    None
}

/// Polarity `number` mod 127: that output of the scrambler of seed 127, 0 as 1
/// and 1 as -1.
pub fn polarity(number: u128) -> i32 {
    let mut register = register(127);
    for _ in 0..number % 127 {
        register.step();
    }
    match register.step() {
        0 => 1,
        _ => -1,
    }
}

/// z: 3 mixed, 2 green field. None for another format.
pub fn polarity_offset(format: u32) -> Option<u32> {
    match format {
        0 => Some(3),
        1 => Some(2),
        _ => None,
    }
}

/// The pilot at place q of a stream of `nss`, in symbol n:
/// pattern((n+q) mod pilots) times polarity(n+z). The sums do not wrap.
///
/// None where the pattern or z has no answer, and for a place that is not one
/// of the pilots.
pub fn pilot(width: u32, nss: u32, stream: u32, format: u32, n: u64, q: u32) -> Option<i32> {
    let pattern = pilot_pattern(width, nss, stream)?;
    let z = polarity_offset(format)?;
    let pilots = pattern.len() as u128;
    if u128::from(q) >= pilots {
        return None;
    }
    let n = u128::from(n);
    let place = (n + u128::from(q)) % pilots;
    let value = pattern.get(place as usize)?;
    Some(value * polarity(n + u128::from(z)))
}

#[cfg(test)]
mod tests {
    use super::*;
    use crate::carriers::pilot_subcarriers;
    use crate::samples::bits;
    use crate::scrambler::scrambler_sequence;

    /// All pilots of one stream and symbol.
    fn all(width: u32, nss: u32, stream: u32, format: u32, n: u64) -> Vec<i32> {
        let count = pilot_subcarriers(width).len() as u32;
        (0..count)
            .map(|q| pilot(width, nss, stream, format, n, q).unwrap())
            .collect()
    }

    fn polarities(count: u128) -> Vec<i32> {
        (0..count).map(polarity).collect()
    }

    #[test]
    fn p12_mixed_20_one_stream() {
        assert_eq!(all(20, 1, 0, 0, 0), [1, 1, 1, -1]);
        assert_eq!(all(20, 1, 0, 0, 1), [-1, -1, 1, -1]);
    }

    #[test]
    fn green_field_20_one_stream_by_hand() {
        // Polarities 2, 3, 4, 5 are 1, 1, -1, -1.
        assert_eq!(all(20, 1, 0, 1, 0), [1, 1, 1, -1]);
        assert_eq!(all(20, 1, 0, 1, 1), [1, 1, -1, 1]);
        assert_eq!(all(20, 1, 0, 1, 2), [-1, 1, -1, -1]);
        assert_eq!(all(20, 1, 0, 1, 3), [1, -1, -1, -1]);
    }

    #[test]
    fn mixed_40_four_streams_by_hand() {
        // Stream 3 has -1 1 1 1 -1 1; polarities 3, 4, 7, 9 are 1, -1, 1, -1.
        assert_eq!(all(40, 4, 3, 0, 0), [-1, 1, 1, 1, -1, 1]);
        assert_eq!(all(40, 4, 3, 0, 1), [-1, -1, -1, 1, -1, 1]);
        assert_eq!(all(40, 4, 3, 0, 4), [-1, 1, -1, 1, 1, 1]);
        assert_eq!(all(40, 4, 3, 0, 6), [1, -1, -1, -1, 1, -1]);
    }

    /// Tables 11 and 12, copied line by line from EWC 4.6.
    const PRINTED_11: &str = "
1	0	1	1	1	-1
2	0	1	1	-1	-1
2	1	1	-1	-1	1
3	0	1	1	-1	-1
3	1	1	-1	1	-1
3	2	-1	1	1	-1
4	0	1	1	1	-1
4	1	1	1	-1	1
4	2	1	-1	1	1
4	3	-1	1	1	1
";
    const PRINTED_12: &str = "
1	0	1	1	1	-1	-1	1
2	0	1	1	-1	-1	-1	-1
2	1	1	1	1	-1	1	1
3	0	1	1	-1	-1	-1	-1
3	1	1	1	1	-1	1	1
3	2	1	-1	1	-1	-1	1
4	0	1	1	-1	-1	-1	-1
4	1	1	1	1	-1	1	1
4	2	1	-1	1	-1	-1	1
4	3	-1	1	1	1	-1	1
";

    #[test]
    fn tables_11_and_12_as_printed() {
        for (width, printed) in [(20, PRINTED_11), (40, PRINTED_12)] {
            let mut rows = 0;
            for line in printed.trim().lines() {
                let numbers: Vec<i32> = line.split('\t').map(|n| n.parse().unwrap()).collect();
                let got = pilot_pattern(width, numbers[0] as u32, numbers[1] as u32);
                assert_eq!(got, Some(&numbers[2..]), "{width}: {line}");
                rows += 1;
            }
            assert_eq!(rows, 10);
        }
    }

    #[test]
    fn as_many_values_as_pilots_for_every_stream() {
        for width in [20, 40] {
            for nss in 1..=4 {
                for stream in 0..8 {
                    let got = pilot_pattern(width, nss, stream).map(|pattern| pattern.len());
                    let want = pilot_subcarriers(width).len();
                    assert_eq!(got, (stream < nss).then_some(want));
                }
            }
        }
    }

    #[test]
    fn published_polarities() {
        let want = [1, 1, 1, 1, -1, -1, -1, 1, -1, -1, -1, -1, 1, 1, -1, 1];
        assert_eq!(polarities(16), want);
        let sequence = scrambler_sequence(127, 127);
        let want: Vec<i32> = sequence.iter().map(|bit| 1 - 2 * i32::from(*bit)).collect();
        assert_eq!(polarities(127), want);
        // The period's end as published: 0001101110001111111.
        let end: Vec<i32> = bits("0001101110001111111")
            .iter()
            .map(|bit| 1 - 2 * i32::from(*bit))
            .collect();
        assert_eq!(polarities(127)[108..], end);
    }

    #[test]
    fn polarities_repeat_after_127_and_no_fewer() {
        let signs = polarities(254);
        assert_eq!(signs[..127], signs[127..]);
        for fewer in 1..127 {
            assert_ne!(signs[..127], signs[fewer..fewer + 127]);
        }
        assert_eq!(signs[..127].iter().filter(|sign| **sign == -1).count(), 64);
    }

    #[test]
    fn z_by_format() {
        assert_eq!(polarity_offset(0), Some(3));
        assert_eq!(polarity_offset(1), Some(2));
        for format in [2, 3, 256, u32::MAX] {
            assert_eq!(polarity_offset(format), None);
        }
    }

    #[test]
    fn the_patterns_turn_by_one_place_a_symbol() {
        for width in [20, 40] {
            for nss in 1..=4 {
                for stream in 0..nss {
                    for format in [0, 1] {
                        let pattern = pilot_pattern(width, nss, stream).unwrap();
                        for n in 0..260u64 {
                            let z = 3 - u128::from(format);
                            let sign = polarity(u128::from(n) + z);
                            let mut turned = pattern.to_vec();
                            turned.rotate_left(n as usize % pattern.len());
                            let want: Vec<i32> = turned.iter().map(|v| sign * v).collect();
                            assert_eq!(all(width, nss, stream, format, n), want);
                        }
                    }
                }
            }
        }
    }

    #[test]
    fn a5_mod_pilots_is_4_at_20_mhz_and_6_at_40() {
        // Symbols 0 and 508 = 4·127, 0 and 762 = 6·127, have equal pilots;
        // symbols 0 and 508 at 40 MHz do not.
        assert_eq!(all(20, 1, 0, 0, 508), all(20, 1, 0, 0, 0));
        assert_eq!(all(40, 1, 0, 0, 762), all(40, 1, 0, 0, 0));
        assert_ne!(all(40, 1, 0, 0, 508), all(40, 1, 0, 0, 0));
    }

    #[test]
    fn any_numbers_end_without_a_panic() {
        // 2^64 - 1 is 3 mod 4 and 1 mod 127, so polarity 4: symbol 1's.
        let last = all(20, 1, 0, 0, u64::MAX);
        assert_eq!(last, [1, -1, -1, -1]);
        assert_eq!(polarity(u128::from(u64::MAX) + 3), polarity(4));
        // 2^128 - 1 is 3 mod 127.
        assert_eq!(polarity(u128::MAX), polarity(3));
        let numbers = [0, 1, 2, 3, 4, 5, 6, 20, 40, 276, u32::MAX];
        for a in numbers {
            for b in numbers {
                for c in numbers {
                    let _ = pilot_pattern(a, b, c);
                    for q in numbers {
                        let got = pilot(20, a, b, c, u64::MAX, q);
                        let good = (1..=4).contains(&a) && b < a && c < 2 && q < 4;
                        assert_eq!(got.is_some(), good);
                    }
                }
            }
        }
    }
}
