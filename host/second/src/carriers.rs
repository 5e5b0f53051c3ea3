//! Document 01, "From payload to points", step 7: the subcarriers.
//!
//! Subcarriers -28..-1, 1..28, or -58..-2, 2..58, rising. Pilots at ±7, ±21, or
//! ±11, ±25, ±53; data fill the rest in rising order.
//!
//! A width other than 20 and 40 has no subcarriers.

/// The used subcarriers: -28..-1, 1..28, or -58..-2, 2..58, rising.
pub fn used_subcarriers(width: u32) -> Vec<i64> {
    let mut used = Vec::new();
    match width {
        20 => {
            used.extend(-28..=-1);
            used.extend(1..=28);
        }
        40 => {
            used.extend(-58..=-2);
            used.extend(2..=58);
        }
        _ => {}
    }
    used
}

/// The pilots ±7, ±21, or ±11, ±25, ±53, rising: place q has the pilot q.
pub fn pilot_subcarriers(width: u32) -> Vec<i64> {
    match width {
        20 => vec![-21, -7, 7, 21],
        40 => vec![-53, -25, -11, 11, 25, 53],
        _ => Vec::new(),
    }
}

/// The data carriers: the rest of the used subcarriers, rising.
pub fn data_subcarriers(width: u32) -> Vec<i64> {
    let pilots = pilot_subcarriers(width);
    let mut data = Vec::new();
    for subcarrier in used_subcarriers(width) {
        if !pilots.contains(&subcarrier) {
            data.push(subcarrier);
        }
    }
    data
}

/// What the one-subcarrier question takes, as (lowest, highest): -32..31 or
/// -64..63.
pub fn question_range(width: u32) -> Option<(i64, i64)> {
    match width {
        20 => Some((-32, 31)),
        40 => Some((-64, 63)),
        _ => None,
    }
}

#[cfg(test)]
mod tests {
    use super::*;
    use crate::rates::data_carriers;

    #[test]
    fn counts_of_ewc_table_2() {
        // N_ST, N_SP, N_SD.
        for (width, used, pilots, data) in [(20, 56, 4, 52), (40, 114, 6, 108)] {
            assert_eq!(used_subcarriers(width).len(), used);
            assert_eq!(pilot_subcarriers(width).len(), pilots);
            assert_eq!(data_subcarriers(width).len(), data);
            assert_eq!(data_carriers(width) as usize, data);
        }
    }

    #[test]
    fn all_rise() {
        for width in [20, 40] {
            for list in [
                used_subcarriers(width),
                pilot_subcarriers(width),
                data_subcarriers(width),
            ] {
                assert!(list.windows(2).all(|pair| pair[0] < pair[1]));
                // And stand on both sides of 0 alike.
                let turned: Vec<i64> = list.iter().rev().map(|k| -k).collect();
                assert_eq!(turned, list);
            }
        }
    }

    #[test]
    fn used_are_exactly_the_printed() {
        for k in -200..=200 {
            let side = i64::abs(k);
            let want = (1..=28).contains(&side);
            assert_eq!(used_subcarriers(20).contains(&k), want, "{k}");
            let want = (2..=58).contains(&side);
            assert_eq!(used_subcarriers(40).contains(&k), want, "{k}");
        }
    }

    #[test]
    fn pilots_are_exactly_the_printed() {
        for k in -200..=200 {
            let side = i64::abs(k);
            let want = side == 7 || side == 21;
            assert_eq!(pilot_subcarriers(20).contains(&k), want, "{k}");
            let want = side == 11 || side == 25 || side == 53;
            assert_eq!(pilot_subcarriers(40).contains(&k), want, "{k}");
        }
    }

    #[test]
    fn pilots_and_data_are_the_used_each_once() {
        for width in [20, 40] {
            let mut both = pilot_subcarriers(width);
            both.extend(data_subcarriers(width));
            both.sort();
            assert_eq!(both, used_subcarriers(width));
        }
    }

    /// M(k) of EWC 4.7.1 for 20 MHz, as printed.
    fn m_20(k: i64) -> i64 {
        match k {
            0..=6 => k - 28,
            7..=19 => k - 27,
            20..=25 => k - 26,
            26..=31 => k - 25,
            32..=44 => k - 24,
            _ => k - 23,
        }
    }

    /// M(k) of EWC 4.7.2 for 40 MHz, as printed.
    fn m_40(k: i64) -> i64 {
        match k {
            0..=4 => k - 58,
            5..=31 => k - 57,
            32..=44 => k - 56,
            45..=53 => k - 55,
            54..=62 => k - 52,
            63..=75 => k - 51,
            76..=102 => k - 50,
            _ => k - 49,
        }
    }

    #[test]
    fn a7_data_fill_the_rest_as_m_of_k() {
        let want: Vec<i64> = (0..52).map(m_20).collect();
        assert_eq!(data_subcarriers(20), want);
        let want: Vec<i64> = (0..108).map(m_40).collect();
        assert_eq!(data_subcarriers(40), want);
        // The upper half of the data is above 0, the lower below.
        assert!((0..54).all(|k| m_40(k) < 0));
        assert!((54..108).all(|k| m_40(k) > 0));
    }

    #[test]
    fn the_question_takes_64_or_128() {
        assert_eq!(question_range(20), Some((-32, 31)));
        assert_eq!(question_range(40), Some((-64, 63)));
        for (width, count) in [(20, 64), (40, 128)] {
            let (lowest, highest) = question_range(width).unwrap();
            assert_eq!((lowest..=highest).count(), count);
            for k in used_subcarriers(width) {
                assert!((lowest..=highest).contains(&k));
            }
        }
    }

    #[test]
    fn another_width_has_none() {
        for width in [0, 1, 19, 21, 39, 41, 276, 296, u32::MAX] {
            assert_eq!(used_subcarriers(width), []);
            assert_eq!(pilot_subcarriers(width), []);
            assert_eq!(data_subcarriers(width), []);
            assert_eq!(question_range(width), None);
        }
    }
}
