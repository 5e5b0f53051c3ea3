//! Document 01, "Settings": what follows from width and MCS, and the symbol count.
//!
//! The functions of width and MCS alone answer for every number. Outside the
//! accepted settings their answers mean nothing: they follow the rule as it
//! stands, another width has no carriers, and a product beyond `u32` is given
//! as `u32::MAX`.

use crate::settings::{check, Settings};

/// NSS = floor(m/8) + 1.
pub fn streams(mcs: u32) -> u32 {
    mcs / 8 + 1
}

/// Bits per carrier B, by m mod 8.
pub fn bits_per_carrier(mcs: u32) -> u32 {
    match mcs % 8 {
        0 => 1,
        1 => 2,
        2 => 2,
        3 => 4,
        4 => 4,
        5 => 6,
        6 => 6,
        _ => 6,
    }
}

/// The rate as (above, below) the line, by m mod 8.
pub fn rate(mcs: u32) -> (u32, u32) {
    match mcs % 8 {
        0 => (1, 2),
        1 => (1, 2),
        2 => (3, 4),
        3 => (1, 2),
        4 => (3, 4),
        5 => (2, 3),
        6 => (3, 4),
        _ => (5, 6),
    }
}

/// Data carriers: 52 or 108.
pub fn data_carriers(width: u32) -> u32 {
    match width {
        20 => 52,
        40 => 108,
        _ => 0,
    }
}

/// NES: 1 for NSS 1 and 2, else 2 (EWC table 1, for both widths).
pub fn encoders(mcs: u32) -> u32 {
    match streams(mcs) {
        1 | 2 => 1,
        _ => 2,
    }
}

/// Block = carriers × B.
pub fn block(width: u32, mcs: u32) -> u32 {
    data_carriers(width) * bits_per_carrier(mcs)
}

/// Coded bits per symbol = block × NSS.
pub fn coded_bits_per_symbol(width: u32, mcs: u32) -> u32 {
    narrow(wide_coded_bits(width, mcs))
}

/// Data bits per symbol D = coded × rate. The division leaves no rest.
pub fn data_bits_per_symbol(width: u32, mcs: u32) -> u32 {
    let (above, below) = data_bits_fraction(width, mcs);
    narrow(above / below)
}

/// Symbols = least whole number not below (16 + 8·length + 6·NES) / D.
///
/// Takes and tests all settings. The number is found by counting up from 0
/// until n·D is no longer below the bits, with D as the fraction it is.
pub fn symbol_count(s: &Settings) -> Result<u32, u32> {
    check(s)?;
    let bits = 16 + 8 * u64::from(s.length) + 6 * u64::from(encoders(s.mcs));
    let (above, below) = data_bits_fraction(s.width, s.mcs);
    let mut n: u32 = 0;
    while u64::from(n) * above < bits * below {
        n += 1;
    }
    Ok(n)
}

/// Coded bits per symbol without loss.
fn wide_coded_bits(width: u32, mcs: u32) -> u64 {
    u64::from(block(width, mcs)) * u64::from(streams(mcs))
}

/// D = coded × rate as (above, below) the line.
fn data_bits_fraction(width: u32, mcs: u32) -> (u64, u64) {
    let (above, below) = rate(mcs);
    (
        wide_coded_bits(width, mcs) * u64::from(above),
        u64::from(below),
    )
}

fn narrow(number: u64) -> u32 {
    u32::try_from(number).unwrap_or(u32::MAX)
}

#[cfg(test)]
mod tests {
    use super::*;
    use crate::samples::settings;

    #[test]
    fn p1_mcs0_20_length1_two_symbols() {
        assert_eq!(symbol_count(&settings(0, 20, 1, 1)), Ok(2));
    }

    #[test]
    fn p2_mcs0_20_length7_three_symbols() {
        // 78/26 exactly.
        assert_eq!(16 + 8 * 7 + 6 * encoders(0), 78);
        assert_eq!(data_bits_per_symbol(20, 0), 26);
        assert_eq!(symbol_count(&settings(0, 20, 7, 1)), Ok(3));
    }

    #[test]
    fn p3_mcs0_20_length8_four_symbols() {
        assert_eq!(symbol_count(&settings(0, 20, 8, 1)), Ok(4));
    }

    #[test]
    fn p4_mcs0_20_length65535_20166_symbols() {
        assert_eq!(symbol_count(&settings(0, 20, 65_535, 1)), Ok(20_166));
    }

    #[test]
    fn p5_mcs31_40_length65535_243_symbols() {
        assert_eq!(symbol_count(&settings(31, 40, 65_535, 1)), Ok(243));
    }

    #[test]
    fn p6_mcs16_20_length7_two_symbols() {
        // 84/78.
        assert_eq!(16 + 8 * 7 + 6 * encoders(16), 84);
        assert_eq!(data_bits_per_symbol(20, 16), 78);
        assert_eq!(symbol_count(&settings(16, 20, 7, 1)), Ok(2));
    }

    /// EWC table 1 for one MCS, as printed.
    struct Row {
        nss: u32,
        nes: [u32; 2],
        ncbps: [u32; 2],
        mbps: [f64; 2],
    }

    fn row(nss: u32, nes: u32, cb20: u32, cb40: u32, r20: f64, r40: f64) -> Row {
        Row {
            nss,
            nes: [nes, nes],
            ncbps: [cb20, cb40],
            mbps: [r20, r40],
        }
    }

    #[test]
    fn ewc_table_1() {
        let rows = [
            row(1, 1, 52, 108, 6.5, 13.5),
            row(1, 1, 104, 216, 13.0, 27.0),
            row(1, 1, 104, 216, 19.5, 40.5),
            row(1, 1, 208, 432, 26.0, 54.0),
            row(1, 1, 208, 432, 39.0, 81.0),
            row(1, 1, 312, 648, 52.0, 108.0),
            row(1, 1, 312, 648, 58.5, 121.5),
            row(1, 1, 312, 648, 65.0, 135.0),
            row(2, 1, 104, 216, 13.0, 27.0),
            row(2, 1, 208, 432, 26.0, 54.0),
            row(2, 1, 208, 432, 39.0, 81.0),
            row(2, 1, 416, 864, 52.0, 108.0),
            row(2, 1, 416, 864, 78.0, 162.0),
            row(2, 1, 624, 1296, 104.0, 216.0),
            row(2, 1, 624, 1296, 117.0, 243.0),
            row(2, 1, 624, 1296, 130.0, 270.0),
            row(3, 2, 156, 324, 19.5, 40.5),
            row(3, 2, 312, 648, 39.0, 81.0),
            row(3, 2, 312, 648, 58.5, 121.5),
            row(3, 2, 624, 1296, 78.0, 162.0),
            row(3, 2, 624, 1296, 117.0, 243.0),
            row(3, 2, 936, 1944, 156.0, 324.0),
            row(3, 2, 936, 1944, 175.5, 364.5),
            row(3, 2, 936, 1944, 195.0, 405.0),
            row(4, 2, 208, 432, 26.0, 54.0),
            row(4, 2, 416, 864, 52.0, 108.0),
            row(4, 2, 416, 864, 78.0, 162.0),
            row(4, 2, 832, 1728, 104.0, 216.0),
            row(4, 2, 832, 1728, 156.0, 324.0),
            row(4, 2, 1248, 2592, 208.0, 432.0),
            row(4, 2, 1248, 2592, 234.0, 486.0),
            row(4, 2, 1248, 2592, 260.0, 540.0),
        ];
        for (mcs, row) in (0u32..).zip(&rows) {
            assert_eq!(streams(mcs), row.nss);
            for (w, width) in [20, 40].into_iter().enumerate() {
                assert_eq!(encoders(mcs), row.nes[w]);
                assert_eq!(coded_bits_per_symbol(width, mcs), row.ncbps[w]);
                // A symbol with the 800 ns guard lasts 4 µs.
                let d = data_bits_per_symbol(width, mcs);
                assert_eq!(f64::from(d), 4.0 * row.mbps[w]);
            }
        }
    }

    #[test]
    fn coded_times_rate_is_whole() {
        for width in [20, 40] {
            for mcs in 0..=31 {
                let (above, below) = data_bits_fraction(width, mcs);
                assert_eq!(above % below, 0);
            }
        }
    }

    #[test]
    fn the_count_is_the_least_that_holds_all_bits() {
        for width in [20, 40] {
            for mcs in 0..=31 {
                let d = data_bits_per_symbol(width, mcs);
                for length in [1, 2, 3, 100, 1_023, 4_095, 65_534, 65_535] {
                    let n = symbol_count(&settings(mcs, width, length, 1)).unwrap();
                    let bits = 16 + 8 * length + 6 * encoders(mcs);
                    assert!(n * d >= bits);
                    assert!((n - 1) * d < bits);
                }
            }
        }
    }

    #[test]
    fn the_count_takes_and_tests_all_settings() {
        let good = settings(0, 20, 1, 1);
        let cases = [
            (Settings { width: 21, ..good }, 1),
            (Settings { mcs: 32, ..good }, 2),
            (Settings { format: 2, ..good }, 3),
            (
                Settings {
                    length: 65_536,
                    ..good
                },
                4,
            ),
            (Settings { seed: 128, ..good }, 5),
        ];
        for (s, no) in cases {
            assert_eq!(symbol_count(&s), Err(no));
        }
        let green = Settings { format: 1, ..good };
        assert_eq!(symbol_count(&green), Ok(2));
    }

    #[test]
    fn any_numbers_end_without_a_panic() {
        let numbers = [
            0,
            1,
            19,
            20,
            31,
            32,
            40,
            127,
            65_536,
            u32::MAX - 1,
            u32::MAX,
        ];
        for a in numbers {
            for b in numbers {
                let _ = (streams(a), bits_per_carrier(a), rate(a), encoders(a));
                let _ = (data_carriers(a), block(a, b));
                let _ = (coded_bits_per_symbol(a, b), data_bits_per_symbol(a, b));
                for length in numbers {
                    let _ = symbol_count(&settings(a, b, length, 1));
                }
            }
        }
        assert_eq!(data_bits_per_symbol(40, u32::MAX), u32::MAX);
        assert_eq!(data_bits_per_symbol(21, 7), 0);
    }
}
