//! Document 01, "Settings": the raw numbers, and refusals 1 to 5.

use crate::refusal;

/// The settings as a caller passes them: any number may stand in any field.
#[derive(Clone, Copy, Debug, PartialEq, Eq)]
pub struct Settings {
    /// 20 or 40 (MHz).
    pub width: u32,
    /// 0 to 31.
    pub mcs: u32,
    /// 0 mixed, 1 green field.
    pub format: u32,
    /// 1 to 65,535 bytes.
    pub length: u32,
    /// 1 to 127.
    pub seed: u32,
    pub smoothing: bool,
    pub not_sounding: bool,
    pub aggregation: bool,
    pub short_guard: bool,
}

/// Refusals 1 to 5 of document 01; the first that applies is given.
pub fn check(s: &Settings) -> Result<(), u32> {
    if s.width != 20 && s.width != 40 {
        return Err(refusal::WIDTH);
    }
    if s.mcs > 31 {
        return Err(refusal::MCS);
    }
    if s.format > 1 {
        return Err(refusal::FORMAT);
    }
    if s.length == 0 || s.length > 65_535 {
        return Err(refusal::LENGTH);
    }
    if s.seed == 0 || s.seed > 127 {
        return Err(refusal::SEED);
    }
    Ok(())
}

#[cfg(test)]
mod tests {
    use super::*;

    const GOOD: Settings = Settings {
        width: 20,
        mcs: 0,
        format: 0,
        length: 1,
        seed: 1,
        smoothing: false,
        not_sounding: false,
        aggregation: false,
        short_guard: false,
    };

    #[test]
    fn width_20_and_40_only() {
        for width in 0..=300 {
            let want = match width {
                20 | 40 => Ok(()),
                _ => Err(1),
            };
            assert_eq!(check(&Settings { width, ..GOOD }), want);
        }
    }

    #[test]
    fn mcs_32_is_refusal_2() {
        assert_eq!(check(&Settings { mcs: 32, ..GOOD }), Err(2));
    }

    #[test]
    fn mcs_31_is_no_refusal() {
        for mcs in 0..=31 {
            assert_eq!(check(&Settings { mcs, ..GOOD }), Ok(()));
        }
    }

    #[test]
    fn format_2_is_refusal_3() {
        assert_eq!(check(&Settings { format: 0, ..GOOD }), Ok(()));
        assert_eq!(check(&Settings { format: 1, ..GOOD }), Ok(()));
        assert_eq!(check(&Settings { format: 2, ..GOOD }), Err(3));
    }

    #[test]
    fn length_65536_is_refusal_4() {
        for (length, want) in [(0, Err(4)), (1, Ok(())), (65_535, Ok(())), (65_536, Err(4))] {
            assert_eq!(check(&Settings { length, ..GOOD }), want);
        }
    }

    #[test]
    fn seed_128_is_refusal_5() {
        for (seed, want) in [(0, Err(5)), (1, Ok(())), (127, Ok(())), (128, Err(5))] {
            assert_eq!(check(&Settings { seed, ..GOOD }), want);
        }
    }

    #[test]
    fn numbers_do_not_wrap() {
        for bits in [8, 16, 24, 31] {
            let more = 1u32 << bits;
            let width = 20 + more;
            assert_eq!(check(&Settings { width, ..GOOD }), Err(1));
            assert_eq!(check(&Settings { mcs: more, ..GOOD }), Err(2));
            let format = more;
            assert_eq!(check(&Settings { format, ..GOOD }), Err(3));
            let seed = 1 + more;
            assert_eq!(check(&Settings { seed, ..GOOD }), Err(5));
        }
        for length in [65_537, (1 << 24) + 1, u32::MAX] {
            assert_eq!(check(&Settings { length, ..GOOD }), Err(4));
        }
    }

    #[test]
    fn refusals_1_to_5_come_in_order() {
        // Each of the 32 choices of good and bad fields gives its lowest number.
        for choice in 0u32..32 {
            let bad = |no: u32| (choice >> (no - 1)) & 1 == 1;
            let s = Settings {
                width: if bad(1) { 21 } else { 40 },
                mcs: if bad(2) { 32 } else { 31 },
                format: if bad(3) { 2 } else { 1 },
                length: if bad(4) { 0 } else { 9 },
                seed: if bad(5) { 128 } else { 93 },
                ..GOOD
            };
            let want = match (1..=5).find(|no| bad(*no)) {
                Some(no) => Err(no),
                None => Ok(()),
            };
            assert_eq!(check(&s), want);
        }
    }
}
