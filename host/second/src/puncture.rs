//! Document 01, "From payload to points", step 3: what is kept of A and B.
//!
//! Kept: rate 1/2 A0 B0; 2/3 A0 B0 A1; 3/4 A0 B0 A1 B2; 5/6 A0 B0 A1 B2 A3 B4.

/// One entry of a pattern: the letter, and its step inside the period.
#[derive(Clone, Copy, Debug, PartialEq, Eq)]
pub enum Kept {
    A(u32),
    B(u32),
}

/// The printed pattern of a rate, given as (above, below) the line. The period
/// has as many steps as stand above the line.
///
/// Another rate has no pattern, and nothing is kept.
pub fn pattern(rate: (u32, u32)) -> Vec<Kept> {
    use Kept::{A, B};
    match rate {
        (1, 2) => vec![A(0), B(0)],
        (2, 3) => vec![A(0), B(0), A(1)],
        (3, 4) => vec![A(0), B(0), A(1), B(2)],
        (5, 6) => vec![A(0), B(0), A(1), B(2), A(3), B(4)],
        _ => Vec::new(),
    }
}

/// The kept bits of one encoder's steps, by a walk over the steps that counts
/// its place in the period and runs on over the whole frame.
pub fn puncture(steps: &[(u8, u8)], rate: (u32, u32)) -> Vec<u8> {
    let (period, _) = rate;
    let pattern = pattern(rate);
    let mut kept = Vec::new();
    let mut phase = 0;
    for (a, b) in steps {
        for entry in &pattern {
            match entry {
                Kept::A(step) if *step == phase => kept.push(*a),
                Kept::B(step) if *step == phase => kept.push(*b),
                _ => {}
            }
        }
        phase += 1;
        if phase >= period {
            phase = 0;
        }
    }
    kept
}

#[cfg(test)]
mod tests {
    use super::*;
    use crate::data_bits::data_bits;
    use crate::encoder::encode;
    use crate::rates::{coded_bits_per_symbol, data_bits_per_symbol, encoders, rate};
    use crate::settings::Settings;

    /// Steps whose A of step t is 2t and whose B is 2t + 1.
    fn numbered(count: u8) -> Vec<(u8, u8)> {
        (0..count).map(|t| (2 * t, 2 * t + 1)).collect()
    }

    #[test]
    fn two_periods_of_each_pattern_by_hand() {
        assert_eq!(puncture(&numbered(2), (1, 2)), [0, 1, 2, 3]);
        // A0 B0 A1, A2 B2 A3.
        assert_eq!(puncture(&numbered(4), (2, 3)), [0, 1, 2, 4, 5, 6]);
        // A0 B0 A1 B2, A3 B3 A4 B5.
        assert_eq!(puncture(&numbered(6), (3, 4)), [0, 1, 2, 5, 6, 7, 8, 11]);
        // A0 B0 A1 B2 A3 B4, A5 B5 A6 B7 A8 B9.
        let want = [0, 1, 2, 5, 6, 9, 10, 11, 12, 15, 16, 19];
        assert_eq!(puncture(&numbered(10), (5, 6)), want);
    }

    #[test]
    fn what_is_left_out_by_hand() {
        let out = |count, rate| -> Vec<u8> {
            let kept = puncture(&numbered(count), rate);
            (0..2 * count).filter(|n| !kept.contains(n)).collect()
        };
        assert_eq!(out(4, (1, 2)), []);
        // B1, B3.
        assert_eq!(out(4, (2, 3)), [3, 7]);
        // B1 A2, B4 A5.
        assert_eq!(out(6, (3, 4)), [3, 4, 9, 10]);
        // B1 A2 B3 A4, B6 A7 B8 A9.
        assert_eq!(out(10, (5, 6)), [3, 4, 7, 8, 13, 14, 17, 18]);
    }

    #[test]
    fn a_cut_period_keeps_what_its_steps_have() {
        for (count, want) in [(0, 0), (1, 2), (2, 3), (3, 4), (4, 5), (5, 6), (6, 8)] {
            assert_eq!(puncture(&numbered(count), (5, 6)).len(), want);
        }
    }

    #[test]
    fn a_period_gives_as_many_bits_as_stand_below_the_line() {
        for mcs in 0..=31 {
            let (above, below) = rate(mcs);
            assert_eq!(pattern((above, below)).len(), below as usize);
            let steps = vec![(0, 1); 7 * above as usize];
            assert_eq!(puncture(&steps, (above, below)).len(), 7 * below as usize);
        }
    }

    #[test]
    fn d4_a_symbol_is_a_whole_number_of_periods() {
        for width in [20, 40] {
            for mcs in 0..=31 {
                let nes = encoders(mcs);
                let steps = data_bits_per_symbol(width, mcs) / nes;
                let (above, below) = rate(mcs);
                assert_eq!(steps % above, 0, "width {width}, MCS {mcs}");
                // So starting afresh with each symbol gives the same bits.
                let frame: Vec<(u8, u8)> = (0..3 * steps)
                    .map(|t| ((t % 251) as u8, (t % 241) as u8))
                    .collect();
                let mut by_symbol = Vec::new();
                for symbol in frame.chunks(steps as usize) {
                    let kept = puncture(symbol, (above, below));
                    assert_eq!(kept.len() as u32, coded_bits_per_symbol(width, mcs) / nes);
                    by_symbol.extend(kept);
                }
                assert_eq!(puncture(&frame, (above, below)), by_symbol);
            }
        }
    }

    #[test]
    fn published_annex_g_kept_bits() {
        let text = "0402002e006008cd37a60020d6013cf1006008ad3baf0000\
            4a6f792c2062726967687420737061726b206f6620646976696e6974792c0a\
            4461756768746572206f6620456c797369756d2c0a\
            466972652d696e73697265642077652074726561673321b6";
        let mut message = Vec::new();
        for place in 0..text.len() / 2 {
            message.push(u8::from_str_radix(&text[2 * place..2 * place + 2], 16).unwrap());
        }
        assert_eq!(message.len(), 100);
        let s = Settings {
            width: 20,
            mcs: 4,
            format: 0,
            length: 100,
            seed: 93,
            smoothing: true,
            not_sounding: true,
            aggregation: false,
            short_guard: false,
        };
        // All 192 bits are printed.
        let printed = "001010110000100010100001111100001001110110110101\
            100110100001110101001010111110111110100011000010\
            100011111100000011001000011100111100000001000011\
            111000000001100111100000110100111110101110110010";
        let want: Vec<u8> = printed.bytes().map(|c| c - b'0').collect();
        assert_eq!(want.len(), 192);
        let kept = puncture(&encode(&data_bits(&s, &message).unwrap()), rate(4));
        assert_eq!(kept[..192], want);
    }

    #[test]
    fn another_rate_keeps_nothing() {
        let steps = numbered(100);
        for rate in [(0, 0), (0, 2), (1, 1), (2, 4), (7, 8), (u32::MAX, u32::MAX)] {
            assert_eq!(pattern(rate), []);
            assert_eq!(puncture(&steps, rate), []);
        }
    }
}
