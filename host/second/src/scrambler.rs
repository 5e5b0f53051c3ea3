//! Document 01, "From payload to points", step 1: the scrambler.
//!
//! Scrambler x^7 + x^4 + 1: output x7 xor x4, fed into x1; seed bit 0 is x1,
//! bit 6 is x7.

/// The seven places of the register, one bit in each byte, read by its
/// remainder modulo 2.
#[derive(Clone, Copy, Debug, PartialEq, Eq)]
pub struct Register {
    pub x1: u8,
    pub x2: u8,
    pub x3: u8,
    pub x4: u8,
    pub x5: u8,
    pub x6: u8,
    pub x7: u8,
}

/// The register that a seed gives: seed bit 0 is x1, bit 6 is x7.
///
/// Bits of the number above bit 6 are not looked at.
pub fn register(seed: u32) -> Register {
    Register {
        x1: seed_bit(seed, 0),
        x2: seed_bit(seed, 1),
        x3: seed_bit(seed, 2),
        x4: seed_bit(seed, 3),
        x5: seed_bit(seed, 4),
        x6: seed_bit(seed, 5),
        x7: seed_bit(seed, 6),
    }
}

impl Register {
    /// One step: gives the output x7 xor x4, which is fed into x1.
    pub fn step(&mut self) -> u8 {
        let output = (self.x7 % 2) ^ (self.x4 % 2);
        // Every place takes its lower neighbour, the highest first, so that
        // each neighbour is still the old one.
        self.x7 = self.x6;
        self.x6 = self.x5;
        self.x5 = self.x4;
        self.x4 = self.x3;
        self.x3 = self.x2;
        self.x2 = self.x1;
        self.x1 = output;
        output
    }

    /// The register as a seed: x1 is bit 0, x7 is bit 6.
    pub fn number(&self) -> u32 {
        let places = [
            self.x1, self.x2, self.x3, self.x4, self.x5, self.x6, self.x7,
        ];
        let mut number = 0;
        let mut weight = 1;
        for place in places {
            number += weight * u32::from(place % 2);
            weight *= 2;
        }
        number
    }
}

/// The first `count` outputs for a seed.
pub fn scrambler_sequence(seed: u32, count: u16) -> Vec<u8> {
    let mut register = register(seed);
    let mut outputs = Vec::new();
    for _ in 0..count {
        outputs.push(register.step());
    }
    outputs
}

/// The bits scrambled: to bit d, output d of the seed is added modulo 2.
///
/// One bit stands in each byte, read by its remainder modulo 2.
pub fn scramble(seed: u32, bits: &[u8]) -> Vec<u8> {
    let mut register = register(seed);
    let mut scrambled = Vec::new();
    for bit in bits {
        scrambled.push((bit % 2) ^ register.step());
    }
    scrambled
}

/// Bit `place` of the seed, for places 0 to 6.
fn seed_bit(seed: u32, place: u32) -> u8 {
    if (seed >> place) % 2 == 1 {
        1
    } else {
        0
    }
}

#[cfg(test)]
mod tests {
    use super::*;
    use crate::samples::bits;

    /// One period of seed 127 as published.
    const PERIOD: &str = "0000111011110010110010010000001000100110001011101011011\
        000001100110101001110011110110100001010101111101001010001101110001111111";

    #[test]
    fn p7_seed_127_begins() {
        assert_eq!(scrambler_sequence(127, 16), bits("00001110 11110010"));
    }

    #[test]
    fn published_period_of_seed_127() {
        let period = bits(PERIOD);
        assert_eq!(period.len(), 127);
        assert_eq!(scrambler_sequence(127, 127), period);
        // It comes again after 127 outputs.
        let again = [period.clone(), period.clone(), period].concat();
        assert_eq!(scrambler_sequence(127, 381), again);
    }

    #[test]
    fn sixty_four_of_the_period_are_ones() {
        for seed in 1..=127 {
            let ones: u32 = scrambler_sequence(seed, 127)
                .iter()
                .map(|bit| u32::from(*bit))
                .sum();
            assert_eq!(ones, 64, "seed {seed}");
        }
    }

    #[test]
    fn seed_bit_0_is_x1_and_bit_6_is_x7() {
        let zero = register(0);
        assert_eq!(register(1), Register { x1: 1, ..zero });
        assert_eq!(register(2), Register { x2: 1, ..zero });
        assert_eq!(register(4), Register { x3: 1, ..zero });
        assert_eq!(register(8), Register { x4: 1, ..zero });
        assert_eq!(register(16), Register { x5: 1, ..zero });
        assert_eq!(register(32), Register { x6: 1, ..zero });
        assert_eq!(register(64), Register { x7: 1, ..zero });
        // A 1 in x1 needs three steps to x4; a 1 in x7 goes out at once and
        // then stands in x1.
        assert_eq!(scrambler_sequence(1, 16), bits("00010011 00010111"));
        assert_eq!(scrambler_sequence(64, 16), bits("10001001 10001011"));
    }

    #[test]
    fn one_step_by_hand() {
        // x7..x1 = 1011101 is seed 93, the seed of Annex G.
        let mut r = register(93);
        assert_eq!(
            (r.x7, r.x6, r.x5, r.x4, r.x3, r.x2, r.x1),
            (1, 0, 1, 1, 1, 0, 1)
        );
        // x7 xor x4 = 0, fed into x1.
        assert_eq!(r.step(), 0);
        assert_eq!(
            (r.x7, r.x6, r.x5, r.x4, r.x3, r.x2, r.x1),
            (0, 1, 1, 1, 0, 1, 0)
        );
        // x7 xor x4 = 1.
        assert_eq!(r.step(), 1);
        assert_eq!(
            (r.x7, r.x6, r.x5, r.x4, r.x3, r.x2, r.x1),
            (1, 1, 1, 0, 1, 0, 1)
        );
    }

    #[test]
    fn each_output_is_the_sum_of_the_seventh_and_the_fourth_before_it() {
        for seed in 0..=127u32 {
            // x1 is the output one step before the first, x7 the one seven
            // steps before.
            let mut outputs = Vec::new();
            for place in (0..7).rev() {
                outputs.push(((seed >> place) & 1) as u8);
            }
            for n in 7..400 {
                outputs.push(outputs[n - 7] ^ outputs[n - 4]);
            }
            assert_eq!(scrambler_sequence(seed, 393), outputs[7..]);
        }
    }

    #[test]
    fn from_any_seed_the_register_runs_through_all_127_and_no_fewer() {
        for seed in 1..=127 {
            let mut r = register(seed);
            let mut seen = [false; 128];
            for _ in 0..127 {
                assert!(!seen[r.number() as usize]);
                seen[r.number() as usize] = true;
                r.step();
            }
            assert_eq!(r.number(), seed);
            assert!(!seen[0]);
        }
    }

    #[test]
    fn seven_outputs_tell_the_seed() {
        // x1 holds the seventh output, x7 the first.
        for seed in 0..=127 {
            let mut r = register(seed);
            let mut want = 0;
            for n in 0..7 {
                want += u32::from(r.step()) << (6 - n);
            }
            assert_eq!(r.number(), want);
        }
        let mut all: Vec<Vec<u8>> = (0..=127).map(|s| scrambler_sequence(s, 7)).collect();
        all.sort();
        all.dedup();
        assert_eq!(all.len(), 128);
    }

    #[test]
    fn a_seed_is_the_number_of_its_register() {
        for seed in 0..=127 {
            assert_eq!(register(seed).number(), seed);
        }
        for seed in [128, 255, 1 << 31, u32::MAX] {
            assert_eq!(register(seed).number(), seed % 128);
        }
    }

    #[test]
    fn scrambling_adds_the_sequence() {
        assert_eq!(scramble(127, &[0; 16]), bits("00001110 11110010"));
        assert_eq!(scramble(127, &[1; 16]), bits("11110001 00001101"));
        // Bits by their remainder.
        assert_eq!(scramble(127, &[2, 3, 254, 255]), bits("0101"));
        assert_eq!(scramble(127, &[]), Vec::<u8>::new());
        let message: Vec<u8> = (0..500u32).map(|n| (n * n / 7 % 2) as u8).collect();
        for seed in 1..=127 {
            let scrambled = scramble(seed, &message);
            assert_ne!(scrambled, message);
            assert_eq!(scramble(seed, &scrambled), message);
        }
    }

    #[test]
    fn seed_0_would_stay_at_zero() {
        assert_eq!(scrambler_sequence(0, 300), vec![0; 300]);
    }

    #[test]
    fn any_numbers_end_without_a_panic() {
        assert_eq!(scrambler_sequence(u32::MAX, u16::MAX).len(), 65_535);
        let mut r = Register {
            x1: 255,
            x2: 254,
            x3: 255,
            x4: 255,
            x5: 2,
            x6: 3,
            x7: 4,
        };
        assert_eq!(r.number(), 1 + 4 + 8 + 32);
        assert_eq!(r.step(), 1);
    }
}
