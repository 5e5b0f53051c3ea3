//! Document 01, "From payload to points", step 2: the encoders.
//!
//! Bit d goes to encoder d mod NES. Each starts at zero. At step t:
//! A = x(t)+x(t-2)+x(t-3)+x(t-5)+x(t-6), B = x(t)+x(t-1)+x(t-2)+x(t-3)+x(t-6),
//! mod 2.

/// One encoder: its six earlier inputs, `earlier[0]` is x(t-1) and `earlier[5]`
/// is x(t-6). One bit stands in each byte, read by its remainder modulo 2.
#[derive(Clone, Copy, Debug, PartialEq, Eq)]
pub struct Encoder {
    pub earlier: [u8; 6],
}

impl Encoder {
    /// "Each starts at zero."
    pub fn at_zero() -> Encoder {
        Encoder { earlier: [0; 6] }
    }

    /// One step with input x(t): gives A and B, then x(t) joins the earlier
    /// inputs and x(t-6) leaves them.
    pub fn step(&mut self, input: u8) -> (u8, u8) {
        let x0 = input % 2;
        let x1 = self.earlier[0] % 2;
        let x2 = self.earlier[1] % 2;
        let x3 = self.earlier[2] % 2;
        let x4 = self.earlier[3] % 2;
        let x5 = self.earlier[4] % 2;
        let x6 = self.earlier[5] % 2;
        let a = (x0 + x2 + x3 + x5 + x6) % 2;
        let b = (x0 + x1 + x2 + x3 + x6) % 2;
        self.earlier = [x0, x1, x2, x3, x4, x5];
        (a, b)
    }
}

/// The inputs of one encoder, in order: the bits d with d mod NES equal to its
/// number. With NES 0 there is no encoder, and nothing is given.
pub fn encoder_inputs(bits: &[u8], nes: u32, encoder: u32) -> Vec<u8> {
    let mut inputs = Vec::new();
    // The encoder whose turn it is.
    let mut turn = 0;
    for bit in bits {
        if turn == encoder && turn < nes {
            inputs.push(*bit);
        }
        turn += 1;
        if turn >= nes {
            turn = 0;
        }
    }
    inputs
}

/// A and B of each step of one encoder, from zero.
pub fn encode(inputs: &[u8]) -> Vec<(u8, u8)> {
    let mut encoder = Encoder::at_zero();
    let mut steps = Vec::new();
    for input in inputs {
        steps.push(encoder.step(*input));
    }
    steps
}

#[cfg(test)]
mod tests {
    use super::*;
    use crate::data_bits::data_bits;
    use crate::rates::{data_bits_per_symbol, encoders};
    use crate::samples::settings;

    fn some_bits(count: usize) -> Vec<u8> {
        let mut state = 11u32;
        let mut bits = Vec::new();
        for _ in 0..count {
            state = state.wrapping_mul(1_664_525).wrapping_add(1_013_904_223);
            bits.push((state >> 31) as u8);
        }
        bits
    }

    #[test]
    fn p8_inputs_1000000() {
        let want = [(1, 1), (0, 1), (1, 1), (1, 1), (0, 0), (1, 0), (1, 1)];
        assert_eq!(encode(&[1, 0, 0, 0, 0, 0, 0]), want);
    }

    #[test]
    fn after_seven_steps_an_input_is_forgotten() {
        let steps = encode(&[1, 0, 0, 0, 0, 0, 0, 0, 0, 0]);
        assert_eq!(steps[7..], [(0, 0), (0, 0), (0, 0)]);
        assert_eq!(encode(&[0; 20]), [(0, 0); 20]);
    }

    #[test]
    fn generators_133_and_171_octal() {
        // The clause 18 generators, the highest of seven bits at x(t).
        let inputs = some_bits(1_000);
        let steps = encode(&inputs);
        assert_eq!(steps.len(), 1_000);
        for t in 0..inputs.len() {
            let mut window = 0u32;
            for back in 0..7 {
                if t >= back {
                    window |= u32::from(inputs[t - back]) << (6 - back);
                }
            }
            let a = (window & 0o133).count_ones() % 2;
            let b = (window & 0o171).count_ones() % 2;
            assert_eq!((u32::from(steps[t].0), u32::from(steps[t].1)), (a, b));
        }
    }

    #[test]
    fn the_register_holds_the_six_earlier_inputs() {
        let mut encoder = Encoder::at_zero();
        assert_eq!(encoder.earlier, [0; 6]);
        for input in [1, 0, 1, 1, 0, 0] {
            encoder.step(input);
        }
        assert_eq!(encoder.earlier, [0, 0, 1, 1, 0, 1]);
        encoder.step(1);
        assert_eq!(encoder.earlier, [1, 0, 0, 1, 1, 0]);
    }

    #[test]
    fn bit_d_goes_to_encoder_d_mod_nes() {
        let bits = [10, 11, 12, 13, 14, 15, 16];
        assert_eq!(encoder_inputs(&bits, 1, 0), bits);
        assert_eq!(encoder_inputs(&bits, 2, 0), [10, 12, 14, 16]);
        assert_eq!(encoder_inputs(&bits, 2, 1), [11, 13, 15]);
        // EWC 4.3.1: x_i of encoder j is bit NES·i + j.
        for nes in 1..=2u32 {
            for j in 0..nes {
                for (i, x) in encoder_inputs(&bits, nes, j).iter().enumerate() {
                    assert_eq!(*x, bits[nes as usize * i + j as usize]);
                }
            }
        }
    }

    #[test]
    fn encoders_beyond_nes_get_nothing() {
        let nothing: [u8; 0] = [];
        assert_eq!(encoder_inputs(&[1, 1, 1], 1, 1), nothing);
        assert_eq!(encoder_inputs(&[1, 1, 1], 2, 2), nothing);
        assert_eq!(encoder_inputs(&[1, 1, 1], 0, 0), nothing);
        assert_eq!(encoder_inputs(&[1, 1, 1], u32::MAX, u32::MAX), nothing);
        assert_eq!(encoder_inputs(&[1, 1, 1], u32::MAX, 2), [1]);
    }

    #[test]
    fn d3_each_symbol_deals_as_the_frame_does() {
        for width in [20, 40] {
            for mcs in 0..=31 {
                let nes = encoders(mcs);
                let d = data_bits_per_symbol(width, mcs);
                assert_eq!(d % nes, 0, "width {width}, MCS {mcs}");
                let bits = some_bits(3 * d as usize);
                for j in 0..nes {
                    let mut by_symbol = Vec::new();
                    for symbol in bits.chunks(d as usize) {
                        by_symbol.extend(encoder_inputs(symbol, nes, j));
                    }
                    assert_eq!(by_symbol, encoder_inputs(&bits, nes, j));
                }
            }
        }
    }

    #[test]
    fn the_encoders_are_back_at_zero_after_the_tail() {
        let mut busy = 0;
        for width in [20, 40] {
            for mcs in 0..=31 {
                for length in [1, 2, 50, 333] {
                    for seed in [1, 93, 127] {
                        let s = settings(mcs, width, length, seed);
                        let bits = data_bits(&s, &vec![0xA7; length as usize]).unwrap();
                        let nes = encoders(mcs);
                        let tail = (16 + 8 * length) / nes;
                        for j in 0..nes {
                            let inputs = encoder_inputs(&bits, nes, j);
                            let mut encoder = Encoder::at_zero();
                            for x in &inputs[..tail as usize] {
                                encoder.step(*x);
                            }
                            busy += u32::from(encoder != Encoder::at_zero());
                            for x in &inputs[tail as usize..tail as usize + 5] {
                                encoder.step(*x);
                            }
                            // After five of the six the last bit before the
                            // tail is still there.
                            let last = inputs[tail as usize - 1];
                            assert_eq!(encoder.earlier, [0, 0, 0, 0, 0, last]);
                            encoder.step(inputs[tail as usize + 5]);
                            assert_eq!(encoder, Encoder::at_zero());
                        }
                    }
                }
            }
        }
        assert!(busy > 1_000);
    }

    #[test]
    fn bytes_count_by_their_remainder() {
        assert_eq!(
            encode(&[255, 2, 4, 6, 8, 10, 12]),
            encode(&[1, 0, 0, 0, 0, 0, 0])
        );
        let mut odd = Encoder { earlier: [255; 6] };
        let mut one = Encoder { earlier: [1; 6] };
        assert_eq!(odd.step(3), one.step(1));
        assert_eq!(odd, one);
        let mut even = Encoder { earlier: [254; 6] };
        assert_eq!(even.step(2), (0, 0));
        assert_eq!(even, Encoder::at_zero());
    }
}
