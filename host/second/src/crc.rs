//! EWC 3.6.3: the check bits of HT-SIG, by the figure's register.

/// The check bits of `bits` in order of transmission, the D^7 stage first.
///
/// Document 01: register all ones, G = D^8 + D^2 + D + 1, result complemented.
/// EWC's formula names c7 the constant term; document 01 lets the figure
/// decide, which shifts out the D^7 stage first.
///
/// One bit stands in each byte, read by its remainder modulo 2.
pub fn crc8(bits: &[u8]) -> [u8; 8] {
    // stage[k] is the stage of D^k; reset to all ones.
    let mut stage = [1u8; 8];
    for bit in bits {
        // The XOR at the input: the bit coming in and the stage falling out.
        let fed_back = (bit % 2) ^ stage[7];
        // Every stage takes its lower neighbour, the highest first, so that
        // each neighbour is still the old one.
        stage[7] = stage[6];
        stage[6] = stage[5];
        stage[5] = stage[4];
        stage[4] = stage[3];
        stage[3] = stage[2];
        stage[2] = stage[1] ^ fed_back; // the term D^2 of G
        stage[1] = stage[0] ^ fed_back; // the term D of G
        stage[0] = fed_back; // the term 1 of G
    }
    // The bits are shifted out through an inverter, the D^7 stage first.
    let mut sent = [0; 8];
    for (place, k) in (0..8).rev().enumerate() {
        sent[place] = 1 ^ stage[k];
    }
    sent
}

#[cfg(test)]
mod tests {
    use super::*;
    use crate::samples::bits;

    /// The formula of EWC 3.6.3 by long division: M(D)·D^8 modulo G(D). Ones in
    /// the register at the start are the first eight bits turned over.
    fn by_long_division(message: &[u8]) -> Vec<u8> {
        let mut dividend = message.to_vec();
        dividend.extend([0; 8]);
        for bit in dividend.iter_mut().take(8) {
            *bit ^= 1;
        }
        // Coefficients of D^8, D^7, .., D^0.
        let g = [1, 0, 0, 0, 0, 0, 1, 1, 1];
        for place in 0..message.len() {
            if dividend[place] == 1 {
                for (term, coefficient) in g.iter().enumerate() {
                    dividend[place + term] ^= coefficient;
                }
            }
        }
        // Coefficient of D^7 first, complemented.
        dividend[message.len()..].iter().map(|b| 1 ^ b).collect()
    }

    #[test]
    fn published_example_15_40_100() {
        let message = bits("1111000 1 0010011000000000 1 1 1 0 00 0 0 00");
        assert_eq!(message.len(), 34);
        assert_eq!(crc8(&message), [1, 0, 1, 0, 1, 0, 0, 0]);
    }

    #[test]
    fn the_constant_term_is_not_sent_first() {
        let message = bits("1111000 1 0010011000000000 1 1 1 0 00 0 0 00");
        let mut turned = crc8(&message);
        turned.reverse();
        assert_ne!(turned, [1, 0, 1, 0, 1, 0, 0, 0]);
    }

    #[test]
    fn no_bits_leave_the_ones_which_go_out_as_zeros() {
        assert_eq!(crc8(&[]), [0; 8]);
    }

    #[test]
    fn one_bit_by_hand() {
        // A 1 meets the 1 falling out: nothing is fed back, a 0 moves in at D^0.
        assert_eq!(crc8(&[1]), [0, 0, 0, 0, 0, 0, 0, 1]);
        // A 0 feeds the 1 back: D^0 is 1, D^1 and D^2 are 1 xor 1.
        assert_eq!(crc8(&[0]), [0, 0, 0, 0, 0, 1, 1, 0]);
    }

    #[test]
    fn the_register_agrees_with_long_division() {
        let mut state = 1u32;
        for length in 0..200 {
            let mut message = Vec::new();
            for _ in 0..length {
                state = state.wrapping_mul(1_664_525).wrapping_add(1_013_904_223);
                message.push((state >> 31) as u8);
            }
            assert_eq!(crc8(&message).to_vec(), by_long_division(&message));
        }
    }

    #[test]
    fn a_byte_counts_by_its_remainder() {
        assert_eq!(crc8(&[2, 255, 254, 3]), crc8(&[0, 1, 0, 1]));
    }
}
