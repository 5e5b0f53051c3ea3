//! Document 01, "From payload to points", step 1: the data bits of a frame.
//!
//! Data bits: 16 zeros, payload (low bit first), 6·NES tail, pad zeros to a
//! full symbol. All are scrambled; then the tail is set to zero.

use crate::rates::{data_bits_per_symbol, encoders, symbol_count};
use crate::refusal;
use crate::scrambler::{register, scramble};
use crate::settings::{check, Settings};

/// The bits of the whole frame before scrambling: 16 zeros, payload (low bit
/// first), 6·NES tail, pad zeros to a full symbol.
///
/// The payload is the slice's first `length` bytes. Refusals 1 to 5, then 6 for
/// a shorter slice.
pub fn plain_bits(s: &Settings, payload: &[u8]) -> Result<Vec<u8>, u32> {
    check(s)?;
    let Some(payload) = payload.get(..s.length as usize) else {
        return Err(refusal::SOURCE);
    };

    let mut bits = Vec::new();
    // 16 zeros.
    bits.extend([0; 16]);
    // Payload, low bit first.
    for byte in payload {
        for place in 0..8 {
            bits.push((byte >> place) % 2);
        }
    }
    // 6·NES tail.
    for _ in 0..encoders(s.mcs) {
        bits.extend([0; 6]);
    }
    // Pad zeros to a full symbol.
    let d = data_bits_per_symbol(s.width, s.mcs) as usize;
    while bits.len() % d != 0 {
        bits.push(0);
    }
    Ok(bits)
}

/// The data bits of the whole frame, as the encoders take them: all are
/// scrambled, pad and tail included; then the tail is set to zero.
///
/// The scrambler runs on through the tail, so the pad takes the outputs after
/// those of the tail's places. Refusals as in `plain_bits`.
pub fn data_bits(s: &Settings, payload: &[u8]) -> Result<Vec<u8>, u32> {
    let plain = plain_bits(s, payload)?;
    let mut bits = scramble(s.seed, &plain);
    let tail_start = 16 + 8 * s.length as usize;
    let tail_length = 6 * encoders(s.mcs) as usize;
    for bit in bits.iter_mut().skip(tail_start).take(tail_length) {
        *bit = 0;
    }
    Ok(bits)
}

/// The data bits with numbers `first` to `first` + `count` - 1, as far as the
/// frame has them: the same as in `data_bits`, without those before and after.
///
/// The scrambler is back at its seed after 127 steps, so it is stepped on
/// `first` mod 127 times. Refusals as in `plain_bits`.
pub fn data_bits_from(
    s: &Settings,
    payload: &[u8],
    first: u64,
    count: u64,
) -> Result<Vec<u8>, u32> {
    check(s)?;
    let Some(payload) = payload.get(..s.length as usize) else {
        return Err(refusal::SOURCE);
    };
    let d = u64::from(data_bits_per_symbol(s.width, s.mcs));
    let end = u64::from(symbol_count(s)?) * d;
    let tail = 16 + 8 * u64::from(s.length);
    let pad = tail + 6 * u64::from(encoders(s.mcs));

    let mut register = register(s.seed);
    for _ in 0..first % 127 {
        register.step();
    }
    let mut bits = Vec::new();
    for number in first..end.min(first.saturating_add(count)) {
        let scrambled = plain_bit(payload, number) ^ register.step();
        let in_tail = number >= tail && number < pad;
        bits.push(if in_tail { 0 } else { scrambled });
    }
    Ok(bits)
}

/// One bit before scrambling: bit b of payload byte j is number 16 + 8j + b,
/// low bit first; the 16 before, and the tail and the pad after, are zero.
fn plain_bit(payload: &[u8], number: u64) -> u8 {
    let Some(after_16) = number.checked_sub(16) else {
        return 0;
    };
    let Ok(j) = usize::try_from(after_16 / 8) else {
        return 0;
    };
    match payload.get(j) {
        Some(byte) => (byte >> (after_16 % 8)) % 2,
        None => 0,
    }
}

#[cfg(test)]
mod tests {
    use super::*;
    use crate::samples::{all_wrong, bits, other_format_and_flags, settings};
    use crate::scrambler::scrambler_sequence;

    fn some_bytes(count: u32) -> Vec<u8> {
        let mut state = 3u32;
        let mut bytes = Vec::new();
        for _ in 0..count {
            state = state.wrapping_mul(1_664_525).wrapping_add(1_013_904_223);
            bytes.push((state >> 24) as u8);
        }
        bytes
    }

    /// The Annex G message, 100 bytes.
    fn annex_g() -> Vec<u8> {
        let text = "0402002e006008cd37a60020d6013cf1006008ad3baf0000\
            4a6f792c2062726967687420737061726b206f6620646976696e6974792c0a\
            4461756768746572206f6620456c797369756d2c0a\
            466972652d696e73697265642077652074726561673321b6";
        let mut bytes = Vec::new();
        for place in 0..text.len() / 2 {
            bytes.push(u8::from_str_radix(&text[2 * place..2 * place + 2], 16).unwrap());
        }
        bytes
    }

    #[test]
    fn published_annex_g_coder_inputs() {
        let message = annex_g();
        assert_eq!(message.len(), 100);
        let got = data_bits(&settings(4, 20, 100, 93), &message).unwrap();
        let want = bits("01101100 00011001 10001001 10001111 01101000 00100001");
        assert_eq!(got[..48], want);
    }

    #[test]
    fn one_byte_by_hand() {
        // MCS 0 at 20 MHz, length 1: 16 + 8 + 6 bits and 22 pad bits.
        let s = settings(0, 20, 1, 1);
        let want = "0000000000000000 10001100 000000 0000000000000000000000";
        assert_eq!(plain_bits(&s, &[0x31]), Ok(bits(want)));
        // Low bit first.
        let got = plain_bits(&s, &[0x01]).unwrap();
        assert_eq!(got[16..24], [1, 0, 0, 0, 0, 0, 0, 0]);
        let got = plain_bits(&s, &[0x80]).unwrap();
        assert_eq!(got[16..24], [0, 0, 0, 0, 0, 0, 0, 1]);
    }

    #[test]
    fn d1_tail_zero_and_pad_scrambled_by_hand() {
        // Seed 127 with a payload of zeros, so that the sequence itself is
        // seen: 00001110 11110010 11001001 00000010 001001 10 00101110 1011 ..
        // The tail at 32 to 37 falls on 001001; the pad goes on after it.
        let s = settings(0, 20, 2, 127);
        let want = "00001110 11110010  11001001 00000010  000000  10 00101110 1011";
        assert_eq!(data_bits(&s, &[0, 0]), Ok(bits(want)));
    }

    #[test]
    fn d2_two_encoders_have_a_tail_of_twelve_by_hand() {
        // MCS 16 at 20 MHz: D = 78, the tail at 24 to 35 falls on
        // 00000010 0010, then 42 pad bits.
        let s = settings(16, 20, 1, 127);
        let want = "00001110 11110010  11001001  000000000000 \
             0110 00101110 10110110 00001100 11010100 111001";
        assert_eq!(data_bits(&s, &[0]), Ok(bits(want)));
    }

    #[test]
    fn tail_zero_and_all_else_scrambled_everywhere() {
        let payload = some_bytes(700);
        let mut cleared = [0u32; 3];
        for width in [20, 40] {
            for mcs in 0..=31 {
                for length in [1, 2, 3, 29, 100, 699] {
                    for seed in [1, 64, 93, 127] {
                        let s = settings(mcs, width, length, seed);
                        let got = data_bits(&s, &payload).unwrap();
                        let sequence = scrambler_sequence(seed, got.len() as u16);
                        let tail = 16 + 8 * length as usize;
                        let pad = tail + if mcs < 16 { 6 } else { 12 };
                        for (d, bit) in got.iter().enumerate() {
                            let want = if d < 16 {
                                sequence[d]
                            } else if d < tail {
                                sequence[d] ^ (payload[(d - 16) / 8] >> ((d - 16) % 8) & 1)
                            } else if d < pad {
                                0
                            } else {
                                sequence[d]
                            };
                            assert_eq!(*bit, want, "bit {d} of {s:?}");
                            // The tail's places did hold ones before.
                            if d >= tail && d < pad && sequence[d] == 1 {
                                cleared[encoders(mcs) as usize] += 1;
                            }
                        }
                    }
                }
            }
        }
        assert!(cleared[1] > 1_000 && cleared[2] > 1_000);
    }

    #[test]
    fn tail_of_each_encoder_as_ewc_4_3_1() {
        // The replaced bits: x_i of encoder j for i from (8·length + 16)/NES
        // to that plus 5. A payload of ones and every seed, so that bits
        // before and after are seen too.
        for mcs in [0, 7, 8, 15, 16, 23, 24, 31] {
            let nes = encoders(mcs) as usize;
            for length in [1, 2, 5, 8] {
                let first = (8 * length as usize + 16) / nes;
                assert_eq!(first * nes, 8 * length as usize + 16);
                let mut always_zero = None;
                for seed in 1..=127 {
                    let s = settings(mcs, 40, length, seed);
                    let got = data_bits(&s, &vec![0xFF; length as usize]).unwrap();
                    let zeros: Vec<bool> = got.iter().map(|bit| *bit == 0).collect();
                    always_zero = match always_zero {
                        None => Some(zeros),
                        Some(before) => {
                            let both: Vec<bool> =
                                zeros.iter().zip(&before).map(|(a, b)| *a && *b).collect();
                            Some(both)
                        }
                    };
                }
                for (d, zero) in always_zero.unwrap().iter().enumerate() {
                    let i = d / nes;
                    assert_eq!(*zero, i >= first && i <= first + 5, "bit {d}, MCS {mcs}");
                }
            }
        }
    }

    #[test]
    fn both_fill_the_symbols_of_the_frame() {
        let payload = some_bytes(65_535);
        for width in [20, 40] {
            for mcs in 0..=31 {
                let d = data_bits_per_symbol(width, mcs);
                for length in [1, 7, 8, 100, 4_095, 65_535] {
                    let s = settings(mcs, width, length, 5);
                    let count = symbol_count(&s).unwrap();
                    let plain = plain_bits(&s, &payload).unwrap();
                    assert_eq!(plain.len(), (count * d) as usize);
                    if length <= 100 {
                        let scrambled = data_bits(&s, &payload).unwrap();
                        assert_eq!(scrambled.len(), plain.len());
                    }
                }
            }
        }
    }

    #[test]
    fn no_pad_where_the_symbols_are_just_filled() {
        // P2: 78/26 exactly, so the last six bits are the tail.
        let s = settings(0, 20, 7, 127);
        let got = data_bits(&s, &[0; 7]).unwrap();
        assert_eq!(got.len(), 78);
        assert_eq!(got[72..], [0; 6]);
        // Outputs 72 to 77 of the seed are not all zero.
        assert_eq!(scrambler_sequence(127, 78)[72..], bits("111001"));
    }

    #[test]
    fn bits_past_one_period_of_the_longest_frame() {
        // Data bit d takes output d mod 127, up to the end of the frame.
        let s = settings(0, 20, 65_535, 93);
        let got = data_bits(&s, &[0; 65_535]).unwrap();
        let period = scrambler_sequence(93, 127);
        assert_eq!(got.len(), 20_166 * 26);
        for (d, bit) in got.iter().enumerate() {
            let tail = (524_296..524_302).contains(&d);
            let want = if tail { 0 } else { period[d % 127] };
            assert_eq!(*bit, want, "bit {d}");
        }
    }

    #[test]
    fn bit_b_of_byte_j_is_data_bit_16_8j_b() {
        let s = settings(13, 40, 50, 1);
        let base = plain_bits(&s, &[0; 50]).unwrap();
        assert!(base.iter().all(|bit| *bit == 0));
        for j in 0..50 {
            for b in 0..8 {
                let mut payload = [0; 50];
                payload[j] = 1 << b;
                let got = plain_bits(&s, &payload).unwrap();
                let ones: Vec<usize> = (0..got.len()).filter(|d| got[*d] == 1).collect();
                assert_eq!(ones, [16 + 8 * j + b]);
            }
        }
    }

    #[test]
    fn only_the_first_length_bytes_count() {
        let s = settings(3, 20, 4, 9);
        let short = data_bits(&s, &[1, 2, 3, 4]);
        assert!(short.is_ok());
        assert_eq!(data_bits(&s, &[1, 2, 3, 4, 255]), short);
        assert_eq!(data_bits(&s, &[1, 2, 3, 4, 0, 7, 7]), short);
        assert_ne!(data_bits(&s, &[1, 2, 3, 5]), short);
    }

    #[test]
    fn format_and_flags_play_no_part() {
        let s = settings(17, 40, 3, 9);
        let other = other_format_and_flags(&s);
        assert!(data_bits(&s, &[1, 2, 3]).is_ok());
        assert_eq!(data_bits(&s, &[1, 2, 3]), data_bits(&other, &[1, 2, 3]));
    }

    #[test]
    fn a_part_is_the_part_of_the_whole() {
        let payload = some_bytes(200);
        for width in [20, 40] {
            for mcs in 0..=31 {
                for (length, seed) in [(1, 127), (2, 1), (29, 93), (200, 64)] {
                    let s = settings(mcs, width, length, seed);
                    let whole = data_bits(&s, &payload).unwrap();
                    for first in (0..whole.len() + 3).step_by(5) {
                        for count in [0, 1, 6, 12, 130, 1_000] {
                            let got = data_bits_from(&s, &payload, first as u64, count as u64);
                            let from = whole.iter().skip(first).take(count);
                            assert_eq!(got, Ok(from.copied().collect()));
                        }
                    }
                    let all = data_bits_from(&s, &payload, 0, u64::MAX);
                    assert_eq!(all, Ok(whole));
                }
            }
        }
    }

    #[test]
    fn parts_of_the_longest_frame() {
        let payload = some_bytes(65_535);
        let s = settings(0, 20, 65_535, 93);
        let whole = data_bits(&s, &payload).unwrap();
        for first in [0, 1, 16, 127, 262_144, 524_290, 524_300, 524_315] {
            let got = data_bits_from(&s, &payload, first, 1_000).unwrap();
            let to = whole.len().min(first as usize + 1_000);
            assert_eq!(got, whole[first as usize..to]);
        }
        assert_eq!(data_bits_from(&s, &payload, 0, u64::MAX), Ok(whole));
        for first in [524_316, 1 << 32, u64::MAX] {
            assert_eq!(data_bits_from(&s, &payload, first, u64::MAX), Ok(vec![]));
        }
    }

    #[test]
    fn bits_past_the_payload_are_zero() {
        assert_eq!(plain_bit(&[0xFF], 15), 0);
        assert_eq!(plain_bit(&[0xFF], 16), 1);
        assert_eq!(plain_bit(&[0xFF], 23), 1);
        assert_eq!(plain_bit(&[0xFF], 24), 0);
        assert_eq!(plain_bit(&[0xFF], u64::MAX), 0);
        assert_eq!(plain_bit(&[], 16), 0);
    }

    #[test]
    fn refusals_1_to_6_in_order() {
        let mut s = all_wrong();
        let both = |s: &Settings, payload: &[u8]| {
            let refused = data_bits(s, payload).map(|_| ());
            assert_eq!(plain_bits(s, payload).map(|_| ()), refused);
            let part = data_bits_from(s, payload, u64::MAX, u64::MAX);
            assert_eq!(part.map(|_| ()), refused);
            refused
        };
        assert_eq!(both(&s, &[]), Err(1));
        s.width = 40;
        assert_eq!(both(&s, &[]), Err(2));
        s.mcs = 31;
        assert_eq!(both(&s, &[]), Err(3));
        s.format = 1;
        assert_eq!(both(&s, &[]), Err(4));
        s.length = 3;
        assert_eq!(both(&s, &[]), Err(5));
        s.seed = 127;
        assert_eq!(both(&s, &[]), Err(6));
        assert_eq!(both(&s, &[0; 2]), Err(6));
        assert_eq!(both(&s, &[0; 3]), Ok(()));
        assert_eq!(both(&s, &[0; 4]), Ok(()));
    }
}
