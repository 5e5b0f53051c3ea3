//! Document 01, "Signal bits": HT-SIG written and read.
//!
//! 48 bits in this order, low bit of each number first: MCS 7, width 1,
//! length 16; then smoothing, not sounding, reserved 1, aggregation, STBC 2,
//! coding 1, short guard 1, extension streams 2, CRC 8, tail 6.

use crate::crc::crc8;
use crate::refusal;
use crate::settings::{check, Settings};

/// What the signal read returns.
#[derive(Clone, Copy, Debug, PartialEq, Eq)]
pub struct SigFields {
    pub width: u32,
    pub mcs: u32,
    pub length: u32,
    pub smoothing: bool,
    pub not_sounding: bool,
    pub aggregation: bool,
    pub short_guard: bool,
}

/// Writes the six bytes of HT-SIG at the start of `out`; the rest stays.
///
/// Refusals 1 to 5, then 8 for a slice below six bytes; a refusal writes nothing.
pub fn sig_write(s: &Settings, out: &mut [u8]) -> Result<(), u32> {
    check(s)?;
    if out.len() < 6 {
        return Err(refusal::ROOM);
    }
    for (place, byte) in out.iter_mut().zip(pack(&sig_bits(s))) {
        *place = byte;
    }
    Ok(())
}

/// Reads HT-SIG back: 6 for a slice that is not six bytes, 13 for a wrong CRC,
/// 14 for other bits that are not as `sig_write` writes them.
pub fn sig_read(sig: &[u8]) -> Result<SigFields, u32> {
    if sig.len() != 6 {
        return Err(refusal::SOURCE);
    }
    let bits = unpack(sig);

    // CRC over the first 34 bits.
    let (covered, after) = bits.split_at(34);
    let (crc, _) = after.split_at(8);
    if crc != crc8(covered) {
        return Err(refusal::SIGCRC);
    }

    let mut rest = bits.into_iter();
    let mcs = take_number(&mut rest, 7);
    let wide = take_flag(&mut rest);
    let length = take_number(&mut rest, 16);
    let smoothing = take_flag(&mut rest);
    let not_sounding = take_flag(&mut rest);
    let reserved = take_number(&mut rest, 1);
    let aggregation = take_flag(&mut rest);
    let stbc = take_number(&mut rest, 2);
    let coding = take_number(&mut rest, 1);
    let short_guard = take_flag(&mut rest);
    let extension_streams = take_number(&mut rest, 2);
    let _crc = take_number(&mut rest, 8);
    let tail = take_number(&mut rest, 6);

    if mcs > 31
        || length == 0
        || reserved != 1
        || stbc != 0
        || coding != 0
        || extension_streams != 0
        || tail != 0
    {
        return Err(refusal::SIGFORM);
    }
    Ok(SigFields {
        width: if wide { 40 } else { 20 },
        mcs,
        length,
        smoothing,
        not_sounding,
        aggregation,
        short_guard,
    })
}

/// The 48 bits in order, one a byte.
fn sig_bits(s: &Settings) -> Vec<u8> {
    let mut bits = Vec::new();
    put_number(&mut bits, s.mcs, 7);
    put_flag(&mut bits, s.width == 40);
    put_number(&mut bits, s.length, 16);
    put_flag(&mut bits, s.smoothing);
    put_flag(&mut bits, s.not_sounding);
    put_number(&mut bits, 1, 1); // reserved
    put_flag(&mut bits, s.aggregation);
    put_number(&mut bits, 0, 2); // STBC
    put_number(&mut bits, 0, 1); // coding
    put_flag(&mut bits, s.short_guard);
    put_number(&mut bits, 0, 2); // extension streams
    let crc = crc8(&bits);
    bits.extend(crc);
    put_number(&mut bits, 0, 6); // tail
    bits
}

/// Appends the low `count` bits of `number`, low bit first.
fn put_number(bits: &mut Vec<u8>, number: u32, count: u32) {
    let mut rest = number;
    for _ in 0..count {
        bits.push(if rest % 2 == 1 { 1 } else { 0 });
        rest /= 2;
    }
}

fn put_flag(bits: &mut Vec<u8>, flag: bool) {
    bits.push(if flag { 1 } else { 0 });
}

/// Takes a number of at most 16 bits, low bit first.
fn take_number(bits: &mut impl Iterator<Item = u8>, count: usize) -> u32 {
    let mut number = 0;
    let mut weight = 1;
    for bit in bits.take(count) {
        number += weight * u32::from(bit);
        weight *= 2;
    }
    number
}

fn take_flag(bits: &mut impl Iterator<Item = u8>) -> bool {
    bits.next() == Some(1)
}

/// Bits into bytes, low bit of each byte first.
fn pack(bits: &[u8]) -> Vec<u8> {
    let mut bytes = Vec::new();
    for eight in bits.chunks(8) {
        let mut byte = 0;
        for (place, bit) in eight.iter().enumerate() {
            byte |= bit << place;
        }
        bytes.push(byte);
    }
    bytes
}

/// Bytes into bits, low bit of each byte first.
fn unpack(bytes: &[u8]) -> Vec<u8> {
    let mut bits = Vec::new();
    for byte in bytes {
        for place in 0..8 {
            bits.push((byte >> place) % 2);
        }
    }
    bits
}

#[cfg(test)]
mod tests {
    use super::*;

    const GOOD: Settings = Settings {
        width: 40,
        mcs: 15,
        format: 0,
        length: 100,
        seed: 1,
        smoothing: true,
        not_sounding: true,
        aggregation: false,
        short_guard: false,
    };

    fn written(s: &Settings) -> [u8; 6] {
        let mut out = [0; 6];
        assert_eq!(sig_write(s, &mut out), Ok(()));
        out
    }

    fn fields(s: &Settings) -> SigFields {
        SigFields {
            width: s.width,
            mcs: s.mcs,
            length: s.length,
            smoothing: s.smoothing,
            not_sounding: s.not_sounding,
            aggregation: s.aggregation,
            short_guard: s.short_guard,
        }
    }

    /// Six bytes with the first 34 bits and the tail given and the CRC right.
    fn with_right_crc(first34: &[u8], tail: &[u8]) -> Vec<u8> {
        assert_eq!((first34.len(), tail.len()), (34, 6));
        let mut bits = first34.to_vec();
        bits.extend(crc8(first34));
        bits.extend(tail);
        pack(&bits)
    }

    #[test]
    fn printed_signal_bytes() {
        assert_eq!(written(&GOOD), [0x8F, 0x64, 0x00, 0x07, 0x54, 0x00]);
        let s = Settings {
            width: 20,
            mcs: 0,
            length: 1,
            ..GOOD
        };
        assert_eq!(written(&s), [0x00, 0x01, 0x00, 0x07, 0x50, 0x00]);
    }

    #[test]
    fn published_bits_15_40_100() {
        let text = "1111000100100110000000001110000000 10101000 000000";
        let want: Vec<u8> = text
            .bytes()
            .filter(|c| *c != b' ')
            .map(|c| c - b'0')
            .collect();
        assert_eq!(sig_bits(&GOOD), want);
    }

    #[test]
    fn each_field_has_its_own_places() {
        let base = Settings {
            width: 20,
            mcs: 0,
            format: 0,
            length: 2,
            seed: 1,
            smoothing: false,
            not_sounding: false,
            aggregation: false,
            short_guard: false,
        };
        let ones = |s: &Settings| -> Vec<usize> {
            let bits = sig_bits(s);
            assert_eq!(bits.len(), 48);
            (0..34).filter(|i| bits[*i] == 1).collect()
        };
        // Length 2 is bit 9, reserved is bit 26.
        assert_eq!(ones(&base), [9, 26]);
        for b in 0..5 {
            let s = Settings {
                mcs: 1 << b,
                ..base
            };
            assert_eq!(ones(&s), [b, 9, 26]);
        }
        assert_eq!(ones(&Settings { width: 40, ..base }), [7, 9, 26]);
        for b in 0..16 {
            let length = 1 << b;
            assert_eq!(ones(&Settings { length, ..base }), [8 + b, 26]);
        }
        let smoothing = true;
        assert_eq!(ones(&Settings { smoothing, ..base }), [9, 24, 26]);
        let not_sounding = true;
        let s = Settings {
            not_sounding,
            ..base
        };
        assert_eq!(ones(&s), [9, 25, 26]);
        let aggregation = true;
        let s = Settings {
            aggregation,
            ..base
        };
        assert_eq!(ones(&s), [9, 26, 27]);
        let short_guard = true;
        let s = Settings {
            short_guard,
            ..base
        };
        assert_eq!(ones(&s), [9, 26, 31]);
    }

    #[test]
    fn format_and_seed_are_tested_but_not_sent() {
        let s = Settings {
            format: 1,
            seed: 127,
            ..GOOD
        };
        assert_eq!(written(&s), written(&GOOD));
        let mut out = [9; 6];
        let s = Settings { format: 2, ..GOOD };
        assert_eq!(sig_write(&s, &mut out), Err(3));
        let s = Settings { seed: 0, ..GOOD };
        assert_eq!(sig_write(&s, &mut out), Err(5));
        assert_eq!(out, [9; 6]);
    }

    #[test]
    fn what_was_written_is_read_back() {
        for width in [20, 40] {
            for mcs in 0..=31 {
                for length in [1, 2, 255, 256, 4_095, 32_768, 65_535] {
                    for flags in 0..16 {
                        let s = Settings {
                            width,
                            mcs,
                            format: 1,
                            length,
                            seed: 93,
                            smoothing: flags & 1 != 0,
                            not_sounding: flags & 2 != 0,
                            aggregation: flags & 4 != 0,
                            short_guard: flags & 8 != 0,
                        };
                        assert_eq!(sig_read(&written(&s)), Ok(fields(&s)));
                    }
                }
            }
        }
    }

    #[test]
    fn every_length_is_read_back() {
        for length in 1..=65_535 {
            let s = Settings { length, ..GOOD };
            assert_eq!(sig_read(&written(&s)), Ok(fields(&s)));
        }
    }

    #[test]
    fn write_one_byte_too_few_is_refusal_8() {
        for room in 0..6 {
            let mut out = vec![0xA5; room];
            assert_eq!(sig_write(&GOOD, &mut out), Err(8));
            assert_eq!(out, vec![0xA5; room]);
        }
    }

    #[test]
    fn write_a_longer_slice_is_no_refusal_and_its_rest_stays() {
        let mut out = [0xA5; 9];
        assert_eq!(sig_write(&GOOD, &mut out), Ok(()));
        assert_eq!(out[..6], written(&GOOD));
        assert_eq!(out[6..], [0xA5; 3]);
    }

    #[test]
    fn write_refusals_come_in_order() {
        // All is wrong at first; one fault after the other is mended.
        let mut s = Settings {
            width: 276,
            mcs: 256,
            format: 256,
            length: 65_537,
            seed: 129,
            ..GOOD
        };
        let mut out = [0xA5; 5];
        assert_eq!(sig_write(&s, &mut out), Err(1));
        s.width = 20;
        assert_eq!(sig_write(&s, &mut out), Err(2));
        s.mcs = 31;
        assert_eq!(sig_write(&s, &mut out), Err(3));
        s.format = 1;
        assert_eq!(sig_write(&s, &mut out), Err(4));
        s.length = 65_535;
        assert_eq!(sig_write(&s, &mut out), Err(5));
        s.seed = 127;
        assert_eq!(sig_write(&s, &mut out), Err(8));
        assert_eq!(out, [0xA5; 5]);
        let mut out = [0xA5; 6];
        assert_eq!(sig_write(&s, &mut out), Ok(()));
    }

    #[test]
    fn read_7_bytes_is_refusal_6() {
        let mut seven = written(&GOOD).to_vec();
        seven.push(0);
        assert_eq!(sig_read(&seven), Err(6));
    }

    #[test]
    fn read_any_slice_but_six_bytes_is_refusal_6() {
        for count in (0..100).filter(|c| *c != 6) {
            assert_eq!(sig_read(&vec![0xFF; count]), Err(6));
        }
    }

    #[test]
    fn read_one_wrong_bit_is_13_or_in_the_tail_14() {
        let good = unpack(&written(&GOOD));
        for place in 0..48 {
            let mut bits = good.clone();
            bits[place] ^= 1;
            let want = if place < 42 { Err(13) } else { Err(14) };
            assert_eq!(sig_read(&pack(&bits)), want, "bit {place}");
        }
    }

    #[test]
    fn read_wrong_crc_goes_before_wrong_form() {
        let mut bits = unpack(&written(&GOOD));
        bits[26] = 0; // reserved
        bits[47] = 1; // tail
        assert_eq!(sig_read(&pack(&bits)), Err(13));
        assert_eq!(sig_read(&with_right_crc(&bits[..34], &[0; 6])), Err(14));
    }

    #[test]
    fn read_wrong_form_is_refusal_14() {
        let good = &unpack(&written(&GOOD))[..34];
        assert_eq!(sig_read(&with_right_crc(good, &[0; 6])), Ok(fields(&GOOD)));
        // MCS 47 and 79, reserved 0, STBC 1 and 2, coding 1, extension streams 1 and 2.
        for place in [5, 6, 26, 28, 29, 30, 32, 33] {
            let mut bits = good.to_vec();
            bits[place] ^= 1;
            let sig = with_right_crc(&bits, &[0; 6]);
            assert_eq!(sig_read(&sig), Err(14), "bit {place}");
        }
        for place in 0..6 {
            let mut tail = [0; 6];
            tail[place] = 1;
            assert_eq!(sig_read(&with_right_crc(good, &tail)), Err(14));
        }
    }

    #[test]
    fn read_mcs_over_31_is_refusal_14() {
        for mcs in 0..128 {
            let s = Settings { mcs, ..GOOD };
            let want = if mcs > 31 { Err(14) } else { Ok(fields(&s)) };
            assert_eq!(sig_read(&pack(&sig_bits(&s))), want);
        }
    }

    #[test]
    fn read_length_0_is_refusal_14() {
        let s = Settings { length: 0, ..GOOD };
        assert_eq!(sig_read(&pack(&sig_bits(&s))), Err(14));
    }

    #[test]
    fn read_accepts_exactly_what_is_written() {
        // "Other bits not as this build writes them": with a right CRC, bytes
        // are read exactly when writing the fields read gives them again.
        let mut state = 7u32;
        let mut accepted = 0;
        for _ in 0..200_000 {
            let mut first34 = Vec::new();
            for place in 0..34 {
                state = state.wrapping_mul(1_664_525).wrapping_add(1_013_904_223);
                let chance = state >> 30;
                // The bits with one right value have it in three of four.
                first34.push(match place {
                    5 | 6 | 28 | 29 | 30 | 32 | 33 => u8::from(chance == 0),
                    26 => u8::from(chance != 0),
                    _ => (chance >> 1) as u8,
                });
            }
            let sig = with_right_crc(&first34, &[0; 6]);
            let mut again = [0; 6];
            let mut numbers = first34.iter().copied();
            let s = Settings {
                mcs: take_number(&mut numbers, 7),
                width: if take_flag(&mut numbers) { 40 } else { 20 },
                length: take_number(&mut numbers, 16),
                smoothing: first34[24] == 1,
                not_sounding: first34[25] == 1,
                aggregation: first34[27] == 1,
                short_guard: first34[31] == 1,
                format: 0,
                seed: 1,
            };
            let same = sig_write(&s, &mut again).is_ok() && again[..] == sig[..];
            let want = if same { Ok(fields(&s)) } else { Err(14) };
            assert_eq!(sig_read(&sig), want);
            accepted += u32::from(same);
        }
        assert!(accepted > 1_000);
    }
}
