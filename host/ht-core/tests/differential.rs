//! The core against the independent second program.

mod common;

use common::{numbered, second_settings, Draw, GOOD};
use ht_core::{raw::sig_write, sig_read, symbol_count, Settings, SigFields};

/// Compares count and signal write, with three slices, two of them longer and shorter than needed.
fn compare(s: Settings) {
    let other = second_settings(s);
    assert_eq!(
        numbered(symbol_count(s)),
        second::symbol_count(&other),
        "count of {s:?}"
    );
    for room in [0, 5, 6, 7, 16] {
        let mut ours = [0x5A; 16];
        let mut theirs = [0x5A; 16];
        let got = numbered(sig_write(s, &mut ours[..room]));
        let want = second::sig_write(&other, &mut theirs[..room]);
        assert_eq!(got, want, "write of {s:?} into {room}");
        assert_eq!(ours, theirs, "bytes of {s:?} in {room}");
    }
}

/// What the core reads, in the second program's form.
fn fields(f: SigFields) -> second::SigFields {
    second::SigFields {
        width: f.width.mhz(),
        mcs: f.mcs,
        length: f.length,
        smoothing: f.smoothing,
        not_sounding: f.not_sounding,
        aggregation: f.aggregation,
        short_guard: f.short_guard,
    }
}

fn compare_read(sig: &[u8]) {
    assert_eq!(
        numbered(sig_read(sig)).map(fields),
        second::sig_read(sig),
        "read of {sig:02X?}"
    );
}

/// Lengths at the ends, and for every data bit count those that fill the last symbol exactly and one more.
fn edge_lengths(width: u32, mcs: u32) -> Vec<u32> {
    let mut lengths = vec![
        0,
        1,
        2,
        3,
        7,
        8,
        100,
        65_534,
        65_535,
        65_536,
        65_537,
        u32::MAX,
    ];
    let per_symbol = second::data_bits_per_symbol(width, mcs);
    let tail = 6 * second::encoders(mcs);
    for symbols in [1, 2, 3, 10, 100] {
        if let Some(bits) = (symbols * per_symbol).checked_sub(16 + tail) {
            lengths.extend([bits / 8, bits / 8 + 1]);
        }
    }
    lengths
}

#[test]
fn every_mcs_width_format_and_edge_length() {
    for width in [20u32, 40] {
        for mcs in 0..32 {
            for format in 0..2u32 {
                for length in edge_lengths(width, mcs) {
                    compare(GOOD.width(width).mcs(mcs).format(format).length(length));
                }
            }
        }
    }
}

#[test]
fn every_combination_of_flags() {
    for mask in 0..16u32 {
        for on in [1, 2, 0x8000_0000, u32::MAX] {
            for (width, mcs) in [(20u32, 0), (40, 31), (40, 7)] {
                let flag = |n: u32| if mask >> n & 1 == 1 { on } else { 0 };
                compare(
                    GOOD.width(width)
                        .mcs(mcs)
                        .length(1500)
                        .smoothing(flag(0))
                        .not_sounding(flag(1))
                        .aggregation(flag(2))
                        .short_guard(flag(3)),
                );
            }
        }
    }
}

#[test]
fn nothing_wraps() {
    for wrap in [1u32 << 8, 1 << 16, 1 << 24, 1 << 31] {
        for s in [
            GOOD.width(20 + wrap),
            GOOD.mcs(wrap),
            GOOD.format(wrap),
            GOOD.length(1 + wrap.max(1 << 16)),
            GOOD.seed(1 + wrap),
        ] {
            assert!(symbol_count(s).is_err(), "{s:?}");
            compare(s);
        }
    }
}

#[test]
fn refusals_come_in_order() {
    let bad = [
        (1, GOOD.width(21u32)),
        (2, GOOD.mcs(32)),
        (3, GOOD.format(2u32)),
        (4, GOOD.length(0)),
        (5, GOOD.seed(0)),
    ];
    for mask in 1..32u32 {
        let mut s = GOOD;
        let mut first = 0;
        for (n, b) in bad.iter().rev() {
            if mask >> (n - 1) & 1 == 1 {
                first = *n;
                match n {
                    1 => s.width = b.width,
                    2 => s.mcs = b.mcs,
                    3 => s.format = b.format,
                    4 => s.length = b.length,
                    _ => s.seed = b.seed,
                }
            }
        }
        assert_eq!(numbered(symbol_count(s)), Err(first));
        assert_eq!(numbered(sig_write(s, &mut [])), Err(first));
        compare(s);
    }
    assert_eq!(numbered(sig_write(GOOD, &mut [])), Err(8));
}

#[test]
fn random_settings() {
    let mut draw = Draw::new(1);
    let odd = [
        0,
        1,
        2,
        19,
        20,
        21,
        31,
        32,
        39,
        40,
        41,
        127,
        128,
        255,
        276,
        65_535,
        65_536,
        u32::MAX,
    ];
    for _ in 0..100_000 {
        let mut s = GOOD
            .width(draw.of(&[20u32, 40]))
            .mcs(draw.below(32) as u32)
            .format(draw.below(2) as u32)
            .length(1 + draw.below(65_535) as u32)
            .seed(1 + draw.below(127) as u32)
            .smoothing(draw.below(2) as u32)
            .not_sounding(draw.below(2) as u32)
            .aggregation(draw.below(2) as u32)
            .short_guard(draw.below(2) as u32);
        if draw.below(4) == 0 {
            let number = draw.of(&odd);
            match draw.below(5) {
                0 => s.width = number,
                1 => s.mcs = number,
                2 => s.format = number,
                3 => s.length = number,
                _ => s.seed = number,
            }
        }
        compare(s);
    }
}

/// Signal bytes with every one and every two of their 48 bits turned over.
#[test]
fn damaged_signal_bytes() {
    let mut draw = Draw::new(2);
    for _ in 0..60 {
        let s = GOOD
            .width(draw.of(&[20u32, 40]))
            .mcs(draw.below(32) as u32)
            .length(1 + draw.below(65_535) as u32)
            .aggregation(draw.below(2) as u32)
            .short_guard(draw.below(2) as u32);
        let mut sig = [0; 6];
        sig_write(s, &mut sig).unwrap();
        compare_read(&sig);
        for a in 0..48 {
            for b in a..48 {
                let mut damaged = sig;
                damaged[a / 8] ^= 1 << (a % 8);
                if a != b {
                    damaged[b / 8] ^= 1 << (b % 8);
                }
                compare_read(&damaged);
            }
        }
    }
}

/// A bit pattern whose check bits are right, so that only its form is judged.
fn with_right_crc(mut sig: [u8; 6]) -> [u8; 6] {
    let bits: Vec<u8> = (0..34).map(|n| sig[n / 8] >> (n % 8) & 1).collect();
    for (n, bit) in second::crc8(&bits).into_iter().enumerate() {
        let place = 34 + n;
        sig[place / 8] = sig[place / 8] & !(1 << (place % 8)) | bit << (place % 8);
    }
    sig
}

#[test]
fn any_bits_under_a_right_crc() {
    let mut draw = Draw::new(3);
    let mut accepted = 0;
    for turn in 0..200_000u32 {
        let mut sig = draw.next().to_le_bytes();
        if turn % 2 == 0 {
            // Near the form that is written: the fixed bits right but for one or none of them.
            sig[0] &= 0x9F;
            sig[3] = sig[3] & 0x8B | 0x04;
            sig[4] &= 0xFC;
            sig[5] &= 0x03;
            if draw.below(2) == 0 {
                let place = draw.of(&[5, 6, 26, 28, 29, 30, 32, 33, 42, 43, 44, 45, 46, 47]);
                sig[place / 8] ^= 1 << (place % 8);
            }
        }
        let sig = with_right_crc(sig[..6].try_into().unwrap());
        compare_read(&sig);
        accepted += u32::from(sig_read(&sig).is_ok());
    }
    assert!(accepted > 10_000, "only {accepted} were accepted");
}

#[test]
fn any_bytes_of_any_length() {
    let mut draw = Draw::new(4);
    for _ in 0..100_000 {
        let bytes: Vec<u8> = (0..draw.below(9)).map(|_| draw.next() as u8).collect();
        compare_read(&bytes);
    }
    assert_eq!(numbered(sig_read(&[])), Err(6));
}

/// A slice is accepted exactly when writing what was read gives it back.
#[test]
fn read_is_the_inverse_of_write() {
    for width in [20u32, 40] {
        for mcs in 0..32 {
            for length in [1, 255, 256, 4095, 65_535] {
                for mask in 0..16u32 {
                    let s = GOOD
                        .width(width)
                        .mcs(mcs)
                        .format(mask & 1)
                        .length(length)
                        .seed(1 + mask)
                        .smoothing(mask & 1)
                        .not_sounding(mask >> 1 & 1)
                        .aggregation(mask >> 2 & 1)
                        .short_guard(mask >> 3 & 1);
                    let mut sig = [0; 6];
                    sig_write(s, &mut sig).unwrap();
                    let read = sig_read(&sig).unwrap();
                    assert_eq!(read.width.mhz(), width);
                    assert_eq!((read.mcs, read.length), (mcs, length));
                    assert_eq!(read.smoothing, s.smoothing == 1);
                    assert_eq!(read.not_sounding, s.not_sounding == 1);
                    assert_eq!(read.aggregation, s.aggregation == 1);
                    assert_eq!(read.short_guard, s.short_guard == 1);
                }
            }
        }
    }
}
