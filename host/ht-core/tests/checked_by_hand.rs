//! The cases of document 01, 'Checked by hand', that the core has so far, and the published CRC example.

mod common;

use common::GOOD;
use ht_core::{
    carrier, points, raw::sig_write, sig_bytes, sig_read, symbol_count, Carrier, ReadRefusal,
    Reader, Refusal, Settings, Step, Width,
};

fn count(mcs: u32, width: u32, length: u32) -> Result<u32, Refusal> {
    symbol_count(GOOD.width(width).mcs(mcs).length(length))
}

#[test]
fn p1_mcs_0_20_length_1_is_2_symbols() {
    assert_eq!(count(0, 20, 1), Ok(2));
}

#[test]
fn p2_length_7_is_3_symbols() {
    assert_eq!(count(0, 20, 7), Ok(3));
}

#[test]
fn p3_length_8_is_4_symbols() {
    assert_eq!(count(0, 20, 8), Ok(4));
}

#[test]
fn p4_mcs_0_20_length_65535_is_20166_symbols() {
    assert_eq!(count(0, 20, 65_535), Ok(20_166));
}

#[test]
fn p5_mcs_31_40_length_65535_is_243_symbols() {
    assert_eq!(count(31, 40, 65_535), Ok(243));
}

#[test]
fn p6_mcs_16_20_length_7_is_2_symbols() {
    assert_eq!(count(16, 20, 7), Ok(2));
}

#[test]
fn mcs_32_is_refusal_2_and_31_is_not() {
    assert_eq!(count(32, 20, 1), Err(Refusal::Mcs));
    assert_eq!(count(31, 20, 1), Ok(1));
}

#[test]
fn length_65536_is_4() {
    assert_eq!(count(0, 20, 65_536), Err(Refusal::Length));
}

#[test]
fn seed_128_is_5() {
    let s = GOOD.seed(128);
    assert_eq!(symbol_count(s), Err(Refusal::Seed));
    assert_eq!(symbol_count(GOOD.seed(127)), Ok(2));
}

#[test]
fn a_signal_slice_longer_than_needed_is_no_refusal_to_write() {
    let mut out = [0xAA; 9];
    assert_eq!(sig_write(GOOD, &mut out), Ok(()));
    assert_eq!(out, [0x00, 0x01, 0x00, 0x07, 0x50, 0x00, 0xAA, 0xAA, 0xAA]);
}

#[test]
fn a_signal_slice_to_read_of_7_bytes_is_6() {
    let mut sig = [0; 7];
    sig_write(GOOD, &mut sig).unwrap();
    assert_eq!(sig_read(&sig), Err(Refusal::Source));
    assert!(sig_read(&sig[..6]).is_ok());
}

#[test]
fn a_signal_slice_to_write_of_5_bytes_is_8() {
    let mut out = [0xAA; 5];
    assert_eq!(sig_write(GOOD, &mut out), Err(Refusal::Room));
    assert_eq!(out, [0xAA; 5]);
}

#[test]
fn first_line_of_the_listing() {
    let s = Settings::new(Width::Mhz40, 15, 100, 1);
    assert_eq!(symbol_count(s), Ok(1));
    assert_eq!(sig_bytes(s), Ok([0x8F, 0x64, 0x00, 0x07, 0x54, 0x00]));
    let read = sig_read(&sig_bytes(s).unwrap()).unwrap();
    assert_eq!(
        (read.width, read.mcs, read.length),
        (Width::Mhz40, s.mcs, s.length)
    );
    assert!(read.smoothing && read.not_sounding);
    assert!(!read.aggregation && !read.short_guard);
}

#[test]
fn p12_mixed_20_one_stream_pilots() {
    let pilots = [[1.0, 1.0, 1.0, -1.0], [-1.0, -1.0, 1.0, -1.0]];
    for (symbol, want) in (0..).zip(pilots) {
        let mut out = [9.0f32; 112];
        assert_eq!(points(GOOD, &[0x5A], symbol, &mut out), Ok(112));
        assert_eq!([7, 21, 34, 48].map(|place| out[2 * place]), want);
        for place in [7, 21, 34, 48] {
            assert_eq!(out[2 * place + 1].to_bits(), 0);
        }
        let signs = [-21, -7, 7, 21].map(|k| carrier(GOOD, &[0x5A], symbol, 0, k));
        assert_eq!(signs, want.map(|sign| Ok(Carrier::Pilot(sign))));
    }
}

#[test]
fn the_symbol_equal_to_the_count_is_7() {
    let mut out = [9.0f32; 112];
    assert_eq!(points(GOOD, &[0], 2, &mut out), Err(Refusal::Place));
    assert_eq!(out, [9.0; 112]);
    assert_eq!(points(GOOD, &[0], 1, &mut out), Ok(112));
    assert_eq!(carrier(GOOD, &[0], 2, 0, 0), Err(Refusal::Place));
}

#[test]
fn one_float_too_few_is_8_and_a_longer_slice_is_no_refusal() {
    for (mcs, width, need) in [(0, 20u32, 112), (31, 20, 448), (0, 40, 228), (31, 40, 912)] {
        let s = GOOD.mcs(mcs).width(width);
        let mut out = [9.0f32; 1000];
        let short = points(s, &[0], 0, &mut out[..need - 1]);
        assert_eq!(short, Err(Refusal::Room));
        assert_eq!(out, [9.0; 1000]);
        assert_eq!(points(s, &[0], 0, &mut out), Ok(need));
        assert!(out[..need].iter().all(|level| level.abs() <= 7.0));
        assert!(out[need..].iter().all(|rest| *rest == 9.0));
    }
}

#[test]
fn a_payload_slice_longer_than_needed_is_no_refusal() {
    let mut out = [[9.0f32; 112]; 2];
    assert_eq!(points(GOOD, &[0x5A], 0, &mut out[0]), Ok(112));
    assert_eq!(points(GOOD, &[0x5A, 0xFF], 0, &mut out[1]), Ok(112));
    assert_eq!(out[0], out[1]);
    assert_eq!(points(GOOD, &[], 0, &mut out[0]), Err(Refusal::Source));
}

/// Subcarriers -32..31 and -64..63 are asked for; the unused ones are silent.
#[test]
fn the_ends_of_the_subcarriers() {
    for (width, lowest, highest) in [(20u32, -32, 31), (40, -64, 63)] {
        let s = GOOD.width(width);
        for k in [lowest, highest, 0] {
            assert_eq!(carrier(s, &[0], 0, 0, k), Ok(Carrier::Silent));
        }
        for k in [lowest - 1, highest + 1] {
            assert_eq!(carrier(s, &[0], 0, 0, k), Err(Refusal::Place));
        }
    }
}

/// IEEE 802.11a, annex G: the example's message, scrambled with seed 93 and coded at rate 3/4, begins with these 192 coded
/// bits. MCS 4 at 20 MHz codes it alike; here they are read back out of symbol 0's points.
#[test]
fn published_annex_g_coded_bits() {
    let message = "0402002e006008cd37a60020d6013cf1006008ad3baf00004a6f792c2062726967687420737061726b206f66\
                   20646976696e6974792c0a4461756768746572206f6620456c797369756d2c0a466972652d696e7369726564\
                   2077652074726561673321b6";
    let payload: Vec<u8> = (0..100)
        .map(|j| u8::from_str_radix(&message[2 * j..2 * j + 2], 16).unwrap())
        .collect();
    let published = "001010110000100010100001111100001001110110110101100110100001110101001010111110111110100011000010\
                     100011111100000011001000011100111100000001000011111000000001100111100000110100111110101110110010";
    let s = GOOD.mcs(4).length(100).seed(93);
    let mut out = [0.0; 112];
    points(s, &payload, 0, &mut out).unwrap();
    let label: String = (0..56)
        .filter(|place| ![7, 21, 34, 48].contains(place))
        .flat_map(|place| [out[2 * place], out[2 * place + 1]])
        .map(|level| match level as i32 {
            -3 => "00",
            -1 => "01",
            1 => "11",
            _ => "10",
        })
        .collect();
    assert_eq!((label.len(), published.len()), (208, 192));
    // Bit k of the only stream stands at its place in the label.
    let coded: String = (0..192)
        .map(|k| second::place(20, 4, 0, k).unwrap() as usize)
        .map(|place| &label[place..place + 1])
        .collect();
    assert_eq!(coded, published);
}

/// The second level of subcarrier -23, at MCS 0 and 20 MHz: as it is written the symbol is accepted.
#[test]
fn a_negative_zero_is_9() {
    let mut symbol = [f32::NAN; 112];
    points(GOOD, &[0x5A], 0, &mut symbol).unwrap();
    assert_eq!(symbol[11].to_bits(), 0);
    let read = |symbol: &[f32]| Reader::start(GOOD).unwrap().step(symbol, &mut [0]);
    assert!(matches!(read(&symbol), Ok(Step::Next { .. })));
    symbol[11] = -0.0;
    let place = ReadRefusal::Point {
        stream: 0,
        subcarrier: -23,
    };
    assert_eq!(read(&symbol), Err(place));
}

/// IEEE 802.11, clause 20: the check bits of `15 40 100` in order of transmission.
#[test]
fn published_crc_example() {
    let bits: Vec<u8> = "1111000 1 0010011000000000 1 1 1 0 00 0 0 00"
        .bytes()
        .filter(|b| *b != b' ')
        .map(|b| b - b'0')
        .collect();
    assert_eq!(bits.len(), 34);
    let published = [1, 0, 1, 0, 1, 0, 0, 0];
    assert_eq!(second::crc8(&bits), published);

    let sig = sig_bytes(GOOD.width(40u32).mcs(15).length(100)).unwrap();
    let bit = |n: usize| sig[n / 8] >> (n % 8) & 1;
    for (n, b) in bits.iter().enumerate() {
        assert_eq!(bit(n), *b, "bit {n}");
    }
    for (n, b) in published.iter().enumerate() {
        assert_eq!(bit(34 + n), *b, "check bit {n}");
    }
    for n in 42..48 {
        assert_eq!(bit(n), 0, "tail bit {n}");
    }
}

#[test]
fn refusals_have_document_01s_numbers_and_names() {
    let table = [
        (1, "WIDTH"),
        (2, "MCS"),
        (3, "FORMAT"),
        (4, "LENGTH"),
        (5, "SEED"),
        (6, "SOURCE"),
        (7, "PLACE"),
        (8, "ROOM"),
        (9, "POINT"),
        (10, "CODE"),
        (11, "FRAME"),
        (12, "CLOSED"),
        (13, "SIGCRC"),
        (14, "SIGFORM"),
    ];
    assert_eq!(Refusal::ALL.len(), table.len());
    for (refusal, (number, name)) in Refusal::ALL.iter().zip(table) {
        assert_eq!((refusal.number(), refusal.name()), (number, name));
        assert_eq!(Refusal::try_from(number), Ok(*refusal));
    }
    for number in [0, 15, u32::MAX] {
        assert_eq!(Refusal::try_from(number).unwrap_err().number, number);
    }
}
