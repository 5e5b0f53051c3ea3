//! Tests of the whole frame's reading.

use super::*;
use crate::carriers::{data_subcarriers, pilot_subcarriers, used_subcarriers};
use crate::chain::carrier_labels;
use crate::code_search::{names_at_places, Name};
use crate::data_bits::data_bits;
use crate::encoder::{encode, encoder_inputs};
use crate::interleaver::interleave;
use crate::mapper::{point, Point};
use crate::parser::deal;
use crate::pilots::pilot;
use crate::point_tables::data_table;
use crate::points::{float, points, turned};
use crate::puncture::puncture;
use crate::rates::{
    bits_per_carrier, coded_bits_per_symbol, data_bits_per_symbol, encoders, rate, streams,
};
use crate::samples::{all_wrong, float_bits, open, other_format_and_flags, settings, some_bytes};
use crate::settings::Settings;

/// A byte that stands past the payload and must stay.
const REST: u8 = 0x5A;

fn symbols(s: &Settings) -> usize {
    symbol_count(s).unwrap() as usize
}

fn per_symbol(s: &Settings) -> usize {
    floats_per_symbol(s.width, s.mcs) as usize
}

/// Data bits per symbol D.
fn d(s: &Settings) -> usize {
    data_bits_per_symbol(s.width, s.mcs) as usize
}

/// A length whose payload bits begin in symbol 0 and reach into symbol 2.
fn three_symbols(mcs: u32, width: u32) -> u32 {
    data_bits_per_symbol(width, mcs) / 4 + 1
}

/// A frame's floats in one slice, each symbol from the points call.
fn whole(s: &Settings, payload: &[u8]) -> Vec<f32> {
    let each = per_symbol(s);
    let mut frame = vec![f32::NAN; symbols(s) * each];
    for n in 0..symbols(s) {
        let written = points(s, payload, n as u64, &mut frame[n * each..]);
        assert_eq!(written, Ok(each));
    }
    frame
}

/// Steps 2 to 8 for a whole frame, from its data bits as the encoders take
/// them.
fn forward(s: &Settings, bits: &[u8]) -> Vec<f32> {
    let nes = encoders(s.mcs);
    let b = bits_per_carrier(s.mcs);
    let nss = streams(s.mcs);
    let mut coded = Vec::new();
    for j in 0..nes {
        coded.push(puncture(
            &encode(&encoder_inputs(bits, nes, j)),
            rate(s.mcs),
        ));
    }
    let share = (coded_bits_per_symbol(s.width, s.mcs) / nes) as usize;
    let mut floats = Vec::new();
    for n in 0..bits.len() / d(s) {
        let mut parts = Vec::new();
        for kept in &coded {
            parts.push(kept[n * share..(n + 1) * share].to_vec());
        }
        for (stream, dealt) in (0..).zip(deal(&parts, nss, b)) {
            let label_bits = interleave(s.width, b, stream, &dealt);
            let mut labels = carrier_labels(&label_bits, b).into_iter();
            let mut q = 0;
            for k in used_subcarriers(s.width) {
                let plain = if pilot_subcarriers(s.width).contains(&k) {
                    let sign = pilot(s.width, nss, stream, s.format, n as u64, q);
                    q += 1;
                    Point {
                        first: sign.unwrap(),
                        second: 0,
                    }
                } else {
                    point(&labels.next().unwrap()).unwrap()
                };
                let p = turned(s.width, k, plain);
                floats.extend([float(p.first), float(p.second)]);
            }
        }
    }
    floats
}

/// Where the first level of a subcarrier of stream i of symbol n stands.
fn index(s: &Settings, n: usize, i: u32, k: i64) -> usize {
    let used = used_subcarriers(s.width);
    let place = used.iter().position(|other| *other == k).unwrap();
    n * per_symbol(s) + 2 * (used.len() * i as usize + place)
}

/// Turns over the first kept bit of an encoder in symbol n. It is A0, and B0
/// is kept too, so that no input gives both.
fn code_fault(s: &Settings, frame: &mut [f32], n: usize, encoder: usize) {
    let name = Some(Name { encoder, number: 0 });
    let b = bits_per_carrier(s.mcs);
    for (i, at_place) in (0..).zip(names_at_places(s.width, s.mcs)) {
        let Some(r) = at_place.iter().position(|other| *other == name) else {
            continue;
        };
        let k = data_subcarriers(s.width)[r / b as usize];
        let at = index(s, n, i, k);
        let table = data_table(s.width, b, k);
        let old = (frame[at].to_bits(), frame[at + 1].to_bits());
        let found = table.iter().find(|e| (e.first, e.second) == old);
        let mut label = found.unwrap().label.clone();
        label[r % b as usize] ^= 1;
        let other = table.iter().find(|e| e.label == label).unwrap();
        frame[at] = f32::from_bits(other.first);
        frame[at + 1] = f32::from_bits(other.second);
        return;
    }
    panic!("no such coded bit");
}

/// Reads into a slice that is longer by three bytes: the answer and the
/// payload. Of every reading: the bytes past the payload stay, and a refusal
/// writes nothing.
fn read(s: &Settings, frame: &[f32]) -> (FrameAnswer, Vec<u8>) {
    let length = s.length as usize;
    let mut answers = Vec::new();
    // Read twice over other bytes, so that each byte written is seen.
    for before in [0x00, 0xFF] {
        let mut given = vec![before; length];
        given.extend([REST; 3]);
        let mut payload = given.clone();
        let answer = read_frame(&open(s), frame, &mut payload);
        assert_eq!(payload[length..], [REST; 3]);
        if let FrameAnswer::Accepted { .. } = answer {
            payload.truncate(length);
        } else {
            assert_eq!(payload, given, "{answer:?}");
            payload.clear();
        }
        answers.push((answer, payload));
    }
    assert_eq!(answers[0], answers[1]);
    answers.remove(0)
}

/// The answer to a frame that is refused.
fn refused(s: &Settings, frame: &[f32]) -> FrameAnswer {
    let (answer, payload) = read(s, frame);
    assert_eq!(payload, [], "{answer:?}");
    answer
}

fn accepted(seed: u32) -> FrameAnswer {
    FrameAnswer::Accepted { seed }
}

fn at(symbol: usize, stream: u32, subcarrier: i64) -> FrameAnswer {
    FrameAnswer::Point {
        symbol: symbol as u64,
        stream,
        subcarrier: subcarrier as i32,
    }
}

fn by_symbol(number: u32, symbol: usize) -> FrameAnswer {
    FrameAnswer::Symbol {
        number,
        symbol: symbol as u64,
    }
}

#[test]
fn one_small_frame_by_hand() {
    // MCS 0 at 20 MHz, length 1, payload 0, seed 127: labels as 0 and 1,
    // pilots as + and -.
    let texts = [
        "0110000 + 1010101110101 + 010101 000011 + 1011110011110 - 1000011",
        "0101010 - 0011101111111 - 011011 001010 + 1000100000111 - 1101000",
    ];
    let mut frame = Vec::new();
    for c in texts.concat().bytes().filter(|c| *c != b' ') {
        let first = if c == b'1' || c == b'+' { 1.0 } else { -1.0 };
        frame.extend([first, 0.0]);
    }
    assert_eq!(frame.len(), 224);
    let mut payload = [0xEE, REST];
    let s = open(&settings(0, 20, 1, 1));
    assert_eq!(read_frame(&s, &frame, &mut payload), accepted(127));
    assert_eq!(payload, [0, REST]);
}

#[test]
fn frames_of_every_setting_are_read_back() {
    for width in [20, 40] {
        for mcs in 0..=31 {
            for (format, seed) in [(0, 1 + mcs), (1, 127 - mcs)] {
                let s = Settings {
                    format,
                    ..settings(mcs, width, three_symbols(mcs, width), seed)
                };
                assert!(symbols(&s) >= 3);
                let payload = some_bytes(s.length);
                let got = read(&s, &whole(&s, &payload));
                assert_eq!(got, (accepted(seed), payload), "{s:?}");
            }
        }
    }
}

#[test]
fn frames_of_every_length_are_read_back() {
    // Tail and pad in the payload's last symbol and in one of their own.
    for length in 1..=60 {
        for (mcs, width) in [(0, 20), (5, 20), (16, 20), (31, 40)] {
            let s = settings(mcs, width, length, 93);
            let payload = some_bytes(length);
            let got = read(&s, &whole(&s, &payload));
            assert_eq!(got, (accepted(93), payload), "{s:?}");
        }
    }
}

#[test]
fn every_seed_is_read_back() {
    for seed in 1..=127 {
        for (mcs, width) in [(0, 20), (16, 40)] {
            for payload in [[0; 9], [0xFF; 9]] {
                let s = settings(mcs, width, 9, seed);
                let got = read(&s, &whole(&s, &payload));
                assert_eq!(got, (accepted(seed), payload.to_vec()));
            }
        }
    }
}

#[test]
fn a_long_frame_is_read_back_and_refused_in_its_last_symbol() {
    let s = settings(31, 40, 65_535, 77);
    let bytes = some_bytes(s.length);
    let mut frame = whole(&s, &bytes);
    assert_eq!(frame.len(), 243 * 912);
    let mut payload = vec![REST; 65_535];
    assert_eq!(read_frame(&open(&s), &frame, &mut payload), accepted(77));
    assert_eq!(payload, bytes);
    // The last float; 65,338 bytes were complete before its symbol.
    frame[243 * 912 - 1] = -0.0;
    payload.fill(REST);
    let got = read_frame(&open(&s), &frame, &mut payload);
    assert_eq!(got, at(242, 3, 58));
    assert_eq!(payload, vec![REST; 65_535]);
}

#[test]
fn forward_gives_the_frame() {
    for width in [20, 40] {
        for mcs in 0..=31 {
            let s = settings(mcs, width, three_symbols(mcs, width), 64);
            let payload = some_bytes(s.length);
            let got = forward(&s, &data_bits(&s, &payload).unwrap());
            assert_eq!(float_bits(&got), float_bits(&whole(&s, &payload)));
        }
    }
}

#[test]
fn a_damaged_float_is_9_with_its_place_in_every_symbol() {
    for width in [20, 40] {
        for mcs in 0..=31 {
            let s = settings(mcs, width, three_symbols(mcs, width), 37);
            let frame = whole(&s, &some_bytes(s.length));
            let used = used_subcarriers(width);
            for n in 0..symbols(&s) {
                for i in [0, streams(mcs) - 1] {
                    let middle = used[(7 * n + mcs as usize) % used.len()];
                    for k in [used[0], middle, used[used.len() - 1]] {
                        let mut damaged = frame.clone();
                        let which = (n + mcs as usize) % 2;
                        damaged[index(&s, n, i, k) + which] = 2.0;
                        assert_eq!(refused(&s, &damaged), at(n, i, k), "{s:?}");
                    }
                }
            }
        }
    }
}

#[test]
fn every_float_of_a_frame_counts() {
    // Four symbols of two streams; bytes are complete from symbol 0 on.
    let s = settings(8, 20, 20, 5);
    assert_eq!(symbols(&s), 4);
    let frame = whole(&s, &some_bytes(20));
    assert_eq!(frame.len(), 4 * 224);
    let mut place = 0;
    for n in 0..4 {
        for i in 0..2 {
            for k in used_subcarriers(20) {
                for level in [place, place + 1] {
                    for wrong in [f32::NAN, f32::INFINITY, -0.0, 0.5] {
                        let mut damaged = frame.clone();
                        damaged[level] = wrong;
                        assert_eq!(refused(&s, &damaged), at(n, i, k));
                    }
                }
                place += 2;
            }
        }
    }
    assert_eq!(place, frame.len());
}

#[test]
fn a_wrong_pilot_in_a_later_symbol_is_9() {
    for (mcs, width) in [(2, 20), (12, 40), (21, 20), (31, 40)] {
        let s = settings(mcs, width, three_symbols(mcs, width), 9);
        let frame = whole(&s, &some_bytes(s.length));
        for n in 0..symbols(&s) {
            for i in 0..streams(mcs) {
                for k in pilot_subcarriers(width) {
                    let mut damaged = frame.clone();
                    // The sign is on the second level where step 8 turns.
                    let level = usize::from(width == 40 && k > 0);
                    let place = index(&s, n, i, k) + level;
                    damaged[place] = -damaged[place];
                    assert_eq!(refused(&s, &damaged), at(n, i, k));
                }
            }
        }
    }
}

#[test]
fn the_other_format_is_9_in_symbol_1() {
    // Of the polarities 2, 3, 4 only the last is -1.
    let s = settings(0, 20, 9, 1);
    let green = Settings { format: 1, ..s };
    let payload = some_bytes(9);
    assert_eq!(refused(&green, &whole(&s, &payload)), at(1, 0, -21));
    assert_eq!(refused(&s, &whole(&green, &payload)), at(1, 0, -21));
}

#[test]
fn symbols_out_of_order_are_refused() {
    // The pilots of symbols 1 and 2 differ.
    let s = settings(0, 20, 9, 1);
    let mut frame = whole(&s, &some_bytes(9));
    let (first, second) = frame[112..336].split_at_mut(112);
    first.swap_with_slice(second);
    assert!(matches!(
        refused(&s, &frame),
        FrameAnswer::Point { symbol: 1, .. }
    ));
}

#[test]
fn a_code_fault_is_10_with_its_symbol() {
    for width in [20, 40] {
        for mcs in 0..=31 {
            let s = settings(mcs, width, three_symbols(mcs, width), 101);
            let frame = whole(&s, &some_bytes(s.length));
            for n in 0..symbols(&s) {
                for encoder in 0..encoders(mcs) as usize {
                    let mut damaged = frame.clone();
                    code_fault(&s, &mut damaged, n, encoder);
                    assert_eq!(refused(&s, &damaged), by_symbol(10, n), "{s:?}");
                }
            }
        }
    }
}

#[test]
fn a_sign_turned_over_at_one_bit_per_carrier_is_10() {
    // Rate 1/2 keeps A and B of every step.
    let s = settings(0, 20, 9, 12);
    let frame = whole(&s, &some_bytes(9));
    for n in 0..symbols(&s) {
        for k in data_subcarriers(20) {
            let mut damaged = frame.clone();
            let place = index(&s, n, 0, k);
            damaged[place] = -damaged[place];
            assert_eq!(refused(&s, &damaged), by_symbol(10, n));
        }
    }
}

#[test]
fn every_data_bit_turned_over() {
    // A service, tail or pad bit is 11 in its own symbol; a payload bit
    // gives the other payload. In the second, fourth and fifth frame the
    // tail lies in two symbols.
    for (mcs, width, length) in [
        (0, 20, 10),
        (0, 20, 1),
        (0, 40, 9),
        (16, 20, 7),
        (24, 20, 10),
        (7, 20, 40),
        (18, 20, 30),
    ] {
        let s = settings(mcs, width, length, 93);
        assert!(symbols(&s) >= 2);
        let payload = some_bytes(length);
        let bits = data_bits(&s, &payload).unwrap();
        let tail = 16 + 8 * length as usize;
        for number in 0..bits.len() {
            let mut other = bits.clone();
            other[number] ^= 1;
            let got = read(&s, &forward(&s, &other));
            if (16..tail).contains(&number) {
                let mut want = payload.clone();
                want[(number - 16) / 8] ^= 1 << ((number - 16) % 8);
                assert_eq!(got, (accepted(93), want), "{s:?}, bit {number}");
            } else {
                let symbol = number / d(&s);
                assert_eq!(got.0, by_symbol(11, symbol), "{s:?}, bit {number}");
            }
        }
    }
}

#[test]
fn a_seed_that_would_be_0_is_11_in_symbol_0() {
    for (mcs, width) in [(0, 20), (7, 40), (16, 20), (31, 40)] {
        let s = settings(mcs, width, three_symbols(mcs, width), 1);
        let zeros = vec![0; symbols(&s) * d(&s)];
        assert_eq!(refused(&s, &forward(&s, &zeros)), by_symbol(11, 0));
    }
}

/// A frame with faults: data bits turned over, then a code fault and a
/// negative zero, each in the symbols named.
fn with_faults(s: &Settings, wrong_bits: &[usize], codes: &[usize], floats: &[usize]) -> Vec<f32> {
    let mut bits = data_bits(s, &some_bytes(s.length)).unwrap();
    for number in wrong_bits {
        bits[*number] ^= 1;
    }
    let mut frame = forward(s, &bits);
    for n in codes {
        code_fault(s, &mut frame, *n, 0);
    }
    for n in floats {
        frame[index(s, *n, 0, 28) + 1] = -0.0;
    }
    frame
}

#[test]
fn the_first_refused_symbol_ends_it() {
    // D = 26: service bit 15 is in symbol 0, the tail at 80 to 85 in
    // symbol 3.
    let s = settings(0, 20, 8, 50);
    assert_eq!(symbols(&s), 4);
    let answer = |wrong_bits: &[usize], codes: &[usize], floats: &[usize]| {
        refused(&s, &with_faults(&s, wrong_bits, codes, floats))
    };
    // Over the symbols.
    assert_eq!(answer(&[15], &[1], &[2]), by_symbol(11, 0));
    assert_eq!(answer(&[80], &[1], &[2]), by_symbol(10, 1));
    assert_eq!(answer(&[80], &[2], &[1]), at(1, 0, 28));
    assert_eq!(answer(&[80], &[1, 2], &[3]), by_symbol(10, 1));
    assert_eq!(answer(&[80], &[], &[1, 2]), at(1, 0, 28));
    assert_eq!(answer(&[15, 80], &[], &[]), by_symbol(11, 0));
    assert_eq!(answer(&[80], &[], &[]), by_symbol(11, 3));
    // In one symbol: 9, 10, 11.
    assert_eq!(answer(&[15], &[0], &[0]), at(0, 0, 28));
    assert_eq!(answer(&[15], &[0], &[]), by_symbol(10, 0));
    assert_eq!(answer(&[80], &[3], &[3]), at(3, 0, 28));
    assert_eq!(answer(&[80], &[3], &[]), by_symbol(10, 3));
}

#[test]
fn settings_are_refused_in_order_before_the_slices() {
    // Each number is wrong, and would pass if it were narrowed.
    let mut s = all_wrong();
    let answer = |s: &Settings| {
        let answer = read_frame(&open(s), &[], &mut []);
        let mut payload = vec![REST; 65_537];
        let room = vec![1.0; 1_000];
        assert_eq!(read_frame(&open(s), &room, &mut payload), answer);
        assert_eq!(payload, vec![REST; 65_537]);
        answer
    };
    assert_eq!(answer(&s), FrameAnswer::Refused(1));
    s.width = 20;
    assert_eq!(answer(&s), FrameAnswer::Refused(2));
    s.mcs = 31;
    assert_eq!(answer(&s), FrameAnswer::Refused(3));
    s.format = 1;
    assert_eq!(answer(&s), FrameAnswer::Refused(4));
    s.length = 0;
    assert_eq!(answer(&s), FrameAnswer::Refused(4));
    s.length = 65_536;
    assert_eq!(answer(&s), FrameAnswer::Refused(4));
    s.length = 65_535;
    assert_eq!(answer(&s), FrameAnswer::Refused(8));
    s.mcs = 32;
    assert_eq!(answer(&s), FrameAnswer::Refused(2));
    s.width = 41;
    assert_eq!(answer(&s), FrameAnswer::Refused(1));
}

#[test]
fn short_slices_are_8_before_any_symbol() {
    for width in [20, 40] {
        for mcs in 0..=31 {
            let s = settings(mcs, width, three_symbols(mcs, width), 3);
            let length = s.length as usize;
            let good = whole(&s, &some_bytes(s.length));
            // With a fault in symbol 0 it is 8 all the same.
            let mut faulty = good.clone();
            faulty[0] = f32::NAN;
            for frame in [&good, &faulty] {
                let all = frame.len();
                for floats in [all - 1, all - per_symbol(&s), per_symbol(&s), 1, 0] {
                    let mut payload = vec![REST; length];
                    let got = read_frame(&open(&s), &frame[..floats], &mut payload);
                    assert_eq!(got, FrameAnswer::Refused(8));
                    assert_eq!(payload, vec![REST; length]);
                }
                for bytes in [length - 1, 1, 0] {
                    let mut payload = vec![REST; bytes];
                    let got = read_frame(&open(&s), frame, &mut payload);
                    assert_eq!(got, FrameAnswer::Refused(8));
                    assert_eq!(payload, vec![REST; bytes]);
                }
            }
        }
    }
}

#[test]
fn a_symbol_without_payload_bits_is_needed_too() {
    // Data bits 16 to 23 are in symbol 0, the tail's end and pad in 1.
    let s = settings(0, 20, 1, 88);
    let frame = whole(&s, &[0xC4]);
    assert_eq!(frame.len(), 224);
    let mut payload = [REST];
    for floats in [112, 223] {
        let got = read_frame(&open(&s), &frame[..floats], &mut payload);
        assert_eq!(got, FrameAnswer::Refused(8));
    }
    let mut damaged = frame.clone();
    damaged[223] = 1.0;
    let got = read_frame(&open(&s), &damaged, &mut payload);
    assert_eq!(got, at(1, 0, 28));
    assert_eq!(payload, [REST]);
    assert_eq!(read_frame(&open(&s), &frame, &mut payload), accepted(88));
    assert_eq!(payload, [0xC4]);
}

#[test]
fn longer_slices_are_fine_and_their_rest_stays() {
    for (mcs, width) in [(0, 20), (13, 40), (16, 20), (31, 40)] {
        let s = settings(mcs, width, three_symbols(mcs, width), 19);
        let bytes = some_bytes(s.length);
        let frame = whole(&s, &bytes);
        for more in [0, 1, 2, 112, 3_000] {
            let mut longer = frame.clone();
            longer.extend(vec![f32::NAN; more]);
            let mut payload = vec![REST; bytes.len() + more];
            let got = read_frame(&open(&s), &longer, &mut payload);
            assert_eq!(got, accepted(19));
            assert_eq!(payload[..bytes.len()], bytes);
            assert_eq!(payload[bytes.len()..], vec![REST; more]);
        }
    }
}

#[test]
fn the_flags_play_no_part() {
    let s = settings(9, 40, 70, 2);
    let payload = some_bytes(70);
    let frame = whole(&s, &payload);
    let other = Settings {
        format: s.format,
        ..other_format_and_flags(&s)
    };
    assert_eq!(read(&other, &frame), (accepted(2), payload));
}

/// Numbers from which faults are chosen.
struct Chance(u64);

impl Chance {
    /// One of 0 to `below` - 1.
    fn below(&mut self, below: usize) -> usize {
        self.0 = self
            .0
            .wrapping_mul(6_364_136_223_846_793_005)
            .wrapping_add(1_442_695_040_888_963_407);
        (self.0 >> 33) as usize % below
    }
}

#[test]
fn chosen_faults_against_the_steps_and_the_points_call() {
    let mut chance = Chance(1);
    let mut seen = [0; 12];
    for _ in 0..300 {
        let mcs = [0, 2, 4, 5, 6, 7, 15, 18, 23, 31][chance.below(10)];
        let width = [20, 40][chance.below(2)];
        let length = 1 + chance.below(2 * three_symbols(mcs, width) as usize) as u32;
        let s = settings(mcs, width, length, 1 + chance.below(127) as u32);
        let mut bits = data_bits(&s, &some_bytes(length)).unwrap();
        let fault = chance.below(4);
        // Another payload, or 11.
        if fault == 1 {
            let number = chance.below(bits.len());
            bits[number] ^= 1;
        }
        let mut frame = forward(&s, &bits);
        // Another point of the same carrier.
        if fault == 2 {
            let n = chance.below(symbols(&s));
            let i = chance.below(streams(mcs) as usize) as u32;
            let data = data_subcarriers(width);
            let k = data[chance.below(data.len())];
            let table = data_table(width, bits_per_carrier(mcs), k);
            let entry = &table[chance.below(table.len())];
            let place = index(&s, n, i, k);
            frame[place] = f32::from_bits(entry.first);
            frame[place + 1] = f32::from_bits(entry.second);
        }
        // One bit of a float.
        if fault == 3 {
            let place = chance.below(frame.len());
            let turned_over = frame[place].to_bits() ^ (1 << chance.below(32));
            frame[place] = f32::from_bits(turned_over);
        }

        // By the steps alone, each from its own part of the slice.
        let mut state = reader_start(&open(&s)).unwrap();
        let mut bytes = vec![0; length as usize];
        let mut want = accepted(0);
        for n in 0..symbols(&s) {
            let from = n * per_symbol(&s);
            let (answer, after) = reader_step(&open(&s), &state, &frame[from..], &mut bytes);
            match answer {
                Answer::Accepted { seed } if n == 0 => want = accepted(seed),
                Answer::Accepted { .. } => {}
                Answer::Point { stream, subcarrier } => {
                    want = at(n, stream, i64::from(subcarrier));
                }
                Answer::Refused(number) => want = by_symbol(number, n),
            }
            state = after;
            if !matches!(want, FrameAnswer::Accepted { .. }) {
                break;
            }
        }
        assert!(state.ended);

        let (answer, payload) = read(&s, &frame);
        assert_eq!(answer, want, "{s:?}");
        match answer {
            FrameAnswer::Accepted { seed } => {
                // That payload and seed give the frame.
                assert_eq!(payload, bytes);
                let again = whole(&Settings { seed, ..s }, &payload);
                assert_eq!(float_bits(&again), float_bits(&frame));
                seen[0] += 1;
                if payload != some_bytes(length) {
                    seen[1] += 1;
                }
            }
            FrameAnswer::Point { .. } => seen[9] += 1,
            FrameAnswer::Symbol { number, .. } => seen[number as usize] += 1,
            FrameAnswer::Refused(number) => panic!("refused {number}"),
        }
    }
    // Accepted, 9, 10 and 11 all occur; so does another payload.
    for case in [0, 1, 9, 10, 11] {
        assert!(seen[case] > 0, "case {case}: {seen:?}");
    }
}

#[test]
fn any_numbers_end_without_a_panic() {
    let numbers = [0, 1, 19, 20, 31, 32, 40, 65_535, 65_536, u32::MAX];
    let floats = vec![1.0; 1_000];
    for width in numbers {
        for mcs in numbers {
            for format in [0, 1, 2, u32::MAX] {
                for length in numbers {
                    let s = Settings {
                        format,
                        ..settings(mcs, width, length, 1)
                    };
                    for size in [0, 1, 40] {
                        let mut payload = vec![REST; size];
                        let answer = read_frame(&open(&s), &floats, &mut payload);
                        assert!(!matches!(answer, FrameAnswer::Accepted { .. }));
                        assert_eq!(payload, vec![REST; size]);
                    }
                }
            }
        }
    }
}
