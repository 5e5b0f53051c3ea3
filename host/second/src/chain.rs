//! Document 01, "From payload to points", steps 1 to 5 together.
//!
//! The whole frame is coded from data bit 0; the part of one symbol is then
//! taken out, dealt to the streams and interleaved. `own_labels` gives the same
//! from those data bits alone that the symbol depends on.

use crate::data_bits::{data_bits, data_bits_from};
use crate::encoder::{encode, encoder_inputs, Encoder};
use crate::interleaver::interleave;
use crate::parser::deal;
use crate::puncture::puncture;
use crate::rates::{
    bits_per_carrier, coded_bits_per_symbol, data_bits_per_symbol, encoders, rate, streams,
    symbol_count,
};
use crate::refusal;
use crate::settings::{check, Settings};

/// Refusals 1 to 5, then 6 for a payload slice shorter than `length`, then 7
/// for a symbol that is not in the frame.
pub fn check_symbol(s: &Settings, payload: &[u8], symbol: u64) -> Result<(), u32> {
    check(s)?;
    if payload.len() < s.length as usize {
        return Err(refusal::SOURCE);
    }
    if symbol >= u64::from(symbol_count(s)?) {
        return Err(refusal::PLACE);
    }
    Ok(())
}

/// Steps 1 to 3: the kept bits of each encoder over the whole frame.
///
/// Refusals 1 to 5, then 6 for a payload slice shorter than `length`.
pub fn coded_frame(s: &Settings, payload: &[u8]) -> Result<Vec<Vec<u8>>, u32> {
    let bits = data_bits(s, payload)?;
    let nes = encoders(s.mcs);
    let mut coded = Vec::new();
    for encoder in 0..nes {
        let inputs = encoder_inputs(&bits, nes, encoder);
        let steps = encode(&inputs);
        coded.push(puncture(&steps, rate(s.mcs)));
    }
    Ok(coded)
}

/// Steps 1 to 5 for one symbol: the label bits of each stream, streams × block.
///
/// Refusals 1 to 5, then 6 for a payload slice shorter than `length`, then 7
/// for a symbol that is not in the frame.
pub fn symbol_labels(s: &Settings, payload: &[u8], symbol: u64) -> Result<Vec<Vec<u8>>, u32> {
    let coded = coded_frame(s, payload)?;
    if symbol >= u64::from(symbol_count(s)?) {
        return Err(refusal::PLACE);
    }
    Ok(labels_of(s, &coded, symbol as usize))
}

/// Steps 1 to 5 for one symbol, as `symbol_labels` gives them, from the data
/// bits that document 01 names for it in "The words of demand 3": its own, nD
/// to nD + D - 1, and those of the last six steps of each encoder before it,
/// nD - 6·NES to nD - 1; symbol 0 has none before it.
///
/// D is a multiple of NES, and D/NES a whole number of puncturing periods, so
/// the encoders' turns and the kept bits begin anew with each symbol. Refusals
/// as in `symbol_labels`.
pub fn own_labels(s: &Settings, payload: &[u8], symbol: u64) -> Result<Vec<Vec<u8>>, u32> {
    check_symbol(s, payload, symbol)?;
    let nes = encoders(s.mcs);
    let d = u64::from(data_bits_per_symbol(s.width, s.mcs));
    let first = symbol * d;
    let reach = if symbol == 0 { 0 } else { 6 * u64::from(nes) };
    let before = data_bits_from(s, payload, first.saturating_sub(reach), reach)?;
    let own = data_bits_from(s, payload, first, d)?;
    let mut parts = Vec::new();
    for number in 0..nes {
        let mut encoder = Encoder::at_zero();
        for input in encoder_inputs(&before, nes, number) {
            encoder.step(input);
        }
        let mut steps = Vec::new();
        for input in encoder_inputs(&own, nes, number) {
            steps.push(encoder.step(input));
        }
        parts.push(puncture(&steps, rate(s.mcs)));
    }
    Ok(labels_from(s, &parts))
}

/// Steps 1 to 5 for the whole frame: the answers of `symbol_labels` for all
/// symbols in order, symbols × streams × block. Refusals 1 to 6.
pub fn frame_labels(s: &Settings, payload: &[u8]) -> Result<Vec<Vec<Vec<u8>>>, u32> {
    let coded = coded_frame(s, payload)?;
    let mut frame = Vec::new();
    for symbol in 0..symbol_count(s)? {
        frame.push(labels_of(s, &coded, symbol as usize));
    }
    Ok(frame)
}

/// The labels of the data carriers, from one stream's label bits: each next B
/// bits, in order, are the label of the next carrier.
///
/// Bits that are left over at the end are no label. With B = 0 there is none.
pub fn carrier_labels(label_bits: &[u8], b: u32) -> Vec<Vec<u8>> {
    let mut labels = Vec::new();
    let mut label = Vec::new();
    for bit in label_bits {
        label.push(*bit);
        if label.len() as u64 == u64::from(b) {
            labels.push(label);
            label = Vec::new();
        }
    }
    labels
}

/// Steps 4 and 5 for one symbol of a coded frame.
fn labels_of(s: &Settings, coded: &[Vec<u8>], symbol: usize) -> Vec<Vec<u8>> {
    // Each encoder has its share of the coded bits of a symbol.
    let share = (coded_bits_per_symbol(s.width, s.mcs) / encoders(s.mcs)) as usize;
    let mut parts = Vec::new();
    for kept in coded {
        parts.push(part(kept, share, symbol));
    }
    labels_from(s, &parts)
}

/// Steps 4 and 5 for one symbol's kept bits, `parts[j]` those of encoder j.
fn labels_from(s: &Settings, parts: &[Vec<u8>]) -> Vec<Vec<u8>> {
    let b = bits_per_carrier(s.mcs);
    let dealt = deal(parts, streams(s.mcs), b);
    let mut labels = Vec::new();
    for (stream, bits) in (0..).zip(&dealt) {
        labels.push(interleave(s.width, b, stream, bits));
    }
    labels
}

/// The kept bits with numbers symbol·share to symbol·share + share - 1.
fn part(kept: &[u8], share: usize, symbol: usize) -> Vec<u8> {
    let before = symbol.saturating_mul(share);
    kept.iter().skip(before).take(share).copied().collect()
}

#[cfg(test)]
mod tests {
    use super::*;
    use crate::rates::{block, data_carriers};
    use crate::samples::{all_wrong, bits, other_format_and_flags, settings};

    /// Byte j is 37·j + 11 modulo 256.
    fn some_bytes(count: u32) -> Vec<u8> {
        (0..count).map(|j| ((37 * j + 11) % 256) as u8).collect()
    }

    /// Each label bit of a frame by the closed formulas of document 01 alone,
    /// with nothing dealt, walked or shifted.
    struct Closed<'a> {
        s: Settings,
        payload: &'a [u8],
        /// Outputs 0 to 126 of the scrambler.
        outputs: Vec<u8>,
    }

    impl Closed<'_> {
        fn of(s: Settings, payload: &[u8]) -> Closed<'_> {
            // Each output is the sum of those seven and four steps before it;
            // x7 is the seventh before the first, x1 the one before it.
            let mut outputs: Vec<u8> = (0..7).map(|n| ((s.seed >> (6 - n)) & 1) as u8).collect();
            for n in 7..134 {
                outputs.push(outputs[n - 7] ^ outputs[n - 4]);
            }
            Closed {
                s,
                payload,
                outputs: outputs[7..].to_vec(),
            }
        }

        fn nes(&self) -> usize {
            if self.s.mcs < 16 {
                1
            } else {
                2
            }
        }

        /// Data bit d of the frame.
        fn data(&self, d: usize) -> u8 {
            let tail = 16 + 8 * self.s.length as usize;
            let plain = if d >= 16 && d < tail {
                (self.payload[(d - 16) / 8] >> ((d - 16) % 8)) & 1
            } else {
                0
            };
            if d >= tail && d < tail + 6 * self.nes() {
                0
            } else {
                plain ^ self.outputs[d % 127]
            }
        }

        /// Kept bit q of an encoder, counted over the frame.
        fn kept(&self, encoder: usize, q: usize) -> u8 {
            let pattern = match self.s.mcs % 8 {
                0 | 1 | 3 => "A0 B0",
                5 => "A0 B0 A1",
                7 => "A0 B0 A1 B2 A3 B4",
                _ => "A0 B0 A1 B2",
            };
            let period = match self.s.mcs % 8 {
                0 | 1 | 3 => 1,
                5 => 2,
                7 => 5,
                _ => 3,
            };
            let entries: Vec<&[u8]> = pattern.split(' ').map(|entry| entry.as_bytes()).collect();
            let entry = entries[q % entries.len()];
            let t = period * (q / entries.len()) + usize::from(entry[1] - b'0');
            let backs = if entry[0] == b'A' {
                [0, 2, 3, 5, 6]
            } else {
                [0, 1, 2, 3, 6]
            };
            let mut sum = 0;
            for back in backs {
                if t >= back {
                    sum += self.data(self.nes() * (t - back) + encoder);
                }
            }
            sum % 2
        }

        /// Label bit r of stream i of symbol n.
        fn label(&self, n: usize, i: usize, r: usize) -> u8 {
            let nss = self.s.mcs as usize / 8 + 1;
            let b = [1, 2, 2, 4, 4, 6, 6, 6][self.s.mcs as usize % 8];
            let s = std::cmp::max(1, b / 2);
            let (columns, rows, rotation) = if self.s.width == 20 {
                (13, 4 * b, 11)
            } else {
                (18, 6 * b, 29)
            };
            let block = columns * rows;
            // Back from the label place to the stream's bit k.
            let factor = [0, 2, 1, 3][i];
            let j = (r + factor * rotation * b) % block;
            let before = s * (j / s) + (j + columns * j / block) % s;
            let k = columns * before - (block - 1) * (before / rows);
            // Back from the stream to the encoder.
            let encoder = (k / s) % self.nes();
            let bit = i * s + nss * s * (k / (self.nes() * s)) + k % s;
            self.kept(encoder, n * (block * nss / self.nes()) + bit)
        }
    }

    #[test]
    fn every_label_bit_agrees_with_the_closed_formulas() {
        let payload = some_bytes(800);
        for width in [20, 40] {
            for mcs in 0..=31 {
                for (length, seed) in [(1, 127), (2, 1), (7, 64), (61, 93), (800, 37)] {
                    let s = settings(mcs, width, length, seed);
                    let closed = Closed::of(s, &payload);
                    let frame = frame_labels(&s, &payload).unwrap();
                    for (n, symbol) in frame.iter().enumerate() {
                        for (i, stream) in symbol.iter().enumerate() {
                            for (r, bit) in stream.iter().enumerate() {
                                let want = closed.label(n, i, r);
                                assert_eq!(*bit, want, "{s:?}: {n}, {i}, {r}");
                            }
                        }
                    }
                }
            }
        }
    }

    #[test]
    fn one_small_frame_by_hand() {
        // MCS 0 at 20 MHz, length 1, payload 0, seed 127: 52 data bits.
        let s = settings(0, 20, 1, 127);
        // 16 + 8 bits of the sequence, 6 tail bits, 22 pad bits.
        let data = "00001110 11110010 11001001 000000 1000100110001011101011";
        assert_eq!(data_bits(&s, &[0]), Ok(bits(data)));
        // A and B of each of the 26 steps of each symbol.
        let symbol_0 = "00 00 00 00 11 10 01 01 11 11 00 11 10 \
             10 01 00 01 10 10 10 11 11 10 11 01 01";
        let symbol_1 = "00 00 10 11 11 01 11 11 11 11 00 00 10 \
             00 11 11 01 00 11 01 01 11 00 00 01 00";
        let coded = [bits(symbol_0), bits(symbol_1)];
        assert_eq!(coded_frame(&s, &[0]), Ok(vec![coded.concat()]));
        // Written in 4 rows of 13, read in 13 columns of 4.
        for (n, symbol) in (0..).zip(&coded) {
            let mut want = Vec::new();
            for column in 0..13 {
                for row in 0..4 {
                    want.push(symbol[13 * row + column]);
                }
            }
            assert_eq!(symbol_labels(&s, &[0], n), Ok(vec![want]));
        }
        let want = "0110000101010111010101010100001110111100111101000011";
        assert_eq!(symbol_labels(&s, &[0], 0), Ok(vec![bits(want)]));
        let want = "0101010001110111111101101100101010001000001111101000";
        assert_eq!(symbol_labels(&s, &[0], 1), Ok(vec![bits(want)]));
    }

    /// One stream's label bits: the first 24, the last 24 and how many are 1.
    fn ends(label: &[u8]) -> (Vec<u8>, Vec<u8>, u32) {
        let ones = label.iter().map(|bit| u32::from(*bit)).sum();
        (
            label[..24].to_vec(),
            label[label.len() - 24..].to_vec(),
            ones,
        )
    }

    fn ends_as(first: &str, last: &str, ones: u32) -> (Vec<u8>, Vec<u8>, u32) {
        (bits(first), bits(last), ones)
    }

    /// These values were worked out from the closed formulas of document 01
    /// apart from this program.
    #[test]
    fn larger_frames_by_values_worked_out_apart() {
        let payload = some_bytes(1_000);
        let got = symbol_labels(&settings(11, 20, 200, 5), &payload, 3).unwrap();
        let want = [
            ends_as("100111101111110001001111", "010011111110111010000100", 114),
            ends_as("011011011111000110011001", "100000001010011011111100", 102),
        ];
        assert_eq!(got.iter().map(|l| ends(l)).collect::<Vec<_>>(), want);

        let got = symbol_labels(&settings(20, 20, 300, 93), &payload, 1).unwrap();
        let want = [
            ends_as("110011001011110111101100", "101001000011100100111011", 110),
            ends_as("100101000011110001011100", "011101100010011010010111", 106),
            ends_as("111101010110011110111011", "001000101001000100001001", 114),
        ];
        assert_eq!(got.iter().map(|l| ends(l)).collect::<Vec<_>>(), want);

        let got = symbol_labels(&settings(23, 40, 1_000, 64), &payload, 0).unwrap();
        let want = [
            ends_as("111001000100010000101110", "111001011111110111100011", 341),
            ends_as("111000101110110110111001", "100011011001001001011110", 308),
            ends_as("001101110001110111101010", "110111001000001001011010", 328),
        ];
        assert_eq!(got.iter().map(|l| ends(l)).collect::<Vec<_>>(), want);

        let got = symbol_labels(&settings(31, 40, 1_000, 1), &payload, 2).unwrap();
        let want = [
            ends_as("010101011110111010011000", "011101110010001010100111", 333),
            ends_as("000001000000001001110010", "111100000111111000101100", 333),
            ends_as("010100011100101000011110", "110010100101110110101000", 334),
            ends_as("100011011000110110101110", "100110101101100010101110", 330),
        ];
        assert_eq!(got.iter().map(|l| ends(l)).collect::<Vec<_>>(), want);
    }

    #[test]
    fn streams_times_block_for_every_width_and_mcs() {
        let payload = some_bytes(100);
        for width in [20, 40] {
            for mcs in 0..=31 {
                let s = settings(mcs, width, 100, 93);
                let count = symbol_count(&s).unwrap();
                let coded = coded_frame(&s, &payload).unwrap();
                assert_eq!(coded.len() as u32, encoders(mcs));
                for kept in &coded {
                    let each = count * coded_bits_per_symbol(width, mcs) / encoders(mcs);
                    assert_eq!(kept.len() as u32, each);
                }
                let frame = frame_labels(&s, &payload).unwrap();
                assert_eq!(frame.len() as u32, count);
                for (n, symbol) in (0..).zip(&frame) {
                    assert_eq!(symbol.len() as u32, streams(mcs));
                    for stream in symbol {
                        assert_eq!(stream.len() as u32, block(width, mcs));
                        assert!(stream.iter().all(|bit| *bit < 2));
                    }
                    // Each symbol asked for alone is the same.
                    assert_eq!(symbol_labels(&s, &payload, n).as_ref(), Ok(symbol));
                }
            }
        }
    }

    #[test]
    fn own_labels_are_those_of_the_whole_frame() {
        let payload = some_bytes(800);
        for width in [20, 40] {
            for mcs in 0..=31 {
                for (length, seed) in [(1, 127), (2, 1), (7, 64), (61, 93), (800, 37)] {
                    let s = settings(mcs, width, length, seed);
                    let frame = frame_labels(&s, &payload).unwrap();
                    for (n, symbol) in (0..).zip(&frame) {
                        assert_eq!(own_labels(&s, &payload, n).as_ref(), Ok(symbol));
                    }
                }
            }
        }
    }

    #[test]
    fn symbols_in_any_order_are_the_same() {
        let payload = some_bytes(400);
        let s = settings(22, 40, 400, 3);
        let frame = frame_labels(&s, &payload).unwrap();
        assert_eq!(frame.len(), 3);
        for n in [2, 0, 1, 1, 0, 2] {
            let alone = symbol_labels(&s, &payload, n).unwrap();
            assert_eq!(alone, frame[n as usize]);
        }
        assert_ne!(frame[0], frame[1]);
        assert_ne!(frame[1], frame[2]);
    }

    #[test]
    fn the_encoders_run_on_from_symbol_to_symbol() {
        // A payload bit among the last six steps of each encoder before symbol
        // 1 changes symbol 1; the bit just before those does not.
        for (mcs, width) in [(0, 20), (4, 20), (15, 40), (16, 20), (31, 40)] {
            let s = settings(mcs, width, 2_000, 93);
            let payload = some_bytes(2_000);
            let plain = symbol_labels(&s, &payload, 1).unwrap();
            let d = data_bits_per_symbol(width, mcs) as usize;
            let reach = 6 * encoders(mcs) as usize;
            for back in 1..=reach + 2 {
                let bit = d - back;
                if bit < 16 {
                    continue;
                }
                let mut other = payload.clone();
                other[(bit - 16) / 8] ^= 1 << ((bit - 16) % 8);
                let changed = symbol_labels(&s, &other, 1).unwrap() != plain;
                assert_eq!(changed, back <= reach, "{back} bits before, MCS {mcs}");
                assert_ne!(symbol_labels(&s, &other, 0), symbol_labels(&s, &payload, 0));
            }
        }
    }

    #[test]
    fn the_symbol_of_the_first_differing_bit_differs() {
        for (mcs, width) in [(0, 20), (7, 40), (18, 20), (29, 40)] {
            let s = settings(mcs, width, 120, 17);
            let payload = some_bytes(120);
            let plain = frame_labels(&s, &payload).unwrap();
            let d = data_bits_per_symbol(width, mcs) as usize;
            let reach = 6 * encoders(mcs) as usize;
            for place in 0..960 {
                let mut other = payload.clone();
                other[place / 8] ^= 1 << (place % 8);
                let frame = frame_labels(&s, &other).unwrap();
                let own = (16 + place) / d;
                let last = (16 + place + reach) / d;
                for n in 0..plain.len() {
                    if n == own {
                        assert_ne!(frame[n], plain[n], "bit {place}, symbol {n}");
                    } else if n < own || n > last {
                        assert_eq!(frame[n], plain[n], "bit {place}, symbol {n}");
                    }
                }
            }
        }
    }

    #[test]
    fn any_two_seeds_differ_in_symbol_0() {
        for (mcs, width) in [(0, 20), (15, 40), (16, 20), (31, 40)] {
            let mut all = Vec::new();
            for seed in 1..=127 {
                all.push(symbol_labels(&settings(mcs, width, 4, seed), &[0; 4], 0).unwrap());
            }
            all.sort();
            all.dedup();
            assert_eq!(all.len(), 127);
        }
    }

    #[test]
    fn format_flags_and_bytes_past_the_length_play_no_part() {
        let s = settings(25, 40, 9, 77);
        let other = other_format_and_flags(&s);
        let mut longer = some_bytes(9);
        longer.extend([0xFF; 5]);
        let want = frame_labels(&s, &some_bytes(9)).unwrap();
        assert_eq!(frame_labels(&other, &longer), Ok(want));
    }

    #[test]
    fn refusals_1_to_7_in_order() {
        // All is wrong at first; one fault after the other is mended.
        let mut s = all_wrong();
        let refused = |s: &Settings, payload: &[u8], symbol: u64| {
            let refused = symbol_labels(s, payload, symbol).map(|_| ());
            assert_eq!(own_labels(s, payload, symbol).map(|_| ()), refused);
            assert_eq!(check_symbol(s, payload, symbol), refused);
            if refused != Err(7) {
                assert_eq!(frame_labels(s, payload).map(|_| ()), refused);
                assert_eq!(coded_frame(s, payload).map(|_| ()), refused);
            }
            refused
        };
        assert_eq!(refused(&s, &[], u64::MAX), Err(1));
        s.width = 20;
        assert_eq!(refused(&s, &[], u64::MAX), Err(2));
        s.mcs = 0;
        assert_eq!(refused(&s, &[], u64::MAX), Err(3));
        s.format = 1;
        assert_eq!(refused(&s, &[], u64::MAX), Err(4));
        s.length = 7;
        assert_eq!(refused(&s, &[], u64::MAX), Err(5));
        s.seed = 127;
        assert_eq!(refused(&s, &[], u64::MAX), Err(6));
        assert_eq!(refused(&s, &[0; 6], u64::MAX), Err(6));
        // A short slice is 6 whatever symbol is asked for.
        assert_eq!(refused(&s, &[0; 6], 0), Err(6));
        assert_eq!(refused(&s, &[0; 6], 2), Err(6));
        assert_eq!(refused(&s, &[0; 7], u64::MAX), Err(7));
        assert_eq!(refused(&s, &[0; 7], 2), Ok(()));
    }

    #[test]
    fn symbol_equal_to_the_count_is_refusal_7() {
        let payload = some_bytes(100);
        for width in [20, 40] {
            for mcs in 0..=31 {
                let s = settings(mcs, width, 100, 1);
                let count = u64::from(symbol_count(&s).unwrap());
                assert!(symbol_labels(&s, &payload, count - 1).is_ok());
                // Symbol numbers do not wrap.
                for n in [count, count + 1, 1 << 16, 1 << 32, (1 << 32) + 1, u64::MAX] {
                    assert_eq!(symbol_labels(&s, &payload, n), Err(7));
                    assert_eq!(own_labels(&s, &payload, n), Err(7));
                }
            }
        }
    }

    #[test]
    fn the_longest_frames() {
        let payload = some_bytes(65_535);
        for (mcs, width, count) in [(0, 20, 20_166), (31, 40, 243)] {
            let s = settings(mcs, width, 65_535, 93);
            let frame = frame_labels(&s, &payload).unwrap();
            assert_eq!(frame.len(), count);
            let last = symbol_labels(&s, &payload, count as u64 - 1).unwrap();
            assert_eq!(last, frame[count - 1]);
            assert_eq!(symbol_labels(&s, &payload, count as u64), Err(7));
            let closed = Closed::of(s, &payload);
            for n in [0, 1, count / 2, count - 2, count - 1] {
                assert_eq!(own_labels(&s, &payload, n as u64).as_ref(), Ok(&frame[n]));
                for (i, stream) in frame[n].iter().enumerate() {
                    for (r, bit) in stream.iter().enumerate() {
                        assert_eq!(*bit, closed.label(n, i, r));
                    }
                }
            }
        }
    }

    #[test]
    fn each_carrier_has_its_next_b_bits() {
        let label_bits = [1, 2, 3, 4, 5, 6, 7, 8, 9, 10, 11, 12];
        assert_eq!(carrier_labels(&label_bits, 1)[..2], [[1], [2]]);
        assert_eq!(carrier_labels(&label_bits, 2)[..2], [[1, 2], [3, 4]]);
        let want = [[1, 2, 3, 4], [5, 6, 7, 8], [9, 10, 11, 12]];
        assert_eq!(carrier_labels(&label_bits, 4), want);
        let want = [[1, 2, 3, 4, 5, 6], [7, 8, 9, 10, 11, 12]];
        assert_eq!(carrier_labels(&label_bits, 6), want);
    }

    #[test]
    fn as_many_labels_as_data_carriers() {
        for width in [20, 40] {
            for mcs in 0..=31 {
                let s = settings(mcs, width, 3, 1);
                let b = bits_per_carrier(mcs);
                for stream in symbol_labels(&s, &[1, 2, 3], 0).unwrap() {
                    let labels = carrier_labels(&stream, b);
                    assert_eq!(labels.len() as u32, data_carriers(width));
                    assert!(labels.iter().all(|label| label.len() as u32 == b));
                    assert_eq!(labels.concat(), stream);
                }
            }
        }
    }

    #[test]
    fn any_numbers_end_without_a_panic() {
        assert_eq!(carrier_labels(&[1, 0, 1], 0), Vec::<Vec<u8>>::new());
        assert_eq!(carrier_labels(&[1, 0, 1], 2), [[1, 0]]);
        assert_eq!(carrier_labels(&[1, 0, 1], u32::MAX), Vec::<Vec<u8>>::new());
        assert_eq!(carrier_labels(&[], 1), Vec::<Vec<u8>>::new());
        assert_eq!(part(&[1, 0, 1], 2, 0), [1, 0]);
        assert_eq!(part(&[1, 0, 1], 2, 1), [1]);
        assert_eq!(part(&[1, 0, 1], 2, usize::MAX), []);
        let numbers = [0, 1, 20, 31, 40, 127, 65_535, 65_536, u32::MAX];
        for a in numbers {
            for b in numbers {
                for c in numbers {
                    let s = settings(a, b, c, a);
                    let _ = symbol_labels(&s, &[0; 40], u64::from(c));
                    let _ = own_labels(&s, &[0; 40], u64::from(c));
                    let _ = frame_labels(&s, &[0; 40]);
                }
            }
        }
    }
}
