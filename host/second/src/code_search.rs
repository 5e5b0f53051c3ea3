//! Document 01, refusal 10: the encoder inputs that give a symbol's label bits.
//!
//! "reader: no data bits give these coded bits after the earlier ones". Nothing
//! is inverted by a formula. The numbers of the coded bits are themselves dealt
//! and interleaved as steps 4 and 5 do it, so that each coded bit is taken from
//! the label place its number came to; then each encoder is led on by trying
//! both inputs at every step.

use crate::encoder::Encoder;
use crate::interleaver::place;
use crate::parser::deal;
use crate::puncture::{pattern, Kept};
use crate::rates::{bits_per_carrier, coded_bits_per_symbol, encoders, rate, streams};

/// The name of a coded bit inside its symbol: the encoder, and the number among
/// the kept bits of that encoder.
#[derive(Clone, Copy, Debug, PartialEq, Eq, PartialOrd, Ord)]
pub struct Name {
    pub encoder: usize,
    pub number: usize,
}

/// What the search found for one symbol.
#[derive(Clone, Debug, PartialEq, Eq)]
pub struct Found {
    /// The symbol's data bits as the encoders take them, in their order.
    pub bits: Vec<u8>,
    /// Each encoder after the symbol.
    pub after: Vec<Encoder>,
}

/// The data bits that give the label bits of a symbol, `labels[i]` those of
/// stream i, when encoder j starts the symbol as `before[j]`.
///
/// None where there are no such bits, in either encoder: that is refusal 10.
/// None also for a width or an MCS that has no symbol.
pub fn search(width: u32, mcs: u32, before: &[Encoder], labels: &[Vec<u8>]) -> Option<Found> {
    let kept = kept_bits(width, mcs, labels)?;
    let mut inputs = Vec::new();
    let mut after = Vec::new();
    for (number, kept) in kept.iter().enumerate() {
        let (found, encoder) = search_inputs(*before.get(number)?, rate(mcs), kept)?;
        inputs.push(found);
        after.push(encoder);
    }
    Some(Found {
        bits: in_turn(&inputs),
        after,
    })
}

/// Steps 4 and 5 run on names: for each stream and each label place, the name
/// of the coded bit that comes to stand there.
///
/// Nothing is given for a width or an MCS that has no symbol.
pub fn names_at_places(width: u32, mcs: u32) -> Vec<Vec<Option<Name>>> {
    let mut at_places = Vec::new();
    let b = bits_per_carrier(mcs);
    for (stream, dealt) in (0..).zip(deal(&names(width, mcs), streams(mcs), b)) {
        let mut at_place = vec![None; dealt.len()];
        for (k, name) in (0..).zip(dealt) {
            let there = place(width, b, stream, k).and_then(|r| at_place.get_mut(r as usize));
            if let Some(there) = there {
                *there = Some(name);
            }
        }
        at_places.push(at_place);
    }
    at_places
}

/// The kept bits of each encoder in one symbol: the bit of each name is the
/// label bit at the place where the name stands.
///
/// None where the labels are too few, and for a width or an MCS that has no
/// symbol. Every name stands at one place, so no bit stays unknown.
pub fn kept_bits(width: u32, mcs: u32, labels: &[Vec<u8>]) -> Option<Vec<Vec<u8>>> {
    let mut unknown = Vec::new();
    for of_encoder in names(width, mcs) {
        unknown.push(vec![None; of_encoder.len()]);
    }
    if unknown.is_empty() {
        return None;
    }
    for (at_place, label_bits) in names_at_places(width, mcs).iter().zip(labels) {
        for (name, bit) in at_place.iter().zip(label_bits) {
            let name = (*name)?;
            *unknown.get_mut(name.encoder)?.get_mut(name.number)? = Some(*bit);
        }
    }
    let mut kept = Vec::new();
    for of_encoder in unknown {
        let known: Option<Vec<u8>> = of_encoder.into_iter().collect();
        kept.push(known?);
    }
    Some(kept)
}

/// The inputs of one encoder that give its kept bits, and the encoder after
/// them. One bit stands in each byte, read by its remainder modulo 2.
///
/// The kept bits are taken pattern by pattern as printed, "rate 1/2 A0 B0; 2/3
/// A0 B0 A1; 3/4 A0 B0 A1 B2; 5/6 A0 B0 A1 B2 A3 B4"; at each step of a pattern
/// the inputs 0 and 1 are both tried, and an input survives that agrees with
/// every kept bit of the step.
///
/// At most one survives: x(t) stands once in the sum A and once in the sum B,
/// so the other input turns over both; and each step of each pattern has an A
/// or a B that is kept, with which then only one of the two inputs can agree.
/// So an input, once it is found, is the only one that the earlier bits leave,
/// and a step without any shows that no inputs whatever give the bits.
///
/// None then, and also for a rate that has no pattern and for kept bits that
/// are not whole patterns, which those of a symbol are.
pub fn search_inputs(before: Encoder, rate: (u32, u32), kept: &[u8]) -> Option<(Vec<u8>, Encoder)> {
    let (period, _) = rate;
    let pattern = pattern(rate);
    if pattern.is_empty() {
        return None;
    }
    let groups = kept.chunks_exact(pattern.len());
    if !groups.remainder().is_empty() {
        return None;
    }
    let mut encoder = before;
    let mut inputs = Vec::new();
    for group in groups {
        for step in 0..period {
            let mut survivors = Vec::new();
            for input in [0, 1] {
                let mut tried = encoder;
                let sums = tried.step(input);
                if agrees(&pattern, group, step, sums) {
                    survivors.push((input, tried));
                }
            }
            let [(input, after)] = survivors.as_slice() else {
                return None;
            };
            inputs.push(*input);
            encoder = *after;
        }
    }
    Some((inputs, encoder))
}

/// Whether the sums A and B of a step agree with every bit of the group that
/// the pattern keeps of that step.
fn agrees(pattern: &[Kept], group: &[u8], step: u32, sums: (u8, u8)) -> bool {
    let (a, b) = sums;
    for (entry, bit) in pattern.iter().zip(group) {
        let sum = match entry {
            Kept::A(of) if *of == step => a,
            Kept::B(of) if *of == step => b,
            _ => continue,
        };
        if sum % 2 != bit % 2 {
            return false;
        }
    }
    true
}

/// "Bit d goes to encoder d mod NES": the data bits, taken from the encoders in
/// turn until the one whose turn it is has no input left.
fn in_turn(inputs: &[Vec<u8>]) -> Vec<u8> {
    let mut bits = Vec::new();
    if inputs.is_empty() {
        return bits;
    }
    let mut rest: Vec<_> = inputs.iter().map(|of_encoder| of_encoder.iter()).collect();
    loop {
        for encoder in &mut rest {
            let Some(bit) = encoder.next() else {
                return bits;
            };
            bits.push(*bit);
        }
    }
}

/// The names of a symbol's coded bits, encoder by encoder; each encoder has its
/// share of them. None for a width or an MCS that has no symbol.
fn names(width: u32, mcs: u32) -> Vec<Vec<Name>> {
    let mut names = Vec::new();
    if (width != 20 && width != 40) || mcs > 31 {
        return names;
    }
    let nes = encoders(mcs) as usize;
    let share = coded_bits_per_symbol(width, mcs) as usize / nes;
    for encoder in 0..nes {
        let mut of_encoder = Vec::new();
        for number in 0..share {
            of_encoder.push(Name { encoder, number });
        }
        names.push(of_encoder);
    }
    names
}

#[cfg(test)]
mod tests {
    use super::*;
    use crate::chain::{coded_frame, frame_labels};
    use crate::data_bits::data_bits;
    use crate::encoder::{encode, encoder_inputs};
    use crate::puncture::puncture;
    use crate::rates::{block, data_bits_per_symbol};
    use crate::samples::{bits, settings};

    const RATES: [(u32, u32); 4] = [(1, 2), (2, 3), (3, 4), (5, 6)];

    fn some_bytes(count: u32) -> Vec<u8> {
        (0..count).map(|j| ((37 * j + 11) % 256) as u8).collect()
    }

    /// The encoder with these six earlier inputs, the newest in bit 0.
    fn encoder(history: u32) -> Encoder {
        let mut earlier = [0; 6];
        for (place, bit) in earlier.iter_mut().enumerate() {
            *bit = (history >> place & 1) as u8;
        }
        Encoder { earlier }
    }

    /// The kept bits of inputs, from some encoder.
    fn written(mut encoder: Encoder, rate: (u32, u32), inputs: &[u8]) -> Vec<u8> {
        let mut steps = Vec::new();
        for input in inputs {
            steps.push(encoder.step(*input));
        }
        puncture(&steps, rate)
    }

    /// All rows of `count` bits.
    fn all_rows(count: usize) -> Vec<Vec<u8>> {
        (0..1u32 << count)
            .map(|n| (0..count).map(|place| (n >> place & 1) as u8).collect())
            .collect()
    }

    #[test]
    fn p8_read_back() {
        let kept = bits("11 01 11 11 00 10 11");
        let (inputs, after) = search_inputs(Encoder::at_zero(), (1, 2), &kept).unwrap();
        assert_eq!(inputs, bits("1000000"));
        assert_eq!(after, Encoder::at_zero());
    }

    #[test]
    fn every_step_of_every_pattern_keeps_a_bit() {
        for rate in RATES {
            for step in 0..rate.0 {
                let kept = pattern(rate);
                assert!(kept.contains(&Kept::A(step)) || kept.contains(&Kept::B(step)));
            }
        }
    }

    #[test]
    fn the_other_input_turns_over_both_sums() {
        for history in 0..64 {
            let (a, b) = encoder(history).step(0);
            assert_eq!(encoder(history).step(1), (1 - a, 1 - b));
        }
    }

    #[test]
    fn inputs_are_found_exactly_where_some_give_the_bits() {
        // From every history, every row of kept bits of one or two patterns
        // against the list of all rows of inputs.
        for rate in RATES {
            let patterns = if rate.0 < 3 { 2 } else { 1 };
            for history in 0..64 {
                let mut list = Vec::new();
                for inputs in all_rows(patterns * rate.0 as usize) {
                    list.push((written(encoder(history), rate, &inputs), inputs));
                }
                for kept in all_rows(patterns * rate.1 as usize) {
                    let found = search_inputs(encoder(history), rate, &kept);
                    let mut giving = list.iter().filter(|(bits, _)| *bits == kept);
                    let want = giving.next().map(|(_, inputs)| {
                        let mut after = encoder(history);
                        for input in inputs {
                            after.step(*input);
                        }
                        (inputs.clone(), after)
                    });
                    assert_eq!(found, want);
                    assert_eq!(giving.next(), None);
                }
            }
        }
    }

    #[test]
    fn kept_bits_that_are_not_whole_patterns() {
        for rate in RATES {
            for count in 0..20u32 {
                let found = search_inputs(Encoder::at_zero(), rate, &vec![0; count as usize]);
                let whole = count % rate.1 == 0;
                let inputs = vec![0; (count / rate.1 * rate.0) as usize];
                assert_eq!(found, whole.then_some((inputs, Encoder::at_zero())));
            }
        }
    }

    #[test]
    fn bytes_count_by_their_remainder() {
        let kept = [255, 3, 2, 1, 7, 1, 1, 1, 4, 254, 9, 0, 1, 1];
        let found = search_inputs(Encoder { earlier: [254; 6] }, (1, 2), &kept);
        assert_eq!(found.map(|(inputs, _)| inputs), Some(bits("1000000")));
    }

    #[test]
    fn every_name_stands_at_one_place() {
        for width in [20, 40] {
            for mcs in 0..=31 {
                let at_places = names_at_places(width, mcs);
                assert_eq!(at_places.len() as u32, streams(mcs));
                for at_place in &at_places {
                    assert_eq!(at_place.len() as u32, block(width, mcs));
                }
                let mut all: Vec<Name> = at_places.concat().into_iter().flatten().collect();
                all.sort();
                assert_eq!(all, names(width, mcs).concat());
                assert_eq!(all.len() as u32, coded_bits_per_symbol(width, mcs));
            }
        }
    }

    #[test]
    fn names_by_hand() {
        let name = |encoder, number| Some(Name { encoder, number });
        // P9: bit 0 of stream 0 to 0, 1 to 30, 2 to 41, 3 to 19; with one
        // stream it is coded bit 0; with four, streams have it in turn.
        assert_eq!(names_at_places(20, 0)[0][0], name(0, 0));
        let four = names_at_places(20, 24);
        let got = [four[0][0], four[1][30], four[2][41], four[3][19]];
        assert_eq!(got, [name(0, 0), name(0, 1), name(0, 2), name(0, 3)]);
        // P10: bit 1 to 17, bit 13 to 1.
        let one = &names_at_places(20, 3)[0];
        assert_eq!([one[17], one[1]], [name(0, 1), name(0, 13)]);
        // P11, with three streams and s = 3: bit 1 to 38, and bit 3 is the
        // first of encoder 1; 40 MHz has 36 rows, so it comes to column 3.
        let three = &names_at_places(40, 23)[0];
        assert_eq!(three[38], name(0, 1));
        assert_eq!(three[108], name(1, 0));
    }

    #[test]
    fn whole_frames_are_searched_back() {
        let payload = some_bytes(333);
        for width in [20, 40] {
            for mcs in 0..=31 {
                let s = settings(mcs, width, 333, 77);
                let nes = encoders(mcs);
                let data = data_bits(&s, &payload).unwrap();
                let coded = coded_frame(&s, &payload).unwrap();
                let mut before = vec![Encoder::at_zero(); nes as usize];
                let d = data_bits_per_symbol(width, mcs) as usize;
                for (n, labels) in frame_labels(&s, &payload).unwrap().iter().enumerate() {
                    let share = (coded_bits_per_symbol(width, mcs) / nes) as usize;
                    for (j, kept) in kept_bits(width, mcs, labels).unwrap().iter().enumerate() {
                        assert_eq!(*kept, coded[j][n * share..(n + 1) * share]);
                    }
                    let found = search(width, mcs, &before, labels).unwrap();
                    assert_eq!(found.bits, data[n * d..(n + 1) * d]);
                    assert_eq!(found.after.len() as u32, nes);
                    before = found.after;
                }
                for (j, encoder) in (0..).zip(before) {
                    let mut inputs = encoder_inputs(&data, nes, j);
                    inputs.reverse();
                    assert_eq!(encoder.earlier, inputs[..6]);
                }
            }
        }
    }

    #[test]
    fn one_wrong_bit_at_rate_1_2_is_always_seen() {
        let inputs = bits("0110100111010001010111");
        let mut kept: Vec<u8> = Vec::new();
        for (a, b) in encode(&inputs) {
            kept.extend([a, b]);
        }
        for place in 0..kept.len() {
            let mut wrong = kept.clone();
            wrong[place] ^= 1;
            assert_eq!(search_inputs(Encoder::at_zero(), (1, 2), &wrong), None);
        }
    }

    #[test]
    fn data_bits_from_the_encoders_in_turn() {
        assert_eq!(in_turn(&[vec![1, 2, 3]]), [1, 2, 3]);
        let two = [vec![1, 2, 3], vec![11, 12, 13]];
        assert_eq!(in_turn(&two), [1, 11, 2, 12, 3, 13]);
        assert_eq!(in_turn(&[vec![1, 2, 3], vec![11]]), [1, 11, 2]);
        assert_eq!(in_turn(&[]), []);
        assert_eq!(in_turn(&[vec![], vec![1]]), []);
    }

    #[test]
    fn any_numbers_end_without_a_panic() {
        for (width, mcs) in [(21, 0), (20, 32), (0, 0), (40, u32::MAX), (u32::MAX, 31)] {
            assert_eq!(names(width, mcs), Vec::<Vec<Name>>::new());
            assert_eq!(kept_bits(width, mcs, &[vec![0; 5_000]]), None);
            let at_zero = [Encoder::at_zero(); 2];
            assert_eq!(search(width, mcs, &at_zero, &[vec![0; 5_000]]), None);
            assert!(names_at_places(width, mcs).concat().is_empty());
        }
        for rate in [(0, 0), (1, 1), (7, 8), (u32::MAX, u32::MAX)] {
            assert_eq!(search_inputs(Encoder::at_zero(), rate, &[0; 24]), None);
            assert_eq!(search_inputs(Encoder::at_zero(), rate, &[]), None);
        }
        // Too few labels or encoders; more are not looked at.
        let blocks = vec![vec![0; 52]; 3];
        let at_zero = [Encoder::at_zero(); 3];
        assert_eq!(kept_bits(20, 0, &[]), None);
        assert_eq!(kept_bits(20, 0, &[vec![0; 51]]), None);
        assert_eq!(kept_bits(20, 8, &blocks[..1]), None);
        assert_eq!(search(20, 0, &[], &blocks[..1]), None);
        assert_eq!(search(20, 16, &at_zero[..1], &blocks), None);
        let found = search(20, 16, &at_zero, &vec![vec![0; 60]; 5]).unwrap();
        assert_eq!(found.bits, [0; 78]);
        assert_eq!(found.after.len(), 2);
    }
}
