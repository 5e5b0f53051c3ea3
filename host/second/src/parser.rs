//! Document 01, "From payload to points", step 4, and EWC 4.4.1: the stream
//! parser.
//!
//! The bits of one symbol are really dealt: s = max(1, B/2) bits to each stream
//! in turn; after each round of s·NSS bits the next encoder has its turn.

/// s = max(1, B/2), the bits on one axis of a point.
pub fn axis_bits(b: u32) -> u32 {
    if b / 2 > 1 {
        b / 2
    } else {
        1
    }
}

/// Deals one symbol's kept bits, `from[j]` those of encoder j, to `nss` streams.
///
/// EWC 4.4.1: consecutive blocks of s bits go to different streams in a round
/// robin fashion, and the output of each encoder is used alternately for each
/// round. Such a round takes s·NSS bits of its encoder (document 01, step 4).
///
/// Dealing ends when the encoder whose turn it is has no bit left; in a symbol
/// none is left over then. With no encoder nothing is dealt; with a number of
/// streams other than 1 to 4 there is nobody to deal to, and no stream is given.
pub fn deal<T: Copy>(from: &[Vec<T>], nss: u32, b: u32) -> Vec<Vec<T>> {
    let mut streams = Vec::new();
    if nss > 4 {
        return streams;
    }
    for _ in 0..nss {
        streams.push(Vec::new());
    }
    if nss == 0 || from.is_empty() {
        return streams;
    }

    // What each encoder has not given yet.
    let mut rest: Vec<_> = from.iter().map(|bits| bits.iter()).collect();
    'rounds: loop {
        for encoder in &mut rest {
            // One round, all from this encoder.
            for stream in &mut streams {
                for _ in 0..axis_bits(b) {
                    let Some(bit) = encoder.next() else {
                        break 'rounds;
                    };
                    stream.push(*bit);
                }
            }
        }
    }
    streams
}

#[cfg(test)]
mod tests {
    use super::*;
    use crate::rates::{bits_per_carrier, block, coded_bits_per_symbol, encoders, streams};

    /// The kept bits of a symbol, each named by its encoder and its number.
    fn named(width: u32, mcs: u32) -> Vec<Vec<(u32, u32)>> {
        let nes = encoders(mcs);
        let each = coded_bits_per_symbol(width, mcs) / nes;
        let mut from = Vec::new();
        for j in 0..nes {
            from.push((0..each).map(|i| (j, i)).collect());
        }
        from
    }

    fn dealt(width: u32, mcs: u32) -> Vec<Vec<(u32, u32)>> {
        deal(&named(width, mcs), streams(mcs), bits_per_carrier(mcs))
    }

    #[test]
    fn s_by_bits_per_carrier() {
        assert_eq!([1, 2, 4, 6].map(axis_bits), [1, 1, 2, 3]);
    }

    #[test]
    fn dealing_agrees_with_the_closed_formula() {
        // Document 01: bit k of stream i is bit
        // i·s + NSS·s·floor(k/(NES·s)) + k mod s of encoder floor(k/s) mod NES.
        for width in [20, 40] {
            for mcs in 0..=31 {
                let b = bits_per_carrier(mcs);
                let s = std::cmp::max(1, b / 2);
                let nss = streams(mcs);
                let nes = encoders(mcs);
                let got = dealt(width, mcs);
                assert_eq!(got.len() as u32, nss);
                for i in 0..nss {
                    let stream = &got[i as usize];
                    assert_eq!(stream.len() as u32, block(width, mcs));
                    for k in 0..block(width, mcs) {
                        let bit = i * s + nss * s * (k / (nes * s)) + k % s;
                        let encoder = (k / s) % nes;
                        assert_eq!(
                            stream[k as usize],
                            (encoder, bit),
                            "bit {k} of stream {i}, width {width}, MCS {mcs}"
                        );
                    }
                }
            }
        }
    }

    #[test]
    fn every_kept_bit_goes_to_exactly_one_place() {
        for width in [20, 40] {
            for mcs in 0..=31 {
                let mut got = dealt(width, mcs).concat();
                assert_eq!(got.len() as u32, coded_bits_per_symbol(width, mcs));
                got.sort();
                assert_eq!(got, named(width, mcs).concat());
            }
        }
    }

    #[test]
    fn one_stream_is_as_it_came() {
        for width in [20, 40] {
            for mcs in 0..8 {
                assert_eq!(dealt(width, mcs), named(width, mcs));
            }
        }
    }

    #[test]
    fn two_streams_by_hand() {
        let from = [vec![0, 1, 2, 3, 4, 5, 6, 7, 8, 9, 10, 11]];
        let want = [vec![0, 2, 4, 6, 8, 10], vec![1, 3, 5, 7, 9, 11]];
        assert_eq!(deal(&from, 2, 1), want);
        assert_eq!(deal(&from, 2, 2), want);
        // Pairs at 16-QAM, threes at 64-QAM.
        let want = [vec![0, 1, 4, 5, 8, 9], vec![2, 3, 6, 7, 10, 11]];
        assert_eq!(deal(&from, 2, 4), want);
        let want = [vec![0, 1, 2, 6, 7, 8], vec![3, 4, 5, 9, 10, 11]];
        assert_eq!(deal(&from, 2, 6), want);
    }

    #[test]
    fn two_encoders_by_hand() {
        // Bits of the second encoder are 100 and up.
        let from = [
            vec![0, 1, 2, 3, 4, 5, 6, 7, 8, 9, 10, 11],
            vec![100, 101, 102, 103, 104, 105, 106, 107, 108, 109, 110, 111],
        ];
        // Rounds of 3 bits.
        let want = [
            vec![0, 100, 3, 103, 6, 106, 9, 109],
            vec![1, 101, 4, 104, 7, 107, 10, 110],
            vec![2, 102, 5, 105, 8, 108, 11, 111],
        ];
        assert_eq!(deal(&from, 3, 2), want);
        // Rounds of 6 bits.
        let want = [
            vec![0, 1, 100, 101, 6, 7, 106, 107],
            vec![2, 3, 102, 103, 8, 9, 108, 109],
            vec![4, 5, 104, 105, 10, 11, 110, 111],
        ];
        assert_eq!(deal(&from, 3, 4), want);
        // One round of 12 bits each.
        let want = [
            vec![0, 1, 2, 100, 101, 102],
            vec![3, 4, 5, 103, 104, 105],
            vec![6, 7, 8, 106, 107, 108],
            vec![9, 10, 11, 109, 110, 111],
        ];
        assert_eq!(deal(&from, 4, 6), want);
    }

    #[test]
    fn a_symbol_is_a_whole_number_of_rounds_for_each_encoder() {
        for width in [20, 40] {
            for mcs in 0..=31 {
                let nes = encoders(mcs);
                let round = axis_bits(bits_per_carrier(mcs)) * streams(mcs);
                let coded = coded_bits_per_symbol(width, mcs);
                assert_eq!(coded % (nes * round), 0, "width {width}, MCS {mcs}");
            }
        }
    }

    #[test]
    fn any_numbers_end_without_a_panic() {
        let from = [vec![1, 2, 3], vec![4]];
        for nss in [0, 5, u32::MAX] {
            assert_eq!(deal(&from, nss, 1), Vec::<Vec<i32>>::new());
        }
        assert_eq!(deal::<u8>(&[], 2, 1), [vec![], vec![]]);
        assert_eq!(deal::<u8>(&[vec![]], 1, 1), [vec![]]);
        assert_eq!(deal(&from, 1, u32::MAX), [vec![1, 2, 3]]);
        assert_eq!(deal(&from, 1, 0), [vec![1, 4, 2]]);
        assert_eq!(axis_bits(0), 1);
        assert_eq!(axis_bits(u32::MAX), u32::MAX / 2);
    }
}
