//! Document 01, "From payload to points", step 5, and EWC 4.4.2: the
//! interleaver, by its three permutations forwards.
//!
//! Columns 13, rows 4B, rotation 11 at 20 MHz; columns 18, rows 6B, rotation 29
//! at 40. Streams count from 0. Rotation is subtracted times B, modulo the
//! block.

use crate::parser::axis_bits;

/// Columns: 13 at 20 MHz, 18 at 40; another width has none.
pub fn columns(width: u32) -> u32 {
    match width {
        20 => 13,
        40 => 18,
        _ => 0,
    }
}

/// Rows: 4B at 20 MHz, 6B at 40; another width has none. A product beyond
/// `u32` is given as `u32::MAX`.
pub fn rows(width: u32, b: u32) -> u32 {
    match width {
        20 => b.saturating_mul(4),
        40 => b.saturating_mul(6),
        _ => 0,
    }
}

/// Rotation: 11 at 20 MHz, 29 at 40; another width has none.
pub fn rotation(width: u32) -> u32 {
    match width {
        20 => 11,
        40 => 29,
        _ => 0,
    }
}

/// How often a stream is rotated: (2·i mod 3) + 3·floor(i/3).
pub fn rotation_factor(stream: u32) -> u64 {
    let i = u64::from(stream);
    (i * 2) % 3 + 3 * (i / 3)
}

/// The label place of bit k of a stream's block: the three permutations, one
/// after the other.
///
/// None for a width other than 20 and 40, a B other than 1, 2, 4, 6, a stream
/// over 3 or a bit not in the block.
pub fn place(width: u32, b: u32, stream: u32, k: u32) -> Option<u32> {
    let shape = shape(width, b)?;
    if stream > 3 || i64::from(k) >= shape.block {
        return None;
    }
    let i = first(&shape, i64::from(k));
    let j = second(&shape, i);
    let r = third(&shape, stream, j);
    u32::try_from(r).ok()
}

/// One stream's block interleaved: bit k is written at its place.
///
/// Nothing is given where the bits are not one block, or `place` has no answer.
pub fn interleave(width: u32, b: u32, stream: u32, bits: &[u8]) -> Vec<u8> {
    let Some(shape) = shape(width, b) else {
        return Vec::new();
    };
    if stream > 3 || bits.len() as i64 != shape.block {
        return Vec::new();
    }
    let mut label = vec![0; bits.len()];
    for (k, bit) in (0..).zip(bits) {
        let Some(r) = place(width, b, stream, k) else {
            return Vec::new();
        };
        let Some(there) = label.get_mut(r as usize) else {
            return Vec::new();
        };
        *there = *bit;
    }
    label
}

/// The numbers of one block, signed, so that the rotation can be subtracted.
struct Shape {
    columns: i64,
    rows: i64,
    rotation: i64,
    b: i64,
    s: i64,
    block: i64,
}

/// The shape for width 20 or 40 and B = 1, 2, 4 or 6; no other has one.
fn shape(width: u32, b: u32) -> Option<Shape> {
    if width != 20 && width != 40 {
        return None;
    }
    if b != 1 && b != 2 && b != 4 && b != 6 {
        return None;
    }
    let columns = i64::from(columns(width));
    let rows = i64::from(rows(width, b));
    Some(Shape {
        columns,
        rows,
        rotation: i64::from(rotation(width)),
        b: i64::from(b),
        s: i64::from(axis_bits(b)),
        block: columns * rows,
    })
}

/// The first permutation: i = rows·(k mod columns) + floor(k/columns).
fn first(shape: &Shape, k: i64) -> i64 {
    shape.rows * (k % shape.columns) + k / shape.columns
}

/// The second permutation:
/// j = s·floor(i/s) + (i + block - floor(columns·i/block)) mod s.
fn second(shape: &Shape, i: i64) -> i64 {
    let column = shape.columns * i / shape.block;
    shape.s * (i / shape.s) + (i + shape.block - column) % shape.s
}

/// The frequency rotation:
/// r = (j - ((2·stream mod 3) + 3·floor(stream/3))·rotation·B) mod block.
fn third(shape: &Shape, stream: u32, j: i64) -> i64 {
    let factor = rotation_factor(stream) as i64;
    (j - factor * shape.rotation * shape.b).rem_euclid(shape.block)
}

#[cfg(test)]
mod tests {
    use super::*;
    use crate::rates::{bits_per_carrier, block, streams};

    #[test]
    fn p9_20_mhz_b1_bit_0() {
        assert_eq!(place(20, 1, 0, 0), Some(0));
        assert_eq!(place(20, 1, 1, 0), Some(30));
        assert_eq!(place(20, 1, 2, 0), Some(41));
        assert_eq!(place(20, 1, 3, 0), Some(19));
    }

    #[test]
    fn p10_20_mhz_b4_stream_0() {
        assert_eq!(place(20, 4, 0, 1), Some(17));
        assert_eq!(place(20, 4, 0, 13), Some(1));
    }

    #[test]
    fn p11_40_mhz_b6_stream_0() {
        assert_eq!(place(40, 6, 0, 1), Some(38));
    }

    #[test]
    fn the_block_is_columns_times_rows() {
        for width in [20, 40] {
            for mcs in 0..=31 {
                let b = bits_per_carrier(mcs);
                assert_eq!(columns(width) * rows(width, b), block(width, mcs));
            }
        }
    }

    #[test]
    fn bits_go_to_exactly_one_place_each() {
        for width in [20, 40] {
            for mcs in 0..=31 {
                let b = bits_per_carrier(mcs);
                for stream in 0..streams(mcs) {
                    let mut places = Vec::new();
                    for k in 0..block(width, mcs) {
                        places.push(place(width, b, stream, k).unwrap());
                    }
                    places.sort();
                    let all: Vec<u32> = (0..block(width, mcs)).collect();
                    assert_eq!(places, all, "width {width}, MCS {mcs}, stream {stream}");
                }
            }
        }
    }

    #[test]
    fn each_permutation_alone_is_one_to_one() {
        for width in [20, 40] {
            for b in [1, 2, 4, 6] {
                let shape = shape(width, b).unwrap();
                let all: Vec<i64> = (0..shape.block).collect();
                let sorted = |mut places: Vec<i64>| {
                    places.sort();
                    places
                };
                let places = all.iter().map(|k| first(&shape, *k)).collect();
                assert_eq!(sorted(places), all);
                let places = all.iter().map(|i| second(&shape, *i)).collect();
                assert_eq!(sorted(places), all);
                for stream in 0..4 {
                    let places = all.iter().map(|j| third(&shape, stream, *j)).collect();
                    assert_eq!(sorted(places), all);
                }
            }
        }
    }

    #[test]
    fn written_in_rows_and_read_in_columns() {
        // For B = 1 and 2 the second permutation moves nothing.
        for width in [20, 40] {
            for b in [1, 2] {
                let columns = columns(width) as usize;
                let rows = rows(width, b) as usize;
                let bits: Vec<u8> = (0..columns * rows).map(|k| k as u8).collect();
                let mut read = Vec::new();
                for column in 0..columns {
                    for row in 0..rows {
                        read.push(bits[columns * row + column]);
                    }
                }
                assert_eq!(interleave(width, b, 0, &bits), read);
            }
        }
    }

    #[test]
    fn second_permutation_by_hand() {
        // 20 MHz, B = 4: 16 rows, s = 2. In column 0 all stays, in column 1
        // the two of each pair change places, in column 2 all stays.
        let shape = shape(20, 4).unwrap();
        let got: Vec<i64> = (0..36).map(|i| second(&shape, i)).collect();
        let mut want: Vec<i64> = (0..16).collect();
        want.extend([
            17, 16, 19, 18, 21, 20, 23, 22, 25, 24, 27, 26, 29, 28, 31, 30,
        ]);
        want.extend([32, 33, 34, 35]);
        assert_eq!(got, want);
    }

    #[test]
    fn second_permutation_of_threes_by_hand() {
        // 40 MHz, B = 6: 36 rows, s = 3. In each column the threes are turned
        // round by one place more than in the column before.
        let shape = shape(40, 6).unwrap();
        let of = |i: i64| {
            [
                second(&shape, i),
                second(&shape, i + 1),
                second(&shape, i + 2),
            ]
        };
        assert_eq!(of(0), [0, 1, 2]);
        assert_eq!(of(33), [33, 34, 35]);
        assert_eq!(of(36), [38, 36, 37]);
        assert_eq!(of(69), [71, 69, 70]);
        assert_eq!(of(72), [73, 74, 72]);
        assert_eq!(of(108), [108, 109, 110]);
        // The block's last three, in column 17.
        assert_eq!(of(645), [646, 647, 645]);
    }

    #[test]
    fn d6_factors_by_stream() {
        assert_eq!([0, 1, 2, 3].map(rotation_factor), [0, 2, 1, 3]);
    }

    #[test]
    fn d7_the_column_is_the_quotient_by_rows() {
        for width in [20, 40] {
            for b in [1, 2, 4, 6] {
                let shape = shape(width, b).unwrap();
                for i in 0..shape.block {
                    assert_eq!(shape.columns * i / shape.block, i / shape.rows);
                }
            }
        }
    }

    #[test]
    fn rotation_is_subtracted_times_b() {
        // Place of stream i, and i's factor times rotation times B further, is
        // the place of stream 0.
        for (width, block_of_1, turn) in [(20, 52, 11), (40, 108, 29)] {
            for b in [1, 2, 4, 6] {
                let block = block_of_1 * b;
                for (stream, factor) in [(0, 0), (1, 2), (2, 1), (3, 3)] {
                    for k in 0..block {
                        let r = place(width, b, stream, k).unwrap();
                        let j = place(width, b, 0, k).unwrap();
                        assert_eq!((r + factor * turn * b) % block, j);
                    }
                }
            }
        }
        // 40 MHz, B = 6, bit 0: 648 less 2, 1 and 3 times 174.
        assert_eq!(place(40, 6, 0, 0), Some(0));
        assert_eq!(place(40, 6, 1, 0), Some(300));
        assert_eq!(place(40, 6, 2, 0), Some(474));
        assert_eq!(place(40, 6, 3, 0), Some(126));
    }

    #[test]
    fn the_printed_inverse_with_its_bracket_put_right() {
        // EWC 4.4.2: j = (r + factor·rotation·B) mod block, then
        // i = s·floor(j/s) + (j + floor(columns·j/block)) mod s, then
        // k = columns·i - (block - 1)·floor(i/rows).
        for width in [20, 40] {
            for b in [1, 2, 4, 6] {
                let columns = if width == 20 { 13 } else { 18 };
                let rows = if width == 20 { 4 * b } else { 6 * b };
                let rotation = if width == 20 { 11 } else { 29 };
                let s = std::cmp::max(1, b / 2);
                let block = columns * rows;
                for stream in 0..4 {
                    let factor = (stream * 2) % 3 + 3 * (stream / 3);
                    for r in 0..block {
                        let j = (r + factor * rotation * b) % block;
                        let i = s * (j / s) + (j + columns * j / block) % s;
                        let k = columns * i - (block - 1) * (i / rows);
                        assert_eq!(place(width, b, stream, k), Some(r));
                    }
                }
            }
        }
    }

    #[test]
    fn interleaving_writes_bit_k_at_its_place() {
        for width in [20, 40] {
            for mcs in 0..=31 {
                let b = bits_per_carrier(mcs);
                let block = block(width, mcs);
                for stream in 0..streams(mcs) {
                    let bits: Vec<u8> = (0..block).map(|k| (k * k % 253) as u8).collect();
                    let label = interleave(width, b, stream, &bits);
                    assert_eq!(label.len() as u32, block);
                    for k in 0..block {
                        let r = place(width, b, stream, k).unwrap();
                        assert_eq!(label[r as usize], bits[k as usize]);
                    }
                }
            }
        }
    }

    #[test]
    fn one_bit_moves_to_one_place() {
        // P9 and P10 once more, by writing.
        for (stream, want) in [(0, 0), (1, 30), (2, 41), (3, 19)] {
            let mut bits = vec![0; 52];
            bits[0] = 1;
            let label = interleave(20, 1, stream, &bits);
            let ones: Vec<usize> = (0..52).filter(|r| label[*r] == 1).collect();
            assert_eq!(ones, [want]);
        }
        let mut bits = vec![0; 208];
        bits[1] = 1;
        bits[13] = 1;
        let label = interleave(20, 4, 0, &bits);
        let ones: Vec<usize> = (0..208).filter(|r| label[*r] == 1).collect();
        assert_eq!(ones, [1, 17]);
    }

    #[test]
    fn any_numbers_end_without_a_panic() {
        let numbers = [0, 1, 3, 4, 5, 7, 19, 21, 41, 52, u32::MAX - 1, u32::MAX];
        for a in numbers {
            for b in numbers {
                let _ = (
                    columns(a),
                    rows(20, a),
                    rows(40, a),
                    rows(a, b),
                    rotation(a),
                );
                // No such width, no such B, no such stream, no such bit.
                assert_eq!(place(a, 1, 0, 0), None);
                if b != 1 && b != 4 {
                    assert_eq!(place(20, b, 0, 0), None);
                }
                if a > 3 {
                    assert_eq!(place(20, 1, a, 0), None);
                    assert_eq!(interleave(20, 1, a, &[0; 52]), []);
                }
                if b >= 52 {
                    assert_eq!(place(20, 1, 0, b), None);
                }
                assert_eq!(interleave(a, b, 0, &[0; 52]), []);
            }
            let _ = rotation_factor(a);
        }
        assert_eq!(place(20, 1, 0, 51), Some(51));
        // j = 645 + (647 + 648 - 17) mod 3 = 645, less 3 times 174.
        assert_eq!(place(40, 6, 3, 647), Some(123));
        assert_eq!(place(40, 6, 3, 648), None);
        assert_eq!(interleave(20, 1, 0, &[0; 51]), []);
        assert_eq!(interleave(20, 1, 0, &[0; 53]), []);
        assert_eq!(interleave(20, 1, 0, &[1; 52]), [1; 52]);
    }
}
