//! Document 01, the strict reader over a whole frame whose points stand in one
//! slice.
//!
//! The points stand symbol by symbol, each symbol "stream by stream,
//! subcarriers rising, first level then second"; symbol n starts at float n ×
//! floats per symbol. Each symbol is judged by the reader's step, which takes
//! the state that the step before it returned.

use crate::points::floats_per_symbol;
use crate::rates::symbol_count;
use crate::reader::{reader_start, reader_step, with_some_seed, Answer, OpenSettings};
use crate::refusal;

/// What the reading of a whole frame answers. Symbols are numbered from 0.
#[derive(Clone, Copy, Debug, PartialEq, Eq)]
pub enum FrameAnswer {
    /// Every symbol is accepted: the seed. The payload is written.
    Accepted { seed: u32 },
    /// Refusal 9, with the symbol and the place of its first failing point.
    Point {
        symbol: u64,
        stream: u32,
        subcarrier: i32,
    },
    /// Refusal 10 or 11, with the symbol.
    Symbol { number: u32, symbol: u64 },
    /// Refusal 1 to 4 or 8: no symbol was looked at.
    Refused(u32),
}

/// Reads a whole frame: gives the seed, and writes the payload to the first
/// `length` bytes of its slice.
///
/// Refusals 1 to 4, then 8 where the points are fewer than those of all symbols
/// together or the payload slice is shorter than `length`; then the symbols in
/// order, each with 9, 10, 11, and the first refused symbol ends it. 5 and 12
/// cannot arise. A refusal writes nothing. Floats and bytes past the needed part
/// are not looked at and stay.
pub fn read_frame(s: &OpenSettings, points: &[f32], payload: &mut [u8]) -> FrameAnswer {
    // 1 to 4.
    let mut state = match reader_start(s) {
        Ok(state) => state,
        Err(number) => return FrameAnswer::Refused(number),
    };
    let count = match symbol_count(&with_some_seed(s)) {
        Ok(count) => count as usize,
        Err(number) => return FrameAnswer::Refused(number),
    };

    // 8, for both slices before any symbol.
    let per_symbol = floats_per_symbol(s.width, s.mcs) as usize;
    let Some(points) = points.get(..count * per_symbol) else {
        return FrameAnswer::Refused(refusal::ROOM);
    };
    let Some(payload) = payload.get_mut(..s.length as usize) else {
        return FrameAnswer::Refused(refusal::ROOM);
    };

    // 9, 10, 11, symbol by symbol. The steps write to bytes of their own, so
    // that a refusal leaves the payload slice as it was.
    let mut read = vec![0; s.length as usize];
    let mut frame_seed = 0;
    for (symbol, floats) in (0..).zip(points.chunks_exact(per_symbol)) {
        let (answer, after) = reader_step(s, &state, floats, &mut read);
        match answer {
            Answer::Accepted { seed } => {
                // "the seed is in the answer to symbol 0".
                if symbol == 0 {
                    frame_seed = seed;
                }
            }
            Answer::Point { stream, subcarrier } => {
                return FrameAnswer::Point {
                    symbol,
                    stream,
                    subcarrier,
                };
            }
            Answer::Refused(number) => return FrameAnswer::Symbol { number, symbol },
        }
        state = after;
    }

    // Accepted: now the payload is written.
    payload.copy_from_slice(&read);
    FrameAnswer::Accepted { seed: frame_seed }
}

#[cfg(test)]
mod tests;
