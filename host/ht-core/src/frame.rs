//! A frame written: its symbols, their points, and what one subcarrier carries.

use crate::numbers::answer;
use crate::{ffi, raw, Refusal, Settings};

/// The most floats that one symbol has: four streams at 40 MHz.
pub const MAX_FLOATS: usize = ht_core_sys::HT_MAX_FLOATS;

/// What one subcarrier of one stream carries in a data symbol, before the upper half of a 40 MHz channel is turned (before
/// step 8).
#[derive(Clone, Copy, Debug, PartialEq)]
#[non_exhaustive]
pub enum Carrier {
    /// The subcarrier is not used.
    Silent,
    /// The pilot's sign, polarity included: 1 or -1.
    Pilot(f32),
    /// A data point.
    Data {
        /// The point's first level.
        first: f32,
        /// The point's second level.
        second: f32,
    },
}

/// The number of data symbols.
///
/// # Errors
///
/// 1 to 5.
///
/// # Panics
///
/// Where [`check_library`](crate::check_library) gives an error.
pub fn symbol_count(settings: Settings) -> Result<u32, Refusal> {
    let count = answer(ffi::symbol_count(&settings))?;
    Ok(u32::try_from(count).expect("a symbol's number is a 32-bit number"))
}

/// The floats that [`points`] writes for each symbol, [`MAX_FLOATS`] at most.
///
/// # Errors
///
/// 1 to 5.
///
/// # Panics
///
/// Where [`check_library`](crate::check_library) gives an error.
pub fn floats_per_symbol(settings: Settings) -> Result<usize, Refusal> {
    symbol_count(settings)?;
    // The core is asked with a shorter payload, which changes the symbols and not their size.
    points(settings.length(1), &[0], 0, &mut [0.0; MAX_FLOATS])
}

/// The floats of all symbols of a frame, which [`write_frame`] writes.
///
/// # Errors
///
/// 1 to 5.
///
/// # Panics
///
/// Where [`check_library`](crate::check_library) gives an error.
pub fn floats_per_frame(settings: Settings) -> Result<usize, Refusal> {
    Ok(floats_per_symbol(settings)? * symbol_count(settings)? as usize)
}

/// Writes the points of one data symbol at the start of `out`, and gives the number of floats written; the rest stays.
/// Symbols may be asked for in any order.
///
/// Points stand stream by stream, subcarriers rising, first level then second. Each float is a whole number, its zero has a
/// clear sign bit, and no modulation scale is applied.
///
/// # Errors
///
/// 1 to 5, then 6 (payload shorter than the length), 7 (no such symbol), 8 (`out` too short).
///
/// # Panics
///
/// Where [`check_library`](crate::check_library) gives an error.
///
/// ```
/// use ht_core::{floats_per_symbol, points, symbol_count, Refusal, Settings, Width};
///
/// let s = Settings::new(Width::Mhz20, 0, 1, 93);
/// let payload = [0x5A];
/// let mut out = vec![0.0; floats_per_symbol(s)?];
/// for symbol in 0..symbol_count(s)? {
///     assert_eq!(points(s, &payload, symbol, &mut out), Ok(112));
///     // .. play `out`: 56 points of two levels
/// }
/// // The pilots of symbol 1 are the first levels of the slots 7, 21, 34 and 48.
/// assert_eq!([7, 21, 34, 48].map(|slot| out[2 * slot]), [-1.0, -1.0, 1.0, -1.0]);
/// assert_eq!(points(s, &payload, 2, &mut out), Err(Refusal::Place));
/// assert_eq!(points(s, &payload, 0, &mut out[..111]), Err(Refusal::Room));
/// # Ok::<(), Refusal>(())
/// ```
pub fn points(
    settings: Settings,
    payload: &[u8],
    symbol: u32,
    out: &mut [f32],
) -> Result<usize, Refusal> {
    let written = answer(ffi::points(&settings, payload, symbol, out))?;
    Ok(usize::try_from(written).expect("the core writes no more floats than it is lent"))
}

/// Writes the points of all symbols at the start of `out`, one symbol after the other, each as [`points`] writes it, and
/// gives the number of floats written; the rest stays. [`read_frame`](crate::read_frame()) reads them back.
///
/// # Errors
///
/// 1 to 5, then 6 (payload shorter than the length), then 8 (`out` shorter than [`floats_per_frame`]). Nothing is written
/// then.
///
/// # Panics
///
/// Where [`check_library`](crate::check_library) gives an error.
///
/// ```
/// use ht_core::{floats_per_frame, write_frame, Refusal, Settings, Width};
///
/// let s = Settings::new(Width::Mhz20, 0, 11, 93);
/// let mut frame = vec![0.0; floats_per_frame(s)?];
/// assert_eq!(write_frame(s, b"hello bench", &mut frame), Ok(5 * 112));
/// assert_eq!(write_frame(s, b"hello", &mut frame), Err(Refusal::Source));
/// assert_eq!(write_frame(s, b"hello bench", &mut frame[1..]), Err(Refusal::Room));
/// # Ok::<(), Refusal>(())
/// ```
pub fn write_frame(settings: Settings, payload: &[u8], out: &mut [f32]) -> Result<usize, Refusal> {
    let first = FirstSymbol::new(settings, payload)?;
    let frame = out.get_mut(..first.of_frame).ok_or(Refusal::Room)?;
    first.write(settings, payload, frame);
    Ok(first.of_frame)
}

/// The points of all symbols, as [`write_frame`] writes them.
///
/// # Errors
///
/// 1 to 5, then 6 (payload shorter than the length).
///
/// # Panics
///
/// Where [`check_library`](crate::check_library) gives an error.
pub fn frame_points(settings: Settings, payload: &[u8]) -> Result<Vec<f32>, Refusal> {
    let first = FirstSymbol::new(settings, payload)?;
    let mut frame = vec![0.0; first.of_frame];
    first.write(settings, payload, &mut frame);
    Ok(frame)
}

/// Symbol 0 of a frame, in floats of its own: the core has judged settings and payload, and said how long a symbol is,
/// before anything is written for the caller.
struct FirstSymbol {
    floats: [f32; MAX_FLOATS],
    of_symbol: usize,
    of_frame: usize,
}

impl FirstSymbol {
    fn new(settings: Settings, payload: &[u8]) -> Result<FirstSymbol, Refusal> {
        let mut floats = [0.0; MAX_FLOATS];
        let of_symbol = points(settings, payload, 0, &mut floats)?;
        Ok(FirstSymbol {
            floats,
            of_symbol,
            of_frame: of_symbol * symbol_count(settings)? as usize,
        })
    }

    /// Writes it and the symbols after it; the slice is as long as the frame.
    fn write(&self, settings: Settings, payload: &[u8], frame: &mut [f32]) {
        let (first, rest) = frame.split_at_mut(self.of_symbol);
        first.copy_from_slice(&self.floats[..self.of_symbol]);
        for (symbol, floats) in (1..).zip(rest.chunks_exact_mut(self.of_symbol)) {
            points(settings, payload, symbol, floats).expect("the frame has this symbol");
        }
    }
}

/// What one subcarrier carries. Subcarriers are -32 to 31 at 20 MHz and -64 to 63 at 40; the unused ones are silent.
///
/// # Errors
///
/// 1 to 5, then 6 (payload shorter than the length), 7 (no such symbol, stream or subcarrier).
///
/// # Panics
///
/// Where [`check_library`](crate::check_library) gives an error.
///
/// ```
/// use ht_core::{carrier, Carrier, Refusal, Settings, Width};
///
/// let s = Settings::new(Width::Mhz20, 0, 1, 127);
/// assert_eq!(carrier(s, &[0x00], 0, 0, -29), Ok(Carrier::Silent));
/// assert_eq!(carrier(s, &[0x00], 0, 0, -28), Ok(Carrier::Data { first: -1.0, second: 0.0 }));
/// assert_eq!(carrier(s, &[0x00], 0, 0, 21), Ok(Carrier::Pilot(-1.0)));
/// assert_eq!(carrier(s, &[0x00], 0, 0, 32), Err(Refusal::Place));
/// ```
pub fn carrier(
    settings: Settings,
    payload: &[u8],
    symbol: u32,
    stream: u32,
    subcarrier: i32,
) -> Result<Carrier, Refusal> {
    raw::carrier(settings, payload, symbol, stream, subcarrier, &mut [0.0; 2])
}
