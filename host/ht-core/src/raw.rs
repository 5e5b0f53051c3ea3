//! The calls as they are, for any numbers: what comes back is what the C call gives, with its number taken apart.
//!
//! [`Reader`](crate::Reader) keeps a state for its caller; here it is a number, which may be any.

use crate::numbers::{self, answer};
use crate::{ffi, Carrier, OpenSettings, Refusal, Settings};

/// Writes the six HT-SIG bytes at the start of `out`; the rest stays. [`sig_bytes`](crate::sig_bytes) has an array.
///
/// # Errors
///
/// 1 to 5, then 8 (`out` has fewer than six bytes).
///
/// # Panics
///
/// Where [`check_library`](crate::check_library) gives an error.
pub fn sig_write(settings: Settings, out: &mut [u8]) -> Result<(), Refusal> {
    answer(ffi::sig_write(&settings, out)).map(|_| ())
}

/// [`carrier`](crate::carrier()) with the floats where the C call leaves them: a pilot's sign in `out[0]`, a data point in
/// `out[0]` and `out[1]`; the rest stays.
///
/// # Errors
///
/// As there, then 8 for fewer than two floats of room, whatever the answer would be.
///
/// # Panics
///
/// Where [`check_library`](crate::check_library) gives an error.
pub fn carrier(
    settings: Settings,
    payload: &[u8],
    symbol: u32,
    stream: u32,
    subcarrier: i32,
    out: &mut [f32],
) -> Result<Carrier, Refusal> {
    let result = ffi::carrier(&settings, payload, symbol, stream, subcarrier, out);
    Ok(numbers::carrier(answer(result)?, out))
}

/// What [`reader_step`] gives.
#[derive(Clone, Copy, Debug, PartialEq, Eq, Hash)]
#[non_exhaustive]
pub struct StepResult {
    /// 0 where the symbol was accepted, else the refusal's: 12, 8, 9, 10 or 11.
    pub number: u32,
    /// The seed where symbol 0 was accepted, else 0.
    pub seed: u32,
    /// The state after the step.
    pub state: u64,
}

/// The state before symbol 0. What the bits of a state hold is said in `docs/C-API.md`.
///
/// # Errors
///
/// 1 to 4.
///
/// # Panics
///
/// Where [`check_library`](crate::check_library) gives an error.
pub fn reader_start(open: impl Into<OpenSettings>) -> Result<u64, Refusal> {
    answer(ffi::reader_start(&open.into()))
}

/// Reads one symbol from a state. Its refusal is in the result's number, and tested in this order: 12 (the state is
/// finished, ended or out of range, or the settings are refused), 8 (`points` has fewer floats than a symbol, or `payload`
/// fewer bytes than the length), 9, 10, 11.
///
/// An accepted symbol writes the payload bytes that it completes, each at its own index, and gives the next state. 9, 10
/// and 11 give the same state with its end marked; 8 and 12 give the same state. For a number of 2^49 or more, which is no
/// state, 12 gives that number modulo 2^48 with its end marked: every further step is 12 too.
///
/// # Panics
///
/// Where [`check_library`](crate::check_library) gives an error.
///
/// ```
/// use ht_core::raw::{reader_start, reader_step};
/// use ht_core::{points, Settings, Width};
///
/// let s = Settings::new(Width::Mhz20, 0, 1, 93);
/// let mut symbol = [0.0; 112];
/// points(s, &[0x5A], 0, &mut symbol)?;
/// let mut payload = [0];
/// let step = reader_step(s, reader_start(s)?, &symbol, &mut payload);
/// assert_eq!((step.number, step.seed, payload), (0, 93, [0x5A]));
/// // The state waits for symbol 1, which symbol 0 is not: its pilots are others.
/// assert_eq!(step.state % (1 << 16), 1);
/// let ended = reader_step(s, step.state, &symbol, &mut payload);
/// assert_eq!((ended.number, ended.state), (9, step.state | 1 << 48));
/// # Ok::<(), ht_core::Refusal>(())
/// ```
pub fn reader_step(
    open: impl Into<OpenSettings>,
    state: u64,
    points: &[f32],
    payload: &mut [u8],
) -> StepResult {
    numbers::step(ffi::reader_step(&open.into(), state, points, payload))
}

/// Where a step from this state gives 9: the stream and the subcarrier of the first point that is not one the rules give,
/// streams in order, subcarriers rising; `None` where every point passes.
///
/// # Errors
///
/// 12, then 8 (`points` has fewer floats than a symbol).
///
/// # Panics
///
/// Where [`check_library`](crate::check_library) gives an error.
pub fn reader_place(
    open: impl Into<OpenSettings>,
    state: u64,
    points: &[f32],
) -> Result<Option<(u32, i32)>, Refusal> {
    answer(ffi::reader_place(&open.into(), state, points)).map(numbers::place)
}
