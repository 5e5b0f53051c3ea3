//! The C calls on slices, and the only unsafe code of this crate.
//!
//! Each first looks whether the library that was linked is the one that `ht-core-sys` declares.

use crate::library::ready;
use crate::{OpenSettings, Settings};
use ht_core_sys::*;

/// The number of the linked library's set of calls. It is the one call that any library has to have.
pub(crate) fn abi() -> i64 {
    // SAFETY: the call takes nothing.
    unsafe { ht_abi() }
}

/// A call whose first nine numbers are the settings.
macro_rules! with_settings {
    ($call:ident, $s:ident $(, $more:expr)*) => {
        $call(
            $s.width,
            $s.mcs,
            $s.format,
            $s.length,
            $s.seed,
            $s.smoothing,
            $s.not_sounding,
            $s.aggregation,
            $s.short_guard,
            $($more),*
        )
    };
}

/// A call whose first eight numbers are the settings without a seed.
macro_rules! with_open_settings {
    ($call:ident, $s:ident $(, $more:expr)*) => {
        $call(
            $s.width,
            $s.mcs,
            $s.format,
            $s.length,
            $s.smoothing,
            $s.not_sounding,
            $s.aggregation,
            $s.short_guard,
            $($more),*
        )
    };
}

pub(crate) fn symbol_count(s: &Settings) -> i64 {
    ready();
    // SAFETY: the call takes numbers only.
    unsafe { with_settings!(ht_symbol_count, s) }
}

pub(crate) fn sig_write(s: &Settings, out: &mut [u8]) -> i64 {
    ready();
    // SAFETY: the pointer and the length are those of one exclusively borrowed slice,
    // and the core stays inside what it is lent.
    unsafe { with_settings!(ht_sig_write, s, out.as_mut_ptr(), out.len()) }
}

pub(crate) fn sig_read(sig: &[u8]) -> i64 {
    ready();
    // SAFETY: the pointer and the length are those of one borrowed slice, which the core only reads.
    unsafe { ht_sig_read(sig.as_ptr(), sig.len()) }
}

pub(crate) fn points(s: &Settings, payload: &[u8], symbol: u32, out: &mut [f32]) -> i64 {
    ready();
    // SAFETY: each pointer and its length are those of one borrowed slice; the core only reads
    // the payload, `out` is borrowed exclusively, so the two do not overlap, and the core stays
    // inside what it is lent. Any 32 bits are an `f32`.
    unsafe {
        with_settings!(
            ht_points,
            s,
            payload.as_ptr(),
            payload.len(),
            symbol,
            out.as_mut_ptr(),
            out.len()
        )
    }
}

pub(crate) fn carrier(
    s: &Settings,
    payload: &[u8],
    symbol: u32,
    stream: u32,
    subcarrier: i32,
    out: &mut [f32],
) -> i64 {
    ready();
    // SAFETY: as in `points`.
    unsafe {
        with_settings!(
            ht_carrier,
            s,
            payload.as_ptr(),
            payload.len(),
            symbol,
            stream,
            subcarrier,
            out.as_mut_ptr(),
            out.len()
        )
    }
}

pub(crate) fn reader_start(s: &OpenSettings) -> i64 {
    ready();
    // SAFETY: the call takes numbers only.
    unsafe { with_open_settings!(ht_reader_start, s) }
}

pub(crate) fn reader_step(s: &OpenSettings, state: u64, points: &[f32], payload: &mut [u8]) -> i64 {
    ready();
    // SAFETY: each pointer and its length are those of one borrowed slice; the core only reads
    // the points, `payload` is borrowed exclusively, so the two do not overlap, and the core stays
    // inside what it is lent. Any eight bits are a `u8`.
    unsafe {
        with_open_settings!(
            ht_reader_step,
            s,
            state,
            points.as_ptr(),
            points.len(),
            payload.as_mut_ptr(),
            payload.len()
        )
    }
}

pub(crate) fn reader_place(s: &OpenSettings, state: u64, points: &[f32]) -> i64 {
    ready();
    // SAFETY: the pointer and the length are those of one borrowed slice, which the core only reads.
    unsafe { with_open_settings!(ht_reader_place, s, state, points.as_ptr(), points.len()) }
}

pub(crate) fn read_frame(s: &OpenSettings, points: &[f32], payload: &mut [u8]) -> i64 {
    ready();
    // SAFETY: as in `reader_step`.
    unsafe {
        with_open_settings!(
            ht_read_frame,
            s,
            points.as_ptr(),
            points.len(),
            payload.as_mut_ptr(),
            payload.len()
        )
    }
}
