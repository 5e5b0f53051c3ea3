//! The C calls of the proved HT signal core, as they are: `docs/C-API.md` of the repository has the account of each.
//!
//! Every call tests all of its numbers. What it cannot test is that a pointer and its length name memory that the caller
//! may lend, and that two lent slices of one call do not overlap: that is why the calls are `unsafe`. The crate `ht-core`
//! has safe calls over these.
//!
//! The build script links `libht_core.a` from the folder that `HT_CORE_LIB_DIR` names, or from the repository's
//! `target/dist/lib`, which `scripts/dist` writes. Where the library is missing, or was built from other sources than those
//! beside this crate, a check and the documentation pass, and linking fails with a message. To the build scripts of crates
//! that depend on this one it gives `DEP_HT_CORE_ROOT` and `DEP_HT_CORE_INCLUDE`, the folders of the package and of the
//! header.

#![no_std]
#![deny(missing_docs)]

include!(concat!(env!("OUT_DIR"), "/header.rs"));

extern "C" {
    /// The number of this set of calls, [`HT_CORE_ABI`] where the library is the one that is declared here. No refusals.
    pub fn ht_abi() -> i64;

    /// The number of data symbols. Refusals in order: 1 to 5.
    pub fn ht_symbol_count(
        width: u32,
        mcs: u32,
        format: u32,
        length: u32,
        seed: u32,
        smoothing: u32,
        not_sounding: u32,
        aggregation: u32,
        short_guard: u32,
    ) -> i64;

    /// Writes the six HT-SIG bytes. Refusals in order: 1 to 5, 8.
    pub fn ht_sig_write(
        width: u32,
        mcs: u32,
        format: u32,
        length: u32,
        seed: u32,
        smoothing: u32,
        not_sounding: u32,
        aggregation: u32,
        short_guard: u32,
        out: *mut u8,
        out_len: usize,
    ) -> i64;

    /// What HT-SIG says, in one number. Refusals in order: 6, 13, 14.
    pub fn ht_sig_read(sig: *const u8, sig_len: usize) -> i64;

    /// Writes the points of one data symbol; the count of floats. Refusals in order: 1 to 8.
    pub fn ht_points(
        width: u32,
        mcs: u32,
        format: u32,
        length: u32,
        seed: u32,
        smoothing: u32,
        not_sounding: u32,
        aggregation: u32,
        short_guard: u32,
        payload: *const u8,
        payload_len: usize,
        symbol: u32,
        out: *mut f32,
        out_len: usize,
    ) -> i64;

    /// What one subcarrier carries. Refusals in order: 1 to 8.
    pub fn ht_carrier(
        width: u32,
        mcs: u32,
        format: u32,
        length: u32,
        seed: u32,
        smoothing: u32,
        not_sounding: u32,
        aggregation: u32,
        short_guard: u32,
        payload: *const u8,
        payload_len: usize,
        symbol: u32,
        stream: u32,
        subcarrier: i32,
        out: *mut f32,
        out_len: usize,
    ) -> i64;

    /// The reader's state before symbol 0. Refusals in order: 1 to 4.
    pub fn ht_reader_start(
        width: u32,
        mcs: u32,
        format: u32,
        length: u32,
        smoothing: u32,
        not_sounding: u32,
        aggregation: u32,
        short_guard: u32,
    ) -> i64;

    /// Reads one symbol; never negative. Refusals in order, in the number: 12, 8, 9, 10, 11.
    pub fn ht_reader_step(
        width: u32,
        mcs: u32,
        format: u32,
        length: u32,
        smoothing: u32,
        not_sounding: u32,
        aggregation: u32,
        short_guard: u32,
        state: u64,
        points: *const f32,
        points_len: usize,
        payload: *mut u8,
        payload_len: usize,
    ) -> i64;

    /// Where a step from this state gives 9. Refusals in order: 12, 8.
    pub fn ht_reader_place(
        width: u32,
        mcs: u32,
        format: u32,
        length: u32,
        smoothing: u32,
        not_sounding: u32,
        aggregation: u32,
        short_guard: u32,
        state: u64,
        points: *const f32,
        points_len: usize,
    ) -> i64;

    /// Reads a whole frame; its seed. Refusals in order: 1 to 4, 8, then 9, 10, 11 of the first refused symbol.
    pub fn ht_read_frame(
        width: u32,
        mcs: u32,
        format: u32,
        length: u32,
        smoothing: u32,
        not_sounding: u32,
        aggregation: u32,
        short_guard: u32,
        points: *const f32,
        points_len: usize,
        payload: *mut u8,
        payload_len: usize,
    ) -> i64;
}
