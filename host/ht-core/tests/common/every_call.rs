//! Every function of the crate that reaches the library, called once, and what came of it.

use ht_core::{raw, Reader, Settings, Width};
use std::fmt::Debug;
use std::panic::catch_unwind;

const S: Settings = Settings::new(Width::Mhz20, 0, 1, 1);

/// A function's name, with its module's before it; a call of it, which gives the answer in text; and the right answer.
type Call = (&'static str, fn() -> String, &'static str);

fn shown(answer: impl Debug) -> String {
    format!("{answer:?}")
}

pub const EVERY_CALL: [Call; 16] = [
    ("symbol_count", || shown(ht_core::symbol_count(S)), "Ok(2)"),
    (
        "floats_per_symbol",
        || shown(ht_core::floats_per_symbol(S)),
        "Ok(112)",
    ),
    (
        "floats_per_frame",
        || shown(ht_core::floats_per_frame(S)),
        "Ok(224)",
    ),
    (
        "points",
        || shown(ht_core::points(S, &[0], 0, &mut [])),
        "Err(Room)",
    ),
    (
        "write_frame",
        || shown(ht_core::write_frame(S, &[0], &mut [])),
        "Err(Room)",
    ),
    (
        "frame_points",
        || shown(ht_core::frame_points(S, &[0]).map(|frame| frame.len())),
        "Ok(224)",
    ),
    (
        "carrier",
        || shown(ht_core::carrier(S, &[0], 0, 0, 0)),
        "Ok(Silent)",
    ),
    (
        "sig_bytes",
        || shown(ht_core::sig_bytes(S)),
        "Ok([0, 1, 0, 7, 80, 0])",
    ),
    ("sig_read", || shown(ht_core::sig_read(&[])), "Err(Source)"),
    (
        "read_frame",
        || shown(ht_core::read_frame(S, &[], &mut [])),
        "Err(Room)",
    ),
    (
        "Reader::start",
        || shown(Reader::start(S).map(|reader| reader.symbol())),
        "Ok(0)",
    ),
    (
        "raw::sig_write",
        || shown(raw::sig_write(S, &mut [])),
        "Err(Room)",
    ),
    (
        "raw::carrier",
        || shown(raw::carrier(S, &[0], 0, 0, 0, &mut [])),
        "Err(Room)",
    ),
    ("raw::reader_start", || shown(raw::reader_start(S)), "Ok(0)"),
    (
        "raw::reader_step",
        || shown(raw::reader_step(S, 0, &[], &mut []).number),
        "8",
    ),
    (
        "raw::reader_place",
        || shown(raw::reader_place(S, 0, &[])),
        "Err(Room)",
    ),
];

/// What the check of the library and every call have come to, a line each: the answer, or the words of a panic.
pub fn outcomes() -> Vec<String> {
    let mut lines = vec![format!("check_library: {:?}", ht_core::check_library())];
    for (name, call, _) in EVERY_CALL {
        let outcome = catch_unwind(call).unwrap_or_else(|panic| match panic.downcast::<String>() {
            Ok(words) => *words,
            Err(_) => "a panic without words".to_string(),
        });
        lines.push(format!("{name}: {outcome}"));
    }
    lines
}
