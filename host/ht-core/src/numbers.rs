//! What the C calls return is one number each: here it is taken apart, as `docs/C-API.md` says.

use crate::raw::StepResult;
use crate::{Carrier, Refusal, SigFields, Width};
use ht_core_sys::HT_NO_PLACE;

/// A result that is not negative, or a refusal's number negated.
pub(crate) fn answer(result: i64) -> Result<u64, Refusal> {
    match u64::try_from(result) {
        Ok(value) => Ok(value),
        Err(_) => Err(u32::try_from(result.unsigned_abs())
            .ok()
            .and_then(|number| Refusal::try_from(number).ok())
            .expect("the core gives no number outside its table of refusals")),
    }
}

/// So many bits of a number, from its bit `first` on.
fn part(number: u64, first: u32, bits: u32) -> u32 {
    (number >> first & ((1 << bits) - 1)) as u32
}

/// The question's answer: the kind, and the floats that were written for it.
pub(crate) fn carrier(kind: u64, out: &[f32]) -> Carrier {
    match kind {
        0 => Carrier::Silent,
        1 => Carrier::Pilot(out[0]),
        2 => Carrier::Data {
            first: out[0],
            second: out[1],
        },
        _ => unreachable!("the core gives silent, pilot or data, not {kind}"),
    }
}

/// The signal read.
pub(crate) fn sig_fields(word: u64) -> SigFields {
    let bit = |number: u32| part(word, number, 1) == 1;
    SigFields {
        width: if bit(7) { Width::Mhz40 } else { Width::Mhz20 },
        mcs: part(word, 0, 7),
        length: part(word, 8, 16),
        smoothing: bit(24),
        not_sounding: bit(25),
        aggregation: bit(26),
        short_guard: bit(27),
    }
}

/// A step's result, which is never negative.
pub(crate) fn step(result: i64) -> StepResult {
    let word = u64::try_from(result).expect("the core gives no negative number for a step");
    StepResult {
        number: part(word, 0, 5),
        seed: part(word, 5, 7),
        state: word >> 12,
    }
}

/// The stream and the subcarrier of a place; none where every point passes.
pub(crate) fn place(word: u64) -> Option<(u32, i32)> {
    (word != HT_NO_PLACE).then(|| (part(word, 8, 8), part(word, 0, 8) as i32 - 128))
}

/// The symbol that a reader's state waits for.
pub(crate) fn state_symbol(state: u64) -> u32 {
    part(state, 0, 16)
}

/// Whether a reader's state is ended.
pub(crate) fn state_ended(state: u64) -> bool {
    part(state, 48, 1) == 1
}

/// The seed in a step's result, where there is one: 0 is none.
pub(crate) fn seed(number: u32) -> Option<u32> {
    (number > 0).then_some(number)
}
