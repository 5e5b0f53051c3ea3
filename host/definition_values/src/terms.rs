//! Values as terms of the logic.

use second::reader::{OpenSettings, State};
use second::settings::Settings;

/// `1 ∷ 2 ∷ []`
pub fn list<T: ToString>(numbers: &[T]) -> String {
    let mut text = String::new();
    for number in numbers {
        text.push_str(&number.to_string());
        text.push_str(" ∷ ");
    }
    text + "[]"
}

pub fn integer(z: i64) -> String {
    let size = z.unsigned_abs();
    if z < 0 {
        format!("(minus {size})")
    } else {
        format!("(pos {size})")
    }
}

pub fn integers(list: &[i64]) -> String {
    let mut text = String::new();
    for z in list {
        text.push_str(&integer(*z));
        text.push_str(" ∷ ");
    }
    text + "[]"
}

/// 0, -1, 1, -2, 2, .. by their number in this order, as the definitions' `counted` counts them.
pub fn counted(z: i64) -> u64 {
    let size = z.unsigned_abs();
    if z < 0 {
        2 * size - 1
    } else {
        2 * size
    }
}

/// Settings without their seed.
pub fn open(s: &Settings) -> OpenSettings {
    OpenSettings {
        width: s.width,
        mcs: s.mcs,
        format: s.format,
        length: s.length,
        smoothing: s.smoothing,
        not_sounding: s.not_sounding,
        aggregation: s.aggregation,
        short_guard: s.short_guard,
    }
}

/// A record of settings, accepted or raw: both have these fields.
pub fn settings(s: &Settings) -> String {
    format!("record {{ seed = {}; {} }}", s.seed, open_fields(&open(s)))
}

pub fn open_settings(s: &OpenSettings) -> String {
    format!("record {{ {} }}", open_fields(s))
}

fn open_fields(s: &OpenSettings) -> String {
    format!(
        "width = {}; mcs = {}; format = {}; length = {}; smoothing = {}; not_sounding = {}; aggregation = {}; short_guard = {}",
        s.width, s.mcs, s.format, s.length, s.smoothing, s.not_sounding, s.aggregation, s.short_guard
    )
}

/// A reader's state; `settings` is the name of its settings.
pub fn state(settings: &str, state: &State) -> String {
    format!(
        "record {{ settings = {settings}; symbol = {}; ended = {}; histories = {}; scrambler = {}; part = {} }}",
        state.symbol,
        state.ended,
        list(&state.history),
        state.scrambler,
        state.part
    )
}
