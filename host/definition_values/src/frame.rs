//! The frame of each MCS and width: settings and a payload, random but the same in every run, of at least three symbols.

use crate::random::Random;
use second::rates::{data_bits_per_symbol, symbol_count};
use second::settings::Settings;

/// The symbols that are compared: 0, 1 and 2.
pub const SYMBOLS: u64 = 3;

pub struct Frame {
    pub settings: Settings,
    pub payload: Vec<u8>,
}

/// As short as three symbols allow, or up to one and a half symbols longer: symbol 2 is then the last one, with tail and pad, or not.
pub fn frame(mcs: u32, width: u32) -> Frame {
    let mut random = Random::of(100 * mcs + width);
    let mut settings = Settings {
        width,
        mcs,
        format: (mcs + width / 20) % 2,
        length: 1,
        seed: 1 + random.below(127) as u32,
        smoothing: random.flag(),
        not_sounding: random.flag(),
        aggregation: random.flag(),
        short_guard: random.flag(),
    };
    while symbols(&settings) < SYMBOLS {
        settings.length += 1;
    }
    let more = u64::from(data_bits_per_symbol(width, mcs)) * 3 / 16;
    settings.length += random.below(more) as u32;
    let payload = bytes(&mut random, settings.length);
    Frame { settings, payload }
}

pub fn bytes(random: &mut Random, count: u32) -> Vec<u8> {
    (0..count).map(|_| random.below(256) as u8).collect()
}

/// The second program's symbol count; these settings are accepted.
pub fn symbols(s: &Settings) -> u64 {
    u64::from(symbol_count(s).expect("accepted settings"))
}
