//! What several modules' tests are written with.

use crate::reader::OpenSettings;
use crate::settings::Settings;

/// Bits from text; spaces only separate.
pub fn bits(text: &str) -> Vec<u8> {
    text.bytes()
        .filter(|c| *c != b' ')
        .map(|c| c - b'0')
        .collect()
}

/// Settings of which each number is wrong, and would pass if it were narrowed.
pub fn all_wrong() -> Settings {
    Settings {
        width: 276,
        mcs: 256,
        format: 256,
        length: 65_537,
        seed: 129,
        ..settings(0, 20, 1, 1)
    }
}

/// The same settings but for the format and the four flags.
pub fn other_format_and_flags(s: &Settings) -> Settings {
    Settings {
        format: 1,
        smoothing: false,
        not_sounding: false,
        aggregation: true,
        short_guard: true,
        ..*s
    }
}

/// Settings with format 0, smoothing and not sounding on.
pub fn settings(mcs: u32, width: u32, length: u32, seed: u32) -> Settings {
    Settings {
        width,
        mcs,
        format: 0,
        length,
        seed,
        smoothing: true,
        not_sounding: true,
        aggregation: false,
        short_guard: false,
    }
}

/// The same settings without their seed.
pub fn open(s: &Settings) -> OpenSettings {
    OpenSettings {
        width: s.width,
        mcs: s.mcs,
        format: s.format,
        length: s.length,
        smoothing: s.smoothing,
        not_sounding: s.not_sounding,
        aggregation: s.aggregation,
        short_guard: s.short_guard,
    }
}

/// Byte j is 37·j + 11 modulo 256.
pub fn some_bytes(count: u32) -> Vec<u8> {
    (0..count).map(|j| ((37 * j + 11) % 256) as u8).collect()
}

pub fn float_bits(floats: &[f32]) -> Vec<u32> {
    floats.iter().map(|f| f.to_bits()).collect()
}
