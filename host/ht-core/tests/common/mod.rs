//! What the tests share: numbers drawn from a fixed seed, and settings for both programs.

#![allow(dead_code)]

pub mod reading;

use ht_core::{Carrier, Format, OpenSettings, Refusal, Settings, Width};

/// xorshift64*: the same numbers on every run.
pub struct Draw(u64);

impl Draw {
    pub fn new(seed: u64) -> Draw {
        Draw(seed | 1)
    }

    pub fn next(&mut self) -> u64 {
        self.0 ^= self.0 >> 12;
        self.0 ^= self.0 << 25;
        self.0 ^= self.0 >> 27;
        self.0.wrapping_mul(0x2545_F491_4F6C_DD1D)
    }

    pub fn below(&mut self, n: u64) -> u64 {
        (self.next() >> 11) % n
    }

    pub fn of<T: Copy>(&mut self, choices: &[T]) -> T {
        choices[self.below(choices.len() as u64) as usize]
    }

    pub fn bytes(&mut self, count: usize) -> Vec<u8> {
        (0..count).map(|_| self.next() as u8).collect()
    }
}

/// How often something random is tried: what the environment says, or the number without it.
pub fn count_from(variable: &str, without: usize) -> usize {
    match std::env::var(variable) {
        Ok(count) => count
            .parse()
            .unwrap_or_else(|_| panic!("{variable} is a number")),
        Err(_) => without,
    }
}

/// The 64 widths and MCS.
pub fn widths_and_mcs() -> impl Iterator<Item = (u32, u32)> {
    [20, 40]
        .into_iter()
        .flat_map(|width| (0..32).map(move |mcs| (width, mcs)))
}

/// Any accepted settings of a width and an MCS.
pub fn any_settings(width: u32, mcs: u32, length: u32, draw: &mut Draw) -> Settings {
    GOOD.width(width)
        .mcs(mcs)
        .format(draw.below(2) as u32)
        .length(length)
        .seed(1 + draw.below(127) as u32)
        .smoothing(draw.of(&[0, 1, u32::MAX]))
        .not_sounding(draw.of(&[0u32, 1, 256]))
        .aggregation(draw.of(&[0u32, 1, 1 << 31]))
        .short_guard(draw.of(&[0u32, 1, 1 << 16]))
}

/// Any typed settings of a width and an MCS.
pub fn typed_settings(width: u32, mcs: u32, length: u32, draw: &mut Draw) -> Settings {
    let [smoothing, not_sounding, aggregation, short_guard] = [0; 4].map(|_| draw.below(2) == 1);
    let format = draw.of(&[Format::Mixed, Format::GreenField]);
    let seed = 1 + draw.below(127) as u32;
    Settings::new(Width::try_from(width).unwrap(), mcs, length, seed)
        .format(format)
        .smoothing(smoothing)
        .not_sounding(not_sounding)
        .aggregation(aggregation)
        .short_guard(short_guard)
}

/// Good settings that a test changes in one place.
pub const GOOD: Settings = Settings::new(Width::Mhz20, 0, 1, 1);

/// The same settings for the second program.
pub fn second_settings(s: Settings) -> second::Settings {
    second::Settings {
        width: s.width,
        mcs: s.mcs,
        format: s.format,
        length: s.length,
        seed: s.seed,
        smoothing: s.smoothing != 0,
        not_sounding: s.not_sounding != 0,
        aggregation: s.aggregation != 0,
        short_guard: s.short_guard != 0,
    }
}

/// The same settings without a seed for the second program.
pub fn second_open(s: OpenSettings) -> second::OpenSettings {
    second::OpenSettings {
        width: s.width,
        mcs: s.mcs,
        format: s.format,
        length: s.length,
        smoothing: s.smoothing != 0,
        not_sounding: s.not_sounding != 0,
        aggregation: s.aggregation != 0,
        short_guard: s.short_guard != 0,
    }
}

/// A refusal's number, or the value.
pub fn numbered<T>(result: Result<T, Refusal>) -> Result<T, u32> {
    result.map_err(|r| r.number())
}

/// The floats by their bits: equal floats here are equal numbers with equal zeros and equal NaNs.
pub fn bits(floats: &[f32]) -> Vec<u32> {
    floats.iter().map(|f| f.to_bits()).collect()
}

/// The places of the pilots among the used subcarriers of a stream, and the number of these.
pub fn pilot_places(width: u32) -> (&'static [usize], usize) {
    if width == 40 {
        (&[5, 33, 47, 66, 80, 108], 114)
    } else {
        (&[7, 21, 34, 48], 56)
    }
}

/// The lowest and the highest subcarrier that the question takes.
pub fn question_range(width: u32) -> (i32, i32) {
    if width == 40 {
        (-64, 63)
    } else {
        (-32, 31)
    }
}

/// The question's answer by the bits of its floats: none, the pilot's sign, or the two levels.
pub fn carried(answer: Carrier) -> Vec<u32> {
    match answer {
        Carrier::Silent => vec![],
        Carrier::Pilot(sign) => vec![sign.to_bits()],
        Carrier::Data { first, second } => vec![first.to_bits(), second.to_bits()],
        other => panic!("no answer that is known: {other:?}"),
    }
}
