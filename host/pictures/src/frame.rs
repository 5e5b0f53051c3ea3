//! The frames that are drawn, and what the core says of them. No other file names the core's crate.

use ht_core::{carrier, floats_per_symbol, points, symbol_count, Format, Settings};
use std::ops::RangeInclusive;

pub use ht_core::{Carrier, Refusal, Width};

/// Settings with a payload that needs no list to be made again.
pub struct Frame {
    width: Width,
    settings: Settings,
    /// Byte j of the payload, in words, modulo 256.
    byte_in_words: &'static str,
    pub payload: Vec<u8>,
}

/// A used subcarrier of a symbol: what the question says of it, and its point as the points call gives it.
pub struct Used {
    pub subcarrier: i32,
    pub carrier: Carrier,
    pub point: [f32; 2],
}

impl Frame {
    /// A payload whose bytes count up from 0.
    pub fn new(width: Width, mcs: u32, length: u32, seed: u32) -> Frame {
        Frame::of(width, mcs, length, seed, ("j", |j| j))
    }

    /// The frame of docs/TOUR.md.
    pub fn of_the_tour() -> Frame {
        Frame::of(Width::Mhz40, 31, 1000, 93, ("7j + 1", |j| 7 * j + 1))
    }

    fn of(
        width: Width,
        mcs: u32,
        length: u32,
        seed: u32,
        (byte_in_words, byte): (&'static str, fn(u32) -> u32),
    ) -> Frame {
        let settings = Settings::new(width, mcs, length, seed);
        let payload = (0..length).map(|j| byte(j) as u8).collect();
        Frame {
            width,
            settings,
            byte_in_words,
            payload,
        }
    }

    /// The same settings for the second program.
    pub fn for_second(&self) -> second::Settings {
        let s = self.settings;
        second::Settings {
            width: s.width,
            mcs: s.mcs,
            format: s.format,
            length: s.length,
            seed: s.seed,
            smoothing: s.smoothing != 0,
            not_sounding: s.not_sounding != 0,
            aggregation: s.aggregation != 0,
            short_guard: s.short_guard != 0,
        }
    }

    pub fn symbols(&self) -> Result<u32, Refusal> {
        symbol_count(self.settings)
    }

    /// The subcarriers that the question takes.
    pub fn subcarriers(&self) -> RangeInclusive<i32> {
        match self.width {
            Width::Mhz20 => -32..=31,
            Width::Mhz40 => -64..=63,
        }
    }

    pub fn question(&self, symbol: u32, stream: u32, subcarrier: i32) -> Result<Carrier, Refusal> {
        carrier(self.settings, &self.payload, symbol, stream, subcarrier)
    }

    /// Every subcarrier of one stream in one symbol, rising.
    pub fn carriers(&self, symbol: u32, stream: u32) -> Result<Vec<(i32, Carrier)>, Refusal> {
        self.subcarriers()
            .map(|k| Ok((k, self.question(symbol, stream, k)?)))
            .collect()
    }

    /// The floats of one symbol.
    pub fn floats(&self, symbol: u32) -> Result<Vec<f32>, Refusal> {
        let mut floats = vec![0.0; floats_per_symbol(self.settings)?];
        let written = points(self.settings, &self.payload, symbol, &mut floats)?;
        floats.truncate(written);
        Ok(floats)
    }

    /// The used subcarriers of one stream in one symbol, rising: the points stand in this order, stream by stream.
    pub fn used(&self, symbol: u32, stream: u32) -> Result<Vec<Used>, Refusal> {
        let floats = self.floats(symbol)?;
        let mut used = self.carriers(symbol, stream)?;
        used.retain(|(_, carrier)| *carrier != Carrier::Silent);
        let before = stream as usize * used.len();
        Ok(used
            .into_iter()
            .zip(floats.chunks_exact(2).skip(before))
            .map(|((subcarrier, carrier), levels)| Used {
                subcarrier,
                carrier,
                point: [levels[0], levels[1]],
            })
            .collect())
    }

    /// The settings but for width and MCS, in words.
    pub fn rest_in_words(&self) -> String {
        let Settings {
            format,
            length,
            seed,
            ..
        } = self.settings;
        let format = match Format::try_from(format).expect("a format") {
            Format::Mixed => "mixed format",
            Format::GreenField => "green field format",
        };
        let byte = self.byte_in_words;
        format!("{format}, length {length}, payload byte j is {byte} mod 256, seed {seed}")
    }

    /// The settings in words.
    pub fn in_words(&self) -> String {
        let (width, mcs) = (self.width.mhz(), self.settings.mcs);
        format!("{width} MHz, MCS {mcs}, {}", self.rest_in_words())
    }
}
