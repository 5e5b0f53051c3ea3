//! The symbol count and the HT-SIG bytes of every MCS, width and length.

use crate::common::{numbered, second_settings, widths_and_mcs};
use crate::outcome::{compare, grouped, Outcome};
use crate::{parallel, LONGEST};
use ht_core::{raw::sig_write, sig_bytes, sig_read, symbol_count, Settings, Width};
use std::fmt;
use std::ops::AddAssign;

/// Numbers beside the accepted lengths.
const REFUSED_LENGTHS: [u32; 4] = [0, 65_536, 65_537, u32::MAX];
const LENGTH_REFUSED: u32 = 4;

/// How many were compared, and how many of these differ.
#[derive(Debug, Default)]
pub struct Tally {
    pub settings: u64,
    pub counts_differ: u64,
    pub bytes_differ: u64,
    pub fields_differ: u64,
    /// Settings of a length that is none.
    pub refused: u64,
    pub refused_differ: u64,
}

/// Every `stride`-th length of every MCS and width.
pub fn run(stride: u64) -> Tally {
    let pairs: Vec<(u32, u32)> = widths_and_mcs().collect();
    parallel::sum(pairs.len() as u64, |job| {
        let (width, mcs) = pairs[job as usize];
        let mut tally = Tally::default();
        for length in (1..=LONGEST).step_by(stride as usize) {
            let index = job * LONGEST + length - 1;
            tally.compare(settings(width, mcs, length as u32, index));
        }
        for length in REFUSED_LENGTHS {
            let s = settings(width, mcs, length, 255 * job);
            for format in 0..2u32 {
                tally.compare_refused(s.format(format));
            }
        }
        tally
    })
}

/// The settings with this index among all: seed, format and flags go round with it, the seed first.
fn settings(width: u32, mcs: u32, length: u32, index: u64) -> Settings {
    let on = [1, 256, 1 << 31, u32::MAX][(index / 4_064 % 4) as usize];
    let flag = |bit: u64| ((index / 254) >> bit & 1) as u32 * on;
    let width = Width::try_from(width).expect("20 or 40");
    Settings::new(width, mcs, length, 1 + (index % 127) as u32)
        .format((index / 127 % 2) as u32)
        .smoothing(flag(0))
        .not_sounding(flag(1))
        .aggregation(flag(2))
        .short_guard(flag(3))
}

impl Tally {
    /// Count, bytes written, and the bytes of the second program read by the core.
    fn compare(&mut self, s: Settings) {
        let other = second_settings(s);
        self.settings += 1;
        self.counts_differ += compare(
            "symbol count",
            &s,
            numbered(symbol_count(s)),
            second::symbol_count(&other),
        );
        let mut bytes = [0; 6];
        let written = second::sig_write(&other, &mut bytes).map(|()| bytes);
        self.bytes_differ += compare("HT-SIG", &s, numbered(sig_bytes(s)), written);
        let read = sig_read(&bytes).map(|f| {
            let flags = [f.smoothing, f.not_sounding, f.aggregation, f.short_guard];
            (f.width.mhz(), f.mcs, f.length, flags)
        });
        let sent = [s.smoothing, s.not_sounding, s.aggregation, s.short_guard];
        let sent = (s.width, s.mcs, s.length, sent.map(|flag| flag != 0));
        self.fields_differ += compare("HT-SIG read", &s, numbered(read), Ok(sent));
    }

    /// Both programs refuse the length, and write nothing.
    fn compare_refused(&mut self, s: Settings) {
        let other = second_settings(s);
        self.refused += 1;
        let mut ours = [0x5A; 6];
        let mut theirs = [0x5A; 6];
        let core = (
            numbered(symbol_count(s)),
            numbered(sig_write(s, &mut ours)),
            ours,
        );
        let second = (
            second::symbol_count(&other),
            second::sig_write(&other, &mut theirs),
            theirs,
        );
        let refused = (Err(LENGTH_REFUSED), Err(LENGTH_REFUSED), [0x5A; 6]);
        let differ = compare("refused length", &s, core, refused)
            + compare("refused length", &s, core, second);
        self.refused_differ += differ.min(1);
    }
}

impl AddAssign for Tally {
    fn add_assign(&mut self, more: Tally) {
        self.settings += more.settings;
        self.counts_differ += more.counts_differ;
        self.bytes_differ += more.bytes_differ;
        self.fields_differ += more.fields_differ;
        self.refused += more.refused;
        self.refused_differ += more.refused_differ;
    }
}

impl Outcome for Tally {
    fn passed(&self) -> bool {
        let differ = [
            self.counts_differ,
            self.bytes_differ,
            self.fields_differ,
            self.refused_differ,
        ];
        self.settings > 0 && self.refused > 0 && differ == [0; 4]
    }
}

impl fmt::Display for Tally {
    fn fmt(&self, f: &mut fmt::Formatter<'_>) -> fmt::Result {
        let settings = grouped(self.settings);
        for (what, compared, differ) in [
            ("symbol counts", &settings, self.counts_differ),
            ("HT-SIG written", &settings, self.bytes_differ),
            ("HT-SIG read back", &settings, self.fields_differ),
            (
                "refused lengths",
                &grouped(self.refused),
                self.refused_differ,
            ),
        ] {
            let differ = grouped(differ);
            writeln!(f, "counts: {what}: {compared} compared, {differ} differ")?;
        }
        Ok(())
    }
}
