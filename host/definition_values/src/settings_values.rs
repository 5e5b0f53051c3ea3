//! Values of settings, accepted and refused: symbol counts and HT-SIG, written and read.

use crate::frame::frame;
use crate::random::Random;
use crate::terms::{list, settings};
use crate::theorem::{Crate, Module, Row, Theorem};
use second::rates::symbol_count;
use second::settings::Settings;
use second::sig::{sig_read, sig_write};

pub fn crates() -> Vec<Crate> {
    let mut modules = Vec::new();
    for width in [20, 40] {
        modules.push(Module {
            name: format!("Settings{width}"),
            shared: String::new(),
            theorems: (0..32).map(|mcs| of_mcs(mcs, width)).collect(),
        });
    }
    modules.push(Module {
        name: "Refused".into(),
        shared: String::new(),
        theorems: vec![refused_settings(), refused_signals()],
    });
    vec![Crate {
        name: "settings_and_signal".into(),
        modules,
        alike: false,
    }]
}

/// The symbol count at the ends of a symbol's length and of the lengths, and HT-SIG of random flags and lengths, written and read.
fn of_mcs(mcs: u32, width: u32) -> Theorem {
    let base = frame(mcs, width).settings;
    let mut random = Random::of(7000 + 100 * mcs + width);
    let mut rows = Vec::new();
    let mut lengths = vec![1, 2, 65_534, 65_535, 1 + random.below(65_535) as u32];
    // The last length of the frame's count of symbols, and the next.
    let mut last = base;
    while count(&Settings {
        length: last.length + 1,
        ..last
    }) == count(&base)
    {
        last.length += 1;
    }
    lengths.extend([last.length, last.length + 1]);
    for length in lengths {
        rows.push(counted(&Settings { length, ..base }));
    }
    for _ in 0..3 {
        let s = Settings {
            length: 1 + random.below(65_535) as u32,
            smoothing: random.flag(),
            not_sounding: random.flag(),
            aggregation: random.flag(),
            short_guard: random.flag(),
            ..base
        };
        rows.extend(written_and_read(&s));
    }
    Theorem::new(format!("mcs_{mcs}"), rows)
}

/// 0 and the count, or the refusal's number.
fn count(s: &Settings) -> Vec<u64> {
    match symbol_count(s) {
        Ok(count) => vec![0, u64::from(count)],
        Err(number) => vec![u64::from(number)],
    }
}

/// The settings as an argument.
fn raw(s: &Settings) -> String {
    format!("({})", settings(s))
}

fn counted(s: &Settings) -> Row {
    Row::new(format!("count_at {}", raw(s)), count(s))
}

fn written(s: &Settings, lent: &[u8]) -> Row {
    let mut bytes = lent.to_vec();
    let number = sig_write(s, &mut bytes).err().unwrap_or(0);
    let mut expected = vec![u64::from(number)];
    expected.extend(bytes.iter().map(|byte| u64::from(*byte)));
    Row::new(
        format!("signal_written_at {} ({})", raw(s), list(lent)),
        expected,
    )
}

fn read(sig: &[u8]) -> Row {
    let expected = match sig_read(sig) {
        Ok(f) => {
            let flags = [f.smoothing, f.not_sounding, f.aggregation, f.short_guard];
            let mut numbers = vec![0, u64::from(f.width), u64::from(f.mcs), u64::from(f.length)];
            numbers.extend(flags.map(u64::from));
            numbers
        }
        Err(number) => vec![u64::from(number)],
    };
    Row::new(format!("signal_read_at ({})", list(sig)), expected)
}

/// Seven bytes are lent, of which the last stays.
fn written_and_read(s: &Settings) -> [Row; 2] {
    let mut sig = [0; 6];
    sig_write(s, &mut sig).expect("accepted");
    [written(s, &[170; 7]), read(&sig)]
}

/// Each of refusals 1 to 5 and both ends of each range; 8 where five bytes are lent.
fn refused_settings() -> Theorem {
    let good = frame(17, 20).settings;
    let mut all = vec![good];
    all.extend([0, 19, 21, 40, 41].map(|width| Settings { width, ..good }));
    all.extend([31, 32, 127].map(|mcs| Settings { mcs, ..good }));
    all.extend([0, 1, 2].map(|format| Settings { format, ..good }));
    all.extend([0, 1, 65_535, 65_536].map(|length| Settings { length, ..good }));
    all.extend([0, 1, 127, 128].map(|seed| Settings { seed, ..good }));
    let mut wrong = good;
    (wrong.seed, wrong.length) = (0, 0);
    all.push(wrong);
    (wrong.format, wrong.mcs) = (2, 32);
    all.push(wrong);
    wrong.width = 30;
    all.push(wrong);
    let mut rows: Vec<Row> = all.iter().map(counted).collect();
    rows.extend(all.iter().map(|s| written(s, &[85; 6])));
    rows.push(written(&good, &[85; 5]));
    Theorem::new("refused_settings", rows)
}

/// Each bit of a right signal turned over, alone and with a right CRC; five and seven bytes.
fn refused_signals() -> Theorem {
    let mut sig = [0; 6];
    sig_write(&frame(9, 40).settings, &mut sig).expect("accepted");
    let mut rows = vec![read(&sig[..5]), read(&[0; 7]), read(&[0; 6])];
    for bit in 0..48 {
        let mut turned = sig;
        turned[bit / 8] ^= 1 << (bit % 8);
        rows.push(read(&turned));
        let with_crc = (0..=255).find_map(|crc: u64| {
            let word = u64::from_le_bytes([
                turned[0], turned[1], turned[2], turned[3], turned[4], turned[5], 0, 0,
            ]);
            let bytes = (word & !(255 << 34) | crc << 34).to_le_bytes();
            (sig_read(&bytes[..6]) != Err(13)).then_some(bytes)
        });
        rows.push(read(&with_crc.expect("one CRC is right")[..6]));
    }
    Theorem::new("refused_signals", rows)
}
