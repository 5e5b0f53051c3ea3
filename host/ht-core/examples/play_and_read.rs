//! Plays a frame to a file and reads it back, a symbol at a time: neither side holds more floats than one symbol has. The
//! file has the floats of every symbol in order, each as four bytes, low byte first, so that a point is a complex64 of
//! GNU Radio and numpy. The seed is not in it: the reader finds it.
//!
//! ```text
//! cargo run --release --offline -p ht-core --example play_and_read -- frame.bin
//! ```

use ht_core::{floats_per_symbol, points, symbol_count};
use ht_core::{Reader, Settings, Step, Width};
use std::error::Error;
use std::fs::File;
use std::io::{BufReader, BufWriter, Read, Write};

/// Writes every symbol.
pub fn play(s: Settings, payload: &[u8], file: &mut impl Write) -> Result<(), Box<dyn Error>> {
    let mut floats = vec![0.0; floats_per_symbol(s)?];
    for symbol in 0..symbol_count(s)? {
        points(s, payload, symbol, &mut floats)?;
        for float in &floats {
            file.write_all(&float.to_le_bytes())?;
        }
    }
    Ok(file.flush()?)
}

/// Reads the seed and the payload; an error names the refusal, and the place of a point that is none.
pub fn read_back(s: Settings, file: &mut impl Read) -> Result<(u32, Vec<u8>), Box<dyn Error>> {
    let mut reader = Reader::start(s)?;
    let mut floats = vec![0.0; reader.floats()];
    let mut payload = vec![0; s.length as usize];
    loop {
        for float in &mut floats {
            let mut bytes = [0; 4];
            file.read_exact(&mut bytes)?;
            *float = f32::from_le_bytes(bytes);
        }
        reader = match reader.step(&floats, &mut payload)? {
            Step::Next { reader, .. } => reader,
            Step::Done { seed } => return Ok((seed, payload)),
            other => return Err(format!("a step that is not known: {other:?}").into()),
        };
    }
}

fn main() -> Result<(), Box<dyn Error>> {
    let path = std::env::args_os().nth(1).ok_or("name a file to write")?;
    let payload = b"from a file and back, ".repeat(50);
    let s = Settings::new(Width::Mhz40, 31, u32::try_from(payload.len())?, 93);
    play(s, &payload, &mut BufWriter::new(File::create(&path)?))?;
    let (seed, read) = read_back(s, &mut BufReader::new(File::open(&path)?))?;
    println!("seed {seed}, payload the same: {}", read == payload);
    Ok(())
}
