//! The example that plays a frame to a file and reads it back.

mod common;
#[allow(dead_code)] // its main
#[path = "../examples/play_and_read.rs"]
mod play_and_read;

use common::{typed_settings, widths_and_mcs, Draw};
use ht_core::{Refusal, Settings};
use play_and_read::{play, read_back};
use std::fs::File;
use std::io::{BufReader, BufWriter};
use std::path::PathBuf;
use std::{env, fs, process};

/// A file outside the repository, removed at the end of the test whether or not it passed.
struct TemporaryFile(PathBuf);

impl Drop for TemporaryFile {
    fn drop(&mut self) {
        let _ = fs::remove_file(&self.0);
    }
}

/// What the example writes for these settings.
fn played(settings: Settings, payload: &[u8]) -> Vec<u8> {
    let mut bytes = Vec::new();
    play(settings, payload, &mut bytes).unwrap();
    bytes
}

fn read(settings: Settings, bytes: &[u8]) -> Result<(u32, Vec<u8>), String> {
    read_back(settings, &mut &*bytes).map_err(|error| format!("{error:#}"))
}

#[test]
fn through_a_file() {
    let mut draw = Draw::new(0xF11E);
    let (payload, settings) = (draw.bytes(1000), typed_settings(40, 31, 1000, &mut draw));
    let file = TemporaryFile(env::temp_dir().join(format!("ht-frame-{}", process::id())));
    let mut writer = BufWriter::new(File::create(&file.0).unwrap());
    play(settings, &payload, &mut writer).unwrap();
    // Four symbols of 912 floats.
    assert_eq!(fs::metadata(&file.0).unwrap().len(), 4 * 912 * 4);
    let mut reader = BufReader::new(File::open(&file.0).unwrap());
    let (seed, read) = read_back(settings, &mut reader).unwrap();
    assert_eq!((seed, read), (settings.seed, payload));
}

#[test]
fn every_width_and_mcs() {
    let mut draw = Draw::new(0xBAC4);
    for (width, mcs) in widths_and_mcs() {
        let length = 1 + draw.below(300) as u32;
        let payload = draw.bytes(length as usize);
        let settings = typed_settings(width, mcs, length, &mut draw);
        let read = read(settings, &played(settings, &payload));
        assert_eq!(read, Ok((settings.seed, payload)), "{settings:?}");
    }
}

#[test]
fn a_file_that_is_no_frame_is_refused() {
    let mut draw = Draw::new(0x0DD);
    let payload = draw.bytes(20);
    let settings = typed_settings(20, 0, 20, &mut draw);
    let file = played(settings, &payload);
    let last = file.len() - 1;
    // The second level of the highest subcarrier becomes a negative zero.
    let mut changed = file.clone();
    assert_eq!(changed[last], 0);
    changed[last] = 0x80;
    let refused = Err(format!("stream 0, subcarrier 28: {:#}", Refusal::Point));
    assert_eq!(read(settings, &changed), refused);
    let in_short = read_back(settings, &mut &*changed).map_err(|error| error.to_string());
    let refused = Err("refusal 9 POINT at stream 0, subcarrier 28".to_string());
    assert_eq!(in_short, refused);
    assert!(read(settings, &file[..last]).is_err());
    assert_eq!(read(settings, &file).map(|(_, read)| read), Ok(payload));
}

#[test]
fn what_the_core_refuses_is_not_played() {
    let mut draw = Draw::new(0x5E77);
    let settings = typed_settings(20, 7, 20, &mut draw);
    let refusal = |settings, payload: &[u8]| {
        let error = play(settings, payload, &mut Vec::new()).unwrap_err();
        (format!("{error:#}"), error.to_string())
    };
    let words = |refusal: Refusal, in_short: &str| (format!("{refusal:#}"), in_short.to_string());
    let mcs_32 = settings.mcs(32);
    let mcs = words(Refusal::Mcs, "refusal 2 MCS");
    assert_eq!(refusal(mcs_32, &[0; 20]), mcs);
    let source = words(Refusal::Source, "refusal 6 SOURCE");
    assert_eq!(refusal(settings, &[0; 19]), source);
}
