//! A whole frame written by one call: against the second program, against the points call symbol by symbol, and its
//! refusals, with guards on both sides of the lent slice.

mod common;

use common::{any_settings, bits, numbered, second_settings, widths_and_mcs, Draw, GOOD};
use ht_core::{
    floats_per_frame, floats_per_symbol, frame_points, points, read_frame, symbol_count,
    write_frame, Settings,
};

/// Floats on both sides of the lent slice.
const GUARD: usize = 16;

/// Signalling NaNs that all differ: what is not written keeps these bits.
fn memory(room: usize) -> Vec<f32> {
    let marks = (0..).map(|index| f32::from_bits(0x7F80_0001 + index));
    marks.take(GUARD + room + GUARD).collect()
}

/// Writes a frame into a slice of so many floats: the answer, and the bits of all memory.
fn written(s: Settings, payload: &[u8], room: usize) -> (Result<usize, u32>, Vec<u32>) {
    let mut lent = memory(room);
    let answer = numbered(write_frame(s, payload, &mut lent[GUARD..GUARD + room]));
    (answer, bits(&lent))
}

/// The memory after a frame with these bits.
fn with_frame(frame: &[u32], room: usize) -> Vec<u32> {
    let mut want = bits(&memory(room));
    want[GUARD..GUARD + frame.len()].copy_from_slice(frame);
    want
}

/// All symbols by the points call, one after the other.
fn by_symbols(s: Settings, payload: &[u8]) -> Vec<u32> {
    let mut out = vec![0.0; floats_per_symbol(s).unwrap()];
    (0..symbol_count(s).unwrap())
        .flat_map(|symbol| {
            assert_eq!(points(s, payload, symbol, &mut out), Ok(out.len()));
            bits(&out)
        })
        .collect()
}

#[test]
fn every_mcs_and_width() {
    let mut draw = Draw::new(101);
    let mut symbols = 0;
    for (width, mcs) in widths_and_mcs() {
        let d = second::data_bits_per_symbol(width, mcs);
        for length in [1, d / 8, 1 + draw.below(u64::from(d)) as u32] {
            let s = any_settings(width, mcs, length, &mut draw);
            let past = draw.of(&[0, 0, 3]);
            let payload = draw.bytes(length as usize + past);
            let frame = second::frame_points(&second_settings(s), &payload).unwrap();
            symbols += frame.len();
            let frame = bits(&frame.concat());
            assert!(frame == by_symbols(s, &payload), "{s:?}");
            for more in [0, 1, 200] {
                let room = frame.len() + more;
                let (answer, after) = written(s, &payload, room);
                assert_eq!(answer, Ok(frame.len()), "{s:?}");
                assert!(after == with_frame(&frame, room), "{s:?}, {more} more");
            }
            assert_eq!(floats_per_frame(s), Ok(frame.len()));
            let points = frame_points(s, &payload).unwrap();
            assert!(bits(&points) == frame, "{s:?}");
            let mut read = vec![0; length as usize];
            assert_eq!(read_frame(s, &points, &mut read), Ok(s.seed));
            assert!(read == payload[..read.len()]);
        }
    }
    assert!(symbols > 64 * 3, "{symbols}");
}

#[test]
fn the_longest_frame() {
    let mut draw = Draw::new(102);
    let s = any_settings(20, 0, 65_535, &mut draw);
    let payload = draw.bytes(65_535);
    let frame = by_symbols(s, &payload);
    assert_eq!(frame.len(), 20_166 * 112);
    let (answer, after) = written(s, &payload, frame.len());
    assert_eq!(answer, Ok(frame.len()));
    assert!(after == with_frame(&frame, frame.len()));
}

/// One float too few for the frame is 8, also where every symbol but the last has room.
#[test]
fn a_frame_has_to_fit_whole() {
    let mut draw = Draw::new(103);
    for (width, mcs) in widths_and_mcs() {
        let length = 1 + draw.below(200) as u32;
        let s = any_settings(width, mcs, length, &mut draw);
        let payload = draw.bytes(length as usize);
        let (one, all) = (floats_per_symbol(s).unwrap(), floats_per_frame(s).unwrap());
        for room in [0, 1, one - 1, all - one, all - 1] {
            let (answer, after) = written(s, &payload, room);
            assert_eq!(answer, Err(8), "{s:?}, room for {room} of {all}");
            assert!(after == bits(&memory(room)), "{s:?}, room for {room}");
        }
    }
}

/// Any of the refusals at once: the first is given, and nothing is written.
#[test]
fn refusals_in_order() {
    let good = GOOD.mcs(8).length(40);
    let all = floats_per_frame(good).unwrap();
    let mut given = [0; 9];
    for mask in 0..1u32 << 7 {
        let bad = |bit: u32| mask >> bit & 1 == 1;
        let mut s = good;
        s.width = if bad(0) { 30 } else { s.width };
        s.mcs = if bad(1) { 32 } else { s.mcs };
        s.format = if bad(2) { 2 } else { s.format };
        s.length = if bad(3) { 65_536 } else { s.length };
        s.seed = if bad(4) { 128 } else { s.seed };
        let payload = vec![0x5A; if bad(5) { 39 } else { 40 }];
        let room = if bad(6) { all - 1 } else { all };
        let (answer, after) = written(s, &payload, room);
        // The bits of the mask stand in the order of the tests; 7 is no refusal of a whole frame.
        let first = mask.trailing_zeros();
        let want = match first {
            0..=5 => first + 1,
            6 => 8,
            _ => {
                assert_eq!(answer, Ok(all));
                continue;
            }
        };
        assert_eq!(answer, Err(want), "{s:?}, mask {mask:b}");
        assert!(after == bits(&memory(room)), "{s:?}, mask {mask:b}");
        let by_vec = numbered(frame_points(s, &payload)).map(|frame| frame.len());
        assert_eq!(by_vec, if want == 8 { Ok(all) } else { Err(want) });
        if first < 5 {
            assert_eq!(numbered(floats_per_frame(s)), Err(want));
        }
        given[want as usize] += 1;
    }
    assert_eq!(given, [0, 64, 32, 16, 8, 4, 2, 0, 1]);
}
