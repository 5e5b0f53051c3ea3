//! Times the core's points calls beside two Rust programs of the same steps: a plain one, bit by bit and without tables,
//! and the same tidied. Before it measures, it compares the three by bits on every symbol that it will measure.
//!
//! It also times the core reading the same symbols back, step by step, against writing them, and a whole frame by one call
//! against the steps; before that, it compares the bytes read with the payload.
//!
//! The first argument is the number of runs, 21 without one.

#![deny(unsafe_code)]

#[allow(unsafe_code)]
mod clock;
mod plain;
mod tidy;

use ht_core::raw::{reader_start, reader_step};
use ht_core::{
    carrier, floats_per_symbol, read_frame, symbol_count, Carrier, Refusal, Settings, Width,
};
use std::hint::black_box;
use std::time::{Duration, Instant};

/// A points call.
type Points = fn(Settings, &[u8], u32, &mut [f32]) -> Result<usize, Refusal>;

const NAMES: [&str; 3] = ["core", "plain", "tidied"];
const PROGRAMS: [Points; 3] = [core_points, plain::points, tidy::points];

fn core_points(
    s: Settings,
    payload: &[u8],
    symbol: u32,
    out: &mut [f32],
) -> Result<usize, Refusal> {
    ht_core::points(s, payload, symbol, out)
}

/// The measured frames: MCS and width.
const CASES: [(u32, u32); 3] = [(31, 40), (15, 20), (0, 20)];

fn settings(mcs: u32, width: u32, length: u32) -> Settings {
    let width = Width::try_from(width).expect("a width");
    Settings::new(width, mcs, length, 93)
}

/// The same bytes on every run (xorshift64*).
fn random_bytes(count: usize) -> Vec<u8> {
    let mut state = 0x9E37_79B9_7F4A_7C15u64;
    (0..count)
        .map(|_| {
            state ^= state >> 12;
            state ^= state << 25;
            state ^= state >> 27;
            (state.wrapping_mul(0x2545_F491_4F6C_DD1D) >> 56) as u8
        })
        .collect()
}

/// A frame with what is asked of it.
struct Frame {
    s: Settings,
    payload: Vec<u8>,
    symbols: u32,
    /// The floats of one symbol.
    floats: usize,
}

/// What the question is asked of: a stream, a data subcarrier, and where its point begins in the floats.
#[derive(Clone, Copy)]
struct Place {
    stream: u32,
    subcarrier: i32,
    first_float: usize,
}

impl Frame {
    fn new(s: Settings) -> Frame {
        Frame {
            s,
            payload: random_bytes(s.length as usize),
            symbols: symbol_count(s).expect("accepted settings"),
            floats: floats_per_symbol(s).expect("accepted settings"),
        }
    }

    /// The question's place in a symbol, another one each time.
    fn place(&self, symbol: u32) -> Place {
        let (inner, outer, pilots): (i32, i32, &[i32]) = if self.s.width == 40 {
            (2, 58, &[11, 25, 53])
        } else {
            (1, 28, &[7, 21])
        };
        let used: Vec<i32> = (-outer..=-inner).chain(inner..=outer).collect();
        let streams = self.s.mcs / 8 + 1;
        let stream = symbol % streams;
        // Every 13th subcarrier in turn, or the next one where that is a pilot.
        let mut index = symbol as usize * 13 % used.len();
        while pilots.contains(&used[index].abs()) {
            index += 1;
        }
        Place {
            stream,
            subcarrier: used[index],
            first_float: 2 * (used.len() * stream as usize + index),
        }
    }

    /// All symbols of the frame by the core, one after the other.
    fn all_points(&self) -> Vec<f32> {
        let mut all = vec![0.0; self.floats * self.symbols as usize];
        for (symbol, out) in (0..).zip(all.chunks_exact_mut(self.floats)) {
            core_points(self.s, &self.payload, symbol, out).expect("a symbol of the frame");
        }
        all
    }

    /// Whether the core reads the payload and the seed back from these points, by steps and by one call.
    fn is_read_back(&self, all: &[f32]) -> bool {
        self.is_read_by_steps(all) && self.is_read_by_one_call(all)
    }

    fn is_read_by_one_call(&self, all: &[f32]) -> bool {
        let mut read: Vec<u8> = self.payload.iter().map(|byte| !byte).collect();
        read_frame(self.s, all, &mut read) == Ok(self.s.seed) && read == self.payload
    }

    /// The same by steps, and that the reader then needs no more symbols.
    fn is_read_by_steps(&self, all: &[f32]) -> bool {
        // No byte is right before it is read.
        let mut read: Vec<u8> = self.payload.iter().map(|byte| !byte).collect();
        let mut state = reader_start(self.s).expect("accepted settings");
        let mut seed = 0;
        for points in all.chunks_exact(self.floats) {
            let step = reader_step(self.s, state, points, &mut read);
            if step.number != 0 {
                return false;
            }
            seed += step.seed;
            state = step.state;
        }
        let finished = 1 << 48 | u64::from(self.symbols);
        seed == self.s.seed && read == self.payload && state & (1 << 48 | 0xFFFF) == finished
    }

    /// The first symbol on which the programs differ by a bit, or on which the question and the first program do.
    fn disagreement(&self, programs: [Points; 3]) -> Option<u32> {
        (0..self.symbols).find(|symbol| !self.agree(programs, *symbol))
    }

    fn agree(&self, programs: [Points; 3], symbol: u32) -> bool {
        let [one, two, three] = programs.map(|points| {
            let mut out = vec![f32::NAN; self.floats];
            let answer = points(self.s, &self.payload, symbol, &mut out);
            let bits: Vec<u32> = out.iter().map(|f| f.to_bits()).collect();
            (answer, bits)
        });
        let place = self.place(symbol);
        let answer = carrier(
            self.s,
            &self.payload,
            symbol,
            place.stream,
            place.subcarrier,
        );
        let Ok(Carrier::Data { first, second }) = answer else {
            return false;
        };
        let point = if self.s.width == 40 && place.subcarrier > 0 {
            [0.0 - second, first]
        } else {
            [first, second]
        };
        one.0 == Ok(self.floats)
            && one == two
            && one == three
            && one.1[place.first_float..][..2] == point.map(f32::to_bits)
    }
}

/// What one run took.
#[derive(Clone, Copy)]
struct Time {
    cpu: Duration,
    wall: Duration,
}

fn time(work: impl FnOnce()) -> Time {
    let (wall, cpu) = (Instant::now(), clock::thread_cpu_time());
    work();
    Time {
        cpu: clock::thread_cpu_time() - cpu,
        wall: wall.elapsed(),
    }
}

/// All symbols of the frame, one call each, into one buffer.
fn time_points(points: Points, frame: &Frame, out: &mut [f32]) -> Time {
    time(|| {
        for symbol in 0..frame.symbols {
            let answer = points(frame.s, black_box(&frame.payload), symbol, out);
            assert!(black_box(answer).is_ok());
            black_box(&mut *out);
        }
    })
}

/// One question of each symbol of the frame.
fn time_question(frame: &Frame, places: &[Place]) -> Time {
    time(|| {
        for (symbol, place) in (0..).zip(places) {
            let payload = black_box(&frame.payload);
            let answer = carrier(frame.s, payload, symbol, place.stream, place.subcarrier);
            assert!(black_box(answer).is_ok());
        }
    })
}

/// All symbols of the frame read back, one step each, from one slice of all points into one payload.
fn time_reading(frame: &Frame, all: &[f32], payload: &mut [u8]) -> Time {
    time(|| {
        let mut state = reader_start(frame.s).expect("accepted settings");
        for points in black_box(all).chunks_exact(frame.floats) {
            let step = reader_step(frame.s, state, points, payload);
            assert_eq!(step.number, 0);
            state = step.state;
            black_box(&mut *payload);
        }
    })
}

/// The same by one call.
fn time_one_call(frame: &Frame, all: &[f32], payload: &mut [u8]) -> Time {
    time(|| {
        let seed = read_frame(frame.s, black_box(all), payload);
        assert!(black_box(seed).is_ok());
        black_box(&mut *payload);
    })
}

/// The middle one of the sorted durations (of an even number the later of two), in milliseconds.
fn median(mut durations: Vec<Duration>) -> f64 {
    durations.sort();
    durations[durations.len() / 2].as_secs_f64() * 1e3
}

/// Medians in milliseconds: of the three programs, then of the question, then of reading by steps and by one call.
struct Medians {
    cpu: [f64; 6],
    wall: [f64; 6],
}

fn measure(frame: &Frame, all: &[f32], runs: usize) -> Medians {
    let places: Vec<Place> = (0..frame.symbols).map(|n| frame.place(n)).collect();
    let mut out = vec![0.0; frame.floats];
    let mut payload = vec![0; frame.payload.len()];
    let mut at_once = payload.clone();
    let mut times: [Vec<Time>; 6] = Default::default();
    // The first round warms up and is not counted.
    for round in 0..=runs {
        for turn in 0..times.len() {
            let subject = (turn + round) % times.len();
            let took = match subject {
                3 => time_question(frame, &places),
                4 => time_reading(frame, all, &mut payload),
                5 => time_one_call(frame, all, &mut at_once),
                program => time_points(PROGRAMS[program], frame, &mut out),
            };
            if round > 0 {
                times[subject].push(took);
            }
        }
    }
    let medians = |of: fn(&Time) -> Duration| {
        [0, 1, 2, 3, 4, 5].map(|subject| median(times[subject].iter().map(of).collect()))
    };
    for read in [payload, at_once] {
        assert!(read == frame.payload, "what was read is not the payload");
    }
    Medians {
        cpu: medians(|time| time.cpu),
        wall: medians(|time| time.wall),
    }
}

fn report(frame: &Frame, medians: &Medians) {
    println!("clock  program         ms  us/symbol  to plain  to tidied");
    for (clock, ms) in [("cpu", medians.cpu), ("wall", medians.wall)] {
        let us = ms.map(|ms| ms * 1e3 / f64::from(frame.symbols));
        let [core, plain, tidied, question, reading, one_call] = ms;
        for (program, name) in NAMES.iter().enumerate() {
            println!(
                "{clock:5}  {name:7} {:>10.3} {:>10.3} {:>9.3} {:>10.3}",
                ms[program],
                us[program],
                ms[program] / plain,
                ms[program] / tidied
            );
        }
        println!(
            "{clock:5}  one question {:.3} us: {:.3} of one points call of the core",
            us[3],
            question / core
        );
        println!(
            "{clock:5}  core, us/symbol: write {:.3}, read {:.3}; read / write {:.3}",
            us[0],
            us[4],
            reading / core
        );
        println!(
            "{clock:5}  core, us/symbol: read by one call {:.3}; one call / steps {:.3}",
            us[5],
            one_call / reading
        );
    }
}

fn main() {
    let runs = match std::env::args().nth(1).map(|runs| runs.parse()) {
        None => 21,
        Some(Ok(runs)) if runs > 0 => runs,
        _ => {
            eprintln!("usage: bench [number of runs, 21 if not given]");
            std::process::exit(2);
        }
    };
    println!(
        "Frames of 65,535 bytes, random payload, seed 93, mixed format; one points call for each symbol in order."
    );
    println!(
        "Medians of {runs} runs, interleaved in one process with the order rotated, after one run that is not counted."
    );
    println!(
        "The points buffer is not cleared between calls; working memory that a call clears is in its time."
    );
    println!(
        "Reading takes the symbols in order from one slice of all points; writing uses one symbol's buffer again."
    );
    println!(
        "Reading by one call takes the same slice and payload; it reads into bytes of its own, which it clears and copies."
    );
    println!("cpu is the thread's CPU time, wall the time that passed.");
    for (mcs, width) in CASES {
        let frame = Frame::new(settings(mcs, width, 65_535));
        println!();
        println!(
            "MCS {mcs}, {width} MHz: {} symbols of {} floats",
            frame.symbols, frame.floats
        );
        if let Some(symbol) = frame.disagreement(PROGRAMS) {
            eprintln!("the programs disagree on symbol {symbol}");
            std::process::exit(1);
        }
        println!("core, plain and tidied agree by bits on every symbol");
        let all = frame.all_points();
        if !frame.is_read_back(&all) {
            eprintln!("the core does not read its own symbols back");
            std::process::exit(1);
        }
        println!("the core reads payload and seed back, by steps and by one call");
        report(&frame, &measure(&frame, &all, runs));
    }
}

#[cfg(test)]
mod tests {
    use super::*;

    fn bits(floats: &[f32]) -> Vec<u32> {
        floats.iter().map(|f| f.to_bits()).collect()
    }

    /// Every symbol of frames of every MCS, width and format and some short lengths, with three floats past the points.
    #[test]
    fn plain_and_tidied_agree_with_the_core() {
        let mut symbols = 0;
        for width in [20, 40] {
            for mcs in 0..32 {
                for length in [1, 2, 3, 7, 8, 60, 333] {
                    for format in 0..2 {
                        let mut frame = Frame::new(settings(mcs, width, length));
                        frame.s.format = format;
                        frame.s.seed = 1 + (31 * mcs + 7 * length) % 127;
                        for symbol in 0..frame.symbols {
                            let [core, plain, tidied] = PROGRAMS.map(|points| {
                                let mut out = vec![9.0; frame.floats + 3];
                                let answer = points(frame.s, &frame.payload, symbol, &mut out);
                                (answer, bits(&out))
                            });
                            assert_eq!(core.0, Ok(frame.floats));
                            assert!(core == plain, "plain: symbol {symbol} of {:?}", frame.s);
                            assert!(core == tidied, "tidied: symbol {symbol} of {:?}", frame.s);
                            symbols += 1;
                        }
                    }
                }
            }
        }
        assert_eq!(symbols, 2 * (65 + 65 + 65 + 70 + 72 + 189 + 857));
    }

    /// Refusals 1 to 8, several at a time, in the same order; nothing is written.
    #[test]
    fn plain_and_tidied_refuse_as_the_core() {
        let good = settings(9, 40, 50);
        let payload = random_bytes(50);
        let mut refused = 0;
        for mask in 1..256u32 {
            let bad = |number: u32| mask >> (number - 1) & 1 == 1;
            let s = good
                .width(if bad(1) { 30 } else { good.width })
                .mcs(if bad(2) { 32 } else { good.mcs })
                .format(if bad(3) { 2 } else { good.format })
                .length(if bad(4) { 65_536 } else { good.length })
                .seed(if bad(5) { 128 } else { good.seed });
            let payload = &payload[..if bad(6) { 49 } else { 50 }];
            let symbol = if bad(7) { 2 } else { 1 };
            let room = if bad(8) { 455 } else { 456 };
            for points in PROGRAMS {
                let mut out = vec![9.0; room];
                let answer = points(s, payload, symbol, &mut out);
                assert_eq!(
                    answer.map_err(Refusal::number),
                    Err(mask.trailing_zeros() + 1)
                );
                assert_eq!(bits(&out), vec![9f32.to_bits(); room]);
                refused += 1;
            }
        }
        assert_eq!(refused, 3 * 255);
    }

    /// What is measured is compared first: the question's places are data, and agree with the points.
    #[test]
    fn the_measured_frames_agree() {
        for (mcs, width) in CASES {
            let frame = Frame::new(settings(mcs, width, 2_000));
            assert_eq!(frame.disagreement(PROGRAMS), None);
            assert!(frame.symbols > 7);
        }
    }

    /// What is measured is read first: other points, and points of another payload, are not.
    #[test]
    fn the_measured_frames_are_read_back() {
        for (mcs, width) in CASES {
            let frame = Frame::new(settings(mcs, width, 2_000));
            let all = frame.all_points();
            let read = |all: &[f32]| (frame.is_read_by_steps(all), frame.is_read_by_one_call(all));
            assert_eq!(read(&all), (true, true));
            assert!(frame.is_read_back(&all));
            assert_eq!(read(&all[..all.len() - frame.floats]), (false, false));
            let mut damaged = all.clone();
            damaged[all.len() - 1] = f32::NAN;
            assert_eq!(read(&damaged), (false, false));
            let mut other = Frame::new(frame.s);
            other.payload[1_999] ^= 128;
            assert_eq!(read(&other.all_points()), (false, false));
            other.payload[1_999] ^= 128;
            other.s.seed = 94;
            assert_eq!(read(&other.all_points()), (false, false));
            assert!(!frame.is_read_back(&other.all_points()));
        }
    }

    /// Six medians: of three programs, the question, and reading by steps and by one call.
    #[test]
    fn everything_is_measured() {
        let frame = Frame::new(settings(0, 20, 200));
        let medians = measure(&frame, &frame.all_points(), 1);
        assert!(medians.cpu.iter().chain(&medians.wall).all(|ms| *ms > 0.0));
    }

    /// The plain program with one bit of one symbol turned over: a zero gets a sign.
    fn nearly_plain(
        s: Settings,
        payload: &[u8],
        symbol: u32,
        out: &mut [f32],
    ) -> Result<usize, Refusal> {
        let answer = plain::points(s, payload, symbol, out);
        if symbol == 5 {
            out[1] = -out[1];
        }
        answer
    }

    #[test]
    fn a_difference_in_one_bit_is_found() {
        let frame = Frame::new(settings(0, 20, 60));
        assert_eq!(frame.disagreement(PROGRAMS), None);
        let [core, plain, tidied] = PROGRAMS;
        for programs in [
            [nearly_plain, plain, tidied],
            [core, nearly_plain, tidied],
            [core, plain, nearly_plain],
        ] {
            assert_eq!(frame.disagreement(programs), Some(5));
        }
    }

    #[test]
    fn the_median_is_the_middle_one() {
        let ms = |n: u64| Duration::from_millis(n);
        assert_eq!(median(vec![ms(9), ms(1), ms(2)]), 2.0);
        assert_eq!(median(vec![ms(5)]), 5.0);
    }
}
