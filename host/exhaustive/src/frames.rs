//! Every symbol of whole frames, there and back: each program's floats against the other's, and read by the other.

use crate::common::reading::{edge_length, number_of, Edge};
use crate::common::{any_settings, second_open, second_settings, widths_and_mcs, Draw};
use crate::outcome::{compare, grouped, print_difference, Outcome};
use crate::parallel;
use ht_core::{points, OpenSettings, Reader, Settings, Step, MAX_FLOATS};
use second::{Answer, FrameAnswer};
use std::cmp::Reverse;
use std::fmt;
use std::ops::AddAssign;

/// What the settings and the payloads are drawn from.
const SEED: u64 = 0x4854_0002;

/// Symbols of a middling frame.
const SOME_SYMBOLS: u32 = 36;

/// Bytes past the payload; they have to stay.
const REST: usize = 5;

/// How many were compared, and how many of these differ.
#[derive(Debug, Default)]
pub struct Tally {
    pub frames: u64,
    pub symbols: u64,
    pub floats: u64,
    pub symbols_differ: u64,
    /// Frames read, each by four readings, and the payload bytes of one of them.
    pub readings: u64,
    pub bytes: u64,
    pub readings_differ: u64,
}

/// Frames of every `stride`-th MCS, width and format; the longest has `longest` bytes.
pub fn run(longest: u32, stride: usize) -> Tally {
    let frames = settings(longest, stride);
    parallel::sum(frames.len() as u64, |job| {
        let s = frames[job as usize];
        let mut draw = parallel::draw(SEED, job);
        let payload = draw.bytes(s.length as usize);
        let name = format!("frame {job} of {SEED:#x}, {s:?}");
        let mut tally = Tally::default();
        tally.compare_frame(&name, s, &payload, &mut draw);
        tally
    })
}

/// The settings of all frames. Those with the most symbols come first, so that no thread begins a long one at the end.
fn settings(longest: u32, stride: usize) -> Vec<Settings> {
    let mut draw = Draw::new(SEED);
    let combinations =
        widths_and_mcs().flat_map(|(width, mcs)| [(width, mcs, 0u32), (width, mcs, 1)]);
    let mut frames = Vec::new();
    for (width, mcs, format) in combinations.step_by(stride) {
        for length in lengths(width, mcs, longest) {
            let s = any_settings(width, mcs, length, &mut draw);
            frames.push(s.format(format));
        }
    }
    frames.sort_by_key(|s| Reverse(second::symbol_count(&second_settings(*s))));
    frames
}

/// One byte; the tail in two symbols, at the start of one, and at the end of one with no pad, as far as the MCS has these;
/// some dozens of symbols; the longest.
fn lengths(width: u32, mcs: u32, longest: u32) -> Vec<u32> {
    let d = second::data_bits_per_symbol(width, mcs);
    let mut lengths = vec![1, (SOME_SYMBOLS * d - 16 - 12) / 8, longest];
    for edge in [Edge::TailInTwo, Edge::TailBegins, Edge::NoPad] {
        lengths.extend(edge_length(width, mcs, edge));
    }
    lengths
}

/// Reads a whole frame into a payload slice: the seed, or why not.
type Reading = fn(OpenSettings, &[f32], &mut [u8]) -> Result<u32, String>;

impl Tally {
    /// Compares a frame both ways. Its name says where the payload comes from, which may be too long to print.
    fn compare_frame(&mut self, name: &str, s: Settings, payload: &[u8], draw: &mut Draw) {
        let theirs = match second::frame_points(&second_settings(s), payload) {
            Ok(symbols) => symbols.concat(),
            Err(number) => panic!("the second program refuses {name} by {number}"),
        };
        let ours = self.compare_symbols(name, s, payload, &theirs);
        self.frames += 1;
        self.bytes += payload.len() as u64;
        // Each program reads what the other wrote.
        let readings: [(&str, Reading, &[f32]); 4] = [
            ("the core's steps", core_steps, &theirs),
            ("the second program's steps", second_steps, &ours),
            ("the core's read_frame", core_frame, &theirs),
            ("the second program's read_frame", second_frame, &ours),
        ];
        for (who, reading, floats) in readings {
            let mut read = draw.bytes(payload.len() + REST);
            let want = [payload, &read[payload.len()..]].concat();
            let seed = reading(s.into(), floats, &mut read);
            self.readings += 1;
            if seed != Ok(s.seed) || read != want {
                self.readings_differ += 1;
                let same = if read == want { "the" } else { "another" };
                print_difference(|| format!("{who} give {seed:?} and {same} payload of {name}"));
            }
        }
    }

    /// Each symbol of the core by the bits of its floats against the second program's; gives the core's.
    fn compare_symbols(
        &mut self,
        name: &str,
        s: Settings,
        payload: &[u8],
        theirs: &[f32],
    ) -> Vec<f32> {
        let count = u64::from(ht_core::symbol_count(s).unwrap_or(0));
        let each = second::floats_per_symbol(s.width, s.mcs) as usize;
        let symbols = (theirs.len() / each) as u64;
        self.symbols_differ += compare("number of symbols", &name, count, symbols);
        let mut ours = Vec::new();
        for (n, want) in (0..).zip(theirs.chunks(each)) {
            let mut out = [f32::NAN; MAX_FLOATS];
            let written = points(s, payload, n, &mut out);
            let got = &out[..each];
            self.symbols += 1;
            self.floats += each as u64;
            let differ = |(a, b): (&f32, &f32)| a.to_bits() != b.to_bits();
            if written != Ok(each) || got.iter().zip(want).any(differ) {
                self.symbols_differ += 1;
                print_difference(|| {
                    format!(
                        "symbol {n} of {name}: {written:?}, core {got:?}, second program {want:?}"
                    )
                });
            }
            ours.extend(got);
        }
        ours
    }
}

fn core_steps(open: OpenSettings, floats: &[f32], payload: &mut [u8]) -> Result<u32, String> {
    let mut reader = Reader::start(open).map_err(|refusal| refusal.to_string())?;
    let mut symbols = floats.chunks(reader.floats());
    while let Some(symbol) = symbols.next() {
        let n = reader.symbol();
        match reader.step(symbol, payload) {
            Ok(Step::Next { reader: next, .. }) => reader = next,
            Ok(Step::Done { seed }) if symbols.len() == 0 => return Ok(seed),
            other => return Err(format!("{other:?} for symbol {n}")),
        }
    }
    Err("the reader waits for more".to_string())
}

fn core_frame(open: OpenSettings, floats: &[f32], payload: &mut [u8]) -> Result<u32, String> {
    ht_core::read_frame(open, floats, payload).map_err(|refusal| refusal.to_string())
}

fn second_steps(open: OpenSettings, floats: &[f32], payload: &mut [u8]) -> Result<u32, String> {
    let open = second_open(open);
    let mut state = second::reader_start(&open).map_err(|number| number.to_string())?;
    let mut frame_seed = 0;
    let each = second::floats_per_symbol(open.width, open.mcs) as usize;
    for symbol in floats.chunks(each) {
        let (answer, after) = second::reader_step(&open, &state, symbol, payload);
        let Answer::Accepted { seed } = answer else {
            return Err(format!("{answer:?} from {:#x}", number_of(&state)));
        };
        if state.symbol == 0 {
            frame_seed = seed;
        }
        state = after;
    }
    match state.ended {
        true => Ok(frame_seed),
        false => Err("the reader waits for more".to_string()),
    }
}

fn second_frame(open: OpenSettings, floats: &[f32], payload: &mut [u8]) -> Result<u32, String> {
    match second::read_frame(&second_open(open), floats, payload) {
        FrameAnswer::Accepted { seed } => Ok(seed),
        other => Err(format!("{other:?}")),
    }
}

impl AddAssign for Tally {
    fn add_assign(&mut self, more: Tally) {
        self.frames += more.frames;
        self.symbols += more.symbols;
        self.floats += more.floats;
        self.symbols_differ += more.symbols_differ;
        self.readings += more.readings;
        self.bytes += more.bytes;
        self.readings_differ += more.readings_differ;
    }
}

impl Outcome for Tally {
    fn passed(&self) -> bool {
        self.frames > 0 && self.symbols_differ == 0 && self.readings_differ == 0
    }
}

impl fmt::Display for Tally {
    fn fmt(&self, f: &mut fmt::Formatter<'_>) -> fmt::Result {
        let [frames, symbols, floats] = [self.frames, self.symbols, self.floats].map(grouped);
        let [readings, bytes] = [self.readings, self.bytes].map(grouped);
        let [symbols_differ, readings_differ] =
            [self.symbols_differ, self.readings_differ].map(grouped);
        writeln!(
            f,
            "frames: seed {SEED:#x}: {frames} frames of {bytes} bytes"
        )?;
        writeln!(
            f,
            "frames: there: {symbols} symbols, {floats} floats compared, {symbols_differ} symbols differ"
        )?;
        writeln!(
            f,
            "frames: back: {readings} readings compared, {readings_differ} differ"
        )
    }
}
