//! What the reader's tests share: one step of both programs with guarded memory, frames with their states, symbols made
//! of any data bits, and damage of every kind.

use super::{any_settings, bits, numbered, pilot_places, second_open, second_settings, Draw};
use ht_core::raw::{reader_place, reader_start, reader_step, StepResult};
use ht_core::{points, symbol_count, OpenSettings, Settings};
use second::{Answer, State};
use std::ops::Range;

/// The end mark of a state, and the lowest number that is no state.
pub const ENDED: u64 = 1 << 48;
pub const NO_STATE: u64 = 1 << 49;

/// The state as the C calls take it.
pub fn number_of(state: &State) -> u64 {
    let [first, second] = state.history;
    state.symbol
        + (first << 16)
        + (second << 24)
        + (state.scrambler << 32)
        + (state.part << 40)
        + (u64::from(state.ended) << 48)
}

/// The state of a number below 2^49.
pub fn state_of(number: u64) -> State {
    assert!(number < NO_STATE);
    State {
        symbol: number & 0xFFFF,
        history: [number >> 16 & 0xFF, number >> 24 & 0xFF],
        scrambler: number >> 32 & 0xFF,
        part: number >> 40 & 0xFF,
        ended: number >> 48 == 1,
    }
}

/// What comes back for a number that is no state: modulo 2^48, with its end marked.
pub fn closed(number: u64) -> u64 {
    (number % ENDED) | ENDED
}

/// Bytes on both sides of a lent payload slice and floats on both sides of lent points; they have to stay too.
pub const GUARD: usize = 16;

/// Memory with some bytes to lend between the guards; any bytes stand in it before.
#[derive(Clone)]
pub struct Lent {
    memory: Vec<u8>,
}

impl Lent {
    pub fn new(room: usize, draw: &mut Draw) -> Lent {
        Lent {
            memory: draw.bytes(GUARD + room + GUARD),
        }
    }

    /// The bytes and their guards.
    pub fn memory(&self) -> &[u8] {
        &self.memory
    }

    pub fn bytes(&self) -> &[u8] {
        &self.memory[GUARD..self.memory.len() - GUARD]
    }

    pub fn slice(&mut self) -> &mut [u8] {
        let end = self.memory.len() - GUARD;
        &mut self.memory[GUARD..end]
    }
}

/// Floats between guards of signalling NaNs that all differ.
pub fn guarded(points: &[f32]) -> Vec<f32> {
    let guard = |first: u32| (first..).take(GUARD).map(f32::from_bits);
    guard(0x7F80_0001)
        .chain(points.iter().copied())
        .chain(guard(0xFF80_0001))
        .collect()
}

/// What a step gives, in a form that a test can write down.
#[derive(Clone, Copy, Debug, PartialEq, Eq)]
pub struct Stepped {
    pub number: u32,
    pub seed: u32,
    pub state: u64,
}

impl From<StepResult> for Stepped {
    fn from(step: StepResult) -> Stepped {
        Stepped {
            number: step.number,
            seed: step.seed,
            state: step.state,
        }
    }
}

/// What a place call gives.
pub type Place = Result<Option<(u32, i32)>, u32>;

/// A step and the place as the second program has them. It has no state for a number of 2^49 or more.
fn second_step(
    open: OpenSettings,
    number: u64,
    points: &[f32],
    payload: &mut [u8],
) -> (Stepped, Place) {
    let refused = |number, state| Stepped {
        number,
        seed: 0,
        state,
    };
    if number >= NO_STATE {
        return (refused(12, closed(number)), Err(12));
    }
    let (open, state) = (second_open(open), state_of(number));
    let (answer, after) = second::reader_step(&open, &state, points, payload);
    let after = number_of(&after);
    match answer {
        Answer::Accepted { seed } => {
            let accepted = Stepped {
                number: 0,
                seed,
                state: after,
            };
            (accepted, Ok(None))
        }
        Answer::Point { stream, subcarrier } => (refused(9, after), Ok(Some((stream, subcarrier)))),
        Answer::Refused(given) => (
            refused(given, after),
            second::reader_place(&open, &state, points),
        ),
    }
}

/// Steps of both programs, counted by their number (0 where the symbol was accepted).
#[derive(Debug, Default)]
pub struct Both {
    pub given: [usize; 13],
    /// Payload bytes that were lent and compared.
    pub bytes: usize,
}

impl Both {
    pub fn steps(&self) -> usize {
        self.given.iter().sum()
    }

    /// One step of both programs from a state: number, seed, returned state, place, and all memory. The payload slice is
    /// left as the core leaves it.
    pub fn step(
        &mut self,
        open: impl Into<OpenSettings>,
        state: u64,
        points: &[f32],
        lent: &mut Lent,
    ) -> (Stepped, Place) {
        let open = open.into();
        let before = lent.clone();
        let mut theirs = lent.clone();
        let (want, want_place) = second_step(open, state, points, theirs.slice());

        let floats = guarded(points);
        let slice = &floats[GUARD..GUARD + points.len()];
        let got = Stepped::from(reader_step(open, state, slice, lent.slice()));
        let context = || {
            let (floats, room) = (points.len(), lent.bytes().len());
            format!("state {state:#x} of {open:?}, {floats} floats, room for {room}")
        };
        assert_eq!(got, want, "{}", context());
        assert!(lent.memory == theirs.memory, "payload of {}", context());
        let place = numbered(reader_place(open, state, slice));
        assert_eq!(place, want_place, "{}", context());
        assert!(
            bits(&floats) == bits(&guarded(points)),
            "points of {}",
            context()
        );

        // What holds of every step, whatever the second program says.
        match got.number {
            0 => assert_eq!(place, Ok(None)),
            12 if state >= NO_STATE => assert_eq!(got.state, closed(state), "{}", context()),
            8 | 12 => assert_eq!(got.state, state, "{}", context()),
            _ => {
                assert_eq!(got.state, state | ENDED, "{}", context());
                assert_eq!(got.number == 9, place != Ok(None), "{}", context());
            }
        }
        if got.number != 0 {
            assert_eq!(got.seed, 0, "{}", context());
            assert!(lent.memory == before.memory, "bytes of {}", context());
        }
        self.given[got.number as usize] += 1;
        self.bytes += lent.bytes().len();
        (got, place)
    }
}

/// The data bits of symbol n, by their numbers in the frame.
pub fn own_numbers(open: OpenSettings, n: usize) -> Range<usize> {
    let d = second::data_bits_per_symbol(open.width, open.mcs) as usize;
    n * d..(n + 1) * d
}

/// What a data bit is, by its number in the frame.
#[derive(Clone, Copy, Debug, PartialEq, Eq)]
pub enum Kind {
    Service,
    Payload,
    Tail,
    Pad,
}

pub fn kind(open: OpenSettings, number: usize) -> Kind {
    let tail = 16 + 8 * open.length as usize;
    let pad = tail + 6 * second::encoders(open.mcs) as usize;
    match number {
        n if n < 16 => Kind::Service,
        n if n < tail => Kind::Payload,
        n if n < pad => Kind::Tail,
        _ => Kind::Pad,
    }
}

/// The payload bits before symbol n.
pub fn payload_bits_before(open: OpenSettings, n: usize) -> usize {
    let before = own_numbers(open, n).start;
    before.saturating_sub(16).min(8 * open.length as usize)
}

/// Steps 2 to 8 for one symbol: its points from its data bits as the encoders take them, and from their histories.
pub fn forward(open: OpenSettings, n: usize, history: [u64; 2], data: &[u8]) -> Vec<f32> {
    let OpenSettings { width, mcs, .. } = open;
    let (nes, nss, b) = (
        second::encoders(mcs),
        second::streams(mcs),
        second::bits_per_carrier(mcs),
    );
    let kept: Vec<Vec<u8>> = (0..nes)
        .map(|j| {
            let earlier = [0, 1, 2, 3, 4, 5].map(|back| (history[j as usize] >> back & 1) as u8);
            let mut encoder = second::Encoder { earlier };
            let inputs = second::encoder_inputs(data, nes, j);
            let sums: Vec<(u8, u8)> = inputs.iter().map(|x| encoder.step(*x)).collect();
            second::puncture(&sums, second::rate(mcs))
        })
        .collect();
    let pilots = second::pilot_subcarriers(width);
    let mut floats = Vec::new();
    for (stream, dealt) in (0..).zip(second::deal(&kept, nss, b)) {
        let label_bits = second::interleave(width, b, stream, &dealt);
        let mut labels = second::carrier_labels(&label_bits, b).into_iter();
        for k in second::used_subcarriers(width) {
            let plain = match (0..).zip(&pilots).find(|(_, pilot)| **pilot == k) {
                Some((q, _)) => second::Point {
                    first: second::pilot(width, nss, stream, open.format, n as u64, q).unwrap(),
                    second: 0,
                },
                None => second::point(&labels.next().unwrap()).unwrap(),
            };
            let point = second::turned(width, k, plain);
            floats.extend([second::float(point.first), second::float(point.second)]);
        }
    }
    floats
}

/// Data bits of symbol n that a frame can have, with any payload bits, where the scrambler stands at `scrambler`.
pub fn frame_bits(open: OpenSettings, n: usize, scrambler: u32, draw: &mut Draw) -> Vec<u8> {
    let mut register = second::register(scrambler);
    own_numbers(open, n)
        .map(|number| {
            let output = register.step();
            match kind(open, number) {
                Kind::Service | Kind::Pad => output,
                Kind::Payload => draw.below(2) as u8,
                Kind::Tail => 0,
            }
        })
        .collect()
}

/// Any state in range before symbol n.
pub fn any_state(open: OpenSettings, n: usize, draw: &mut Draw) -> State {
    State {
        symbol: n as u64,
        history: [draw.below(64), draw.below(64)],
        scrambler: match n {
            0 => draw.below(256),
            _ => 1 + draw.below(127),
        },
        part: draw.below(1 << (payload_bits_before(open, n) % 8)),
        ended: false,
    }
}

/// A symbol that is accepted from a state in range.
pub fn symbol_from(open: OpenSettings, state: &State, draw: &mut Draw) -> Vec<f32> {
    let n = state.symbol as usize;
    let scrambler = match n {
        0 => 1 + draw.below(127) as u32,
        _ => state.scrambler as u32,
    };
    let data = frame_bits(open, n, scrambler, draw);
    forward(open, n, state.history, &data)
}

/// The points of one symbol by the core.
pub fn symbol(s: Settings, payload: &[u8], n: usize) -> Vec<f32> {
    let mut out = [f32::NAN; ht_core::MAX_FLOATS];
    let count = points(s, payload, n as u32, &mut out).unwrap();
    out[..count].to_vec()
}

/// A length with which a frame has a few symbols, up to `most`.
pub fn few_symbols(width: u32, mcs: u32, most: u64, draw: &mut Draw) -> u32 {
    let d = u64::from(second::data_bits_per_symbol(width, mcs));
    1 + draw.below((most * d).saturating_sub(40).max(8) / 8) as u32
}

/// Where a frame's tail lies.
#[derive(Clone, Copy, Debug, PartialEq, Eq)]
pub enum Edge {
    /// Its bits stand in two symbols.
    TailInTwo,
    /// It begins a symbol.
    TailBegins,
    /// It ends one: there is no pad.
    NoPad,
}

/// The shortest length of at least two symbols with this edge, if one of up to nine symbols has it.
pub fn edge_length(width: u32, mcs: u32, edge: Edge) -> Option<u32> {
    let d = second::data_bits_per_symbol(width, mcs);
    let tail_bits = 6 * second::encoders(mcs);
    let has_edge = |length: &u32| {
        let tail = 16 + 8 * length;
        let end = tail + tail_bits;
        match edge {
            Edge::TailInTwo => !tail.is_multiple_of(d) && tail / d != (end - 1) / d,
            Edge::TailBegins => tail.is_multiple_of(d),
            Edge::NoPad => end.is_multiple_of(d) && end > d,
        }
    };
    (1..9 * d / 8).find(has_edge)
}

/// Makes settings that are refused by number 1 to 4. The wrong numbers are near the right ones, or right ones with a bit
/// above the eighth or the sixteenth.
pub fn refused_settings(open: OpenSettings, number: u64, draw: &mut Draw) -> OpenSettings {
    let mut open = open;
    let bit = draw.of(&[1 << 8, 1 << 16, 1 << 31]);
    match number {
        1 => open.width = draw.of(&[0, 19, 21, 41, open.width | bit]),
        2 => open.mcs = draw.of(&[32, 33, u32::MAX, open.mcs | bit]),
        3 => open.format = draw.of(&[2, u32::MAX, open.format | bit]),
        _ => open.length = draw.of(&[0, 65_536, u32::MAX, open.length | 1 << 16]),
    }
    open
}

/// A frame with its symbols, the state before each of them by the core, and its data bits as the encoders take them.
pub struct Frame {
    pub s: Settings,
    pub open: OpenSettings,
    pub payload: Vec<u8>,
    pub symbols: Vec<Vec<f32>>,
    pub states: Vec<u64>,
    pub data: Vec<u8>,
}

impl Frame {
    pub fn new(s: Settings, draw: &mut Draw) -> Frame {
        let payload = draw.bytes(s.length as usize);
        let count = symbol_count(s).unwrap() as usize;
        let symbols: Vec<Vec<f32>> = (0..count).map(|n| symbol(s, &payload, n)).collect();
        let mut read = vec![0; payload.len()];
        let mut states = vec![reader_start(s).unwrap()];
        for floats in &symbols[..count - 1] {
            let step = reader_step(s, *states.last().unwrap(), floats, &mut read);
            assert_eq!(step.number, 0, "{s:?}");
            states.push(step.state);
        }
        let data = second::data_bits(&second_settings(s), &payload).unwrap();
        Frame {
            s,
            open: s.into(),
            payload,
            symbols,
            states,
            data,
        }
    }

    /// A frame of some symbols, up to `most`.
    pub fn any(width: u32, mcs: u32, most: u64, draw: &mut Draw) -> Frame {
        let length = few_symbols(width, mcs, most, draw);
        Frame::new(any_settings(width, mcs, length, draw), draw)
    }

    pub fn count(&self) -> usize {
        self.symbols.len()
    }

    /// The numbers of symbol n's data bits of a kind, counted in the symbol.
    fn own(&self, n: usize, wanted: Kind) -> Vec<usize> {
        let numbers = own_numbers(self.open, n);
        let of_kind = |number: &usize| kind(self.open, *number) == wanted;
        let start = numbers.start;
        numbers
            .filter(of_kind)
            .map(|number| number - start)
            .collect()
    }

    /// Symbol n with its data bits changed before they are encoded.
    fn remade(&self, n: usize, change: impl FnOnce(&mut [u8])) -> Vec<f32> {
        let mut own = self.data[own_numbers(self.open, n)].to_vec();
        change(&mut own);
        forward(self.open, n, state_of(self.states[n]).history, &own)
    }
}

/// Room for a payload of this length: mostly as much, at times more, or less.
pub fn any_room(length: usize, draw: &mut Draw) -> usize {
    match draw.below(24) {
        0 => draw.below(length as u64) as usize,
        1 => length - 1,
        2..=5 => length + 1 + draw.below(20) as usize,
        _ => length,
    }
}

/// What is done to a symbol.
#[derive(Clone, Copy, Debug, PartialEq, Eq)]
pub enum Damage {
    /// One bit of one float turned over.
    FloatBit,
    /// A zero's sign.
    NegativeZero,
    Nan,
    Infinity,
    /// A number that is no level of any constellation.
    NoLevel,
    /// A level that others have, on an axis of a data point.
    OtherConstellation,
    PilotSign,
    /// A pilot's two floats exchanged.
    PilotAxes,
    /// Another point of the same constellation.
    OtherPoint,
    /// A coded bit of a step of which A and B are kept.
    CodedBit,
    /// The same symbol with another payload.
    OtherPayload,
    OtherSeed,
    /// The same symbol with one payload bit turned over, before it, in it or after it.
    PayloadBit,
    /// The same symbol with the same payload, longer or shorter by some bytes.
    OtherLength,
    OtherFormat,
    SymbolBefore,
    SymbolAfter,
    /// The data points of the symbol before, and the right pilots.
    DataBefore,
    /// A data bit turned over before it is encoded.
    ServiceBit,
    TailBit,
    PadBit,
    /// Symbol 0 as the seed 0 would give it: its service and pad bits are 0 when they are encoded.
    SeedZero,
    /// Floats past the needed part.
    Junk,
}

impl Damage {
    /// Any kind; the code and the frame's form are damaged more often than the points.
    pub fn any(draw: &mut Draw) -> Damage {
        let form = [
            Damage::ServiceBit,
            Damage::TailBit,
            Damage::PadBit,
            Damage::OtherLength,
        ];
        match draw.below(3) {
            0 => draw.of(&Damage::ALL),
            1 => draw.of(&[Damage::OtherPoint, Damage::CodedBit, Damage::PayloadBit]),
            _ => draw.of(&form),
        }
    }

    pub const ALL: [Damage; 23] = [
        Damage::FloatBit,
        Damage::NegativeZero,
        Damage::Nan,
        Damage::Infinity,
        Damage::NoLevel,
        Damage::OtherConstellation,
        Damage::PilotSign,
        Damage::PilotAxes,
        Damage::OtherPoint,
        Damage::CodedBit,
        Damage::OtherPayload,
        Damage::OtherSeed,
        Damage::PayloadBit,
        Damage::OtherLength,
        Damage::OtherFormat,
        Damage::SymbolBefore,
        Damage::SymbolAfter,
        Damage::DataBefore,
        Damage::ServiceBit,
        Damage::TailBit,
        Damage::PadBit,
        Damage::SeedZero,
        Damage::Junk,
    ];

    /// The number that a step from the frame's own state gives, where it is always the same.
    pub fn always(self) -> Option<u32> {
        match self {
            Damage::NegativeZero
            | Damage::Nan
            | Damage::Infinity
            | Damage::NoLevel
            | Damage::OtherConstellation
            | Damage::PilotSign
            | Damage::PilotAxes => Some(9),
            Damage::CodedBit => Some(10),
            Damage::ServiceBit | Damage::TailBit | Damage::PadBit | Damage::SeedZero => Some(11),
            Damage::Junk => Some(0),
            _ => None,
        }
    }

    /// Does it to symbol n of a frame, whose floats stand in `floats`; nothing where the symbol has no place for it.
    pub fn apply(self, frame: &Frame, n: usize, floats: &mut Vec<f32>, draw: &mut Draw) -> bool {
        let width = frame.open.width;
        let used = pilot_places(width).1;
        let any_float = draw.below(floats.len() as u64) as usize;
        match self {
            Damage::FloatBit => {
                let bit = draw.below(32);
                floats[any_float] = f32::from_bits(floats[any_float].to_bits() ^ 1 << bit);
            }
            Damage::NegativeZero => {
                let zeros: Vec<usize> = (0..floats.len())
                    .filter(|f| floats[*f].to_bits() == 0)
                    .collect();
                if zeros.is_empty() {
                    return false;
                }
                floats[draw.of(&zeros)] = -0.0;
            }
            Damage::Nan => {
                let any = 0x7F80_0001 + draw.below(0x7F_FFFF) as u32;
                let sign = draw.of(&[0, 1 << 31]);
                let nan = draw.of(&[0x7FC0_0000, 0x7F80_0001, 0x7FFF_FFFF, 0x7FA0_0001, any]);
                floats[any_float] = f32::from_bits(nan | sign);
            }
            Damage::Infinity => floats[any_float] = draw.of(&[f32::INFINITY, f32::NEG_INFINITY]),
            Damage::NoLevel => {
                let beside = |level: f32| f32::from_bits(level.to_bits() + 1);
                floats[any_float] = draw.of(&[
                    2.0,
                    -2.0,
                    4.0,
                    -6.0,
                    9.0,
                    0.5,
                    beside(1.0),
                    beside(-3.0),
                    -beside(7.0),
                    f32::from_bits(0x3F7F_FFFF),
                    f32::from_bits(1),
                    f32::from_bits(0x8000_0001),
                    f32::MAX,
                ]);
            }
            Damage::OtherConstellation => {
                let point = any_data_point(frame.open, draw);
                let table = table(frame.open, point);
                let axis = draw.below(2) as usize;
                let strange: Vec<f32> = [0.0, 1.0, -1.0, 3.0, -3.0, 5.0, -5.0, 7.0, -7.0]
                    .into_iter()
                    .filter(|level: &f32| table.iter().all(|e| e.0[axis] != level.to_bits()))
                    .collect();
                floats[2 * point + axis] = draw.of(&strange);
            }
            Damage::PilotSign | Damage::PilotAxes => {
                let streams = floats.len() / (2 * used);
                let pilot = draw.of(pilot_places(width).0);
                let at = 2 * (draw.below(streams as u64) as usize * used + pilot);
                let [first, second] = [floats[at], floats[at + 1]];
                let turned = |level: f32| if level == 0.0 { level } else { -level };
                [floats[at], floats[at + 1]] = match self {
                    Damage::PilotSign => [turned(first), turned(second)],
                    _ => [second, first],
                };
            }
            Damage::OtherPoint => {
                let point = any_data_point(frame.open, draw);
                let now = [floats[2 * point], floats[2 * point + 1]].map(f32::to_bits);
                let others: Vec<[u32; 2]> = table(frame.open, point)
                    .into_iter()
                    .map(|entry| entry.0)
                    .filter(|levels| *levels != now)
                    .collect();
                let other = draw.of(&others);
                floats[2 * point..][..2].copy_from_slice(&other.map(f32::from_bits));
            }
            Damage::CodedBit => return flip_coded_bit(frame.open, floats, draw),
            Damage::OtherPayload => {
                let other = draw.bytes(frame.payload.len());
                *floats = symbol(frame.s, &other, n);
            }
            Damage::OtherSeed => {
                let seed = (frame.s.seed + draw.below(126) as u32) % 127 + 1;
                *floats = symbol(frame.s.seed(seed), &frame.payload, n);
            }
            Damage::PayloadBit => {
                let mut other = frame.payload.clone();
                // In the symbol or up to seven bits beside it, every other time.
                let (start, end) = match draw.below(2) {
                    0 => (0, 8 * other.len()),
                    _ => (
                        payload_bits_before(frame.open, n).saturating_sub(7),
                        (payload_bits_before(frame.open, n + 1) + 7).min(8 * other.len()),
                    ),
                };
                let bit = start + draw.below((end - start) as u64) as usize;
                other[bit / 8] ^= 1 << (bit % 8);
                *floats = symbol(frame.s, &other, n);
            }
            Damage::OtherLength => {
                let more = draw.of(&[-3, -1, 1, 2, 9]);
                let length = frame.s.length as i64 + more;
                if !(1..=65_535).contains(&length) {
                    return false;
                }
                let length = length as u32;
                let s = frame.s.length(length);
                if n as u32 >= symbol_count(s).unwrap() {
                    return false;
                }
                let mut other = frame.payload.clone();
                other.extend(draw.bytes(9));
                *floats = symbol(s, &other, n);
            }
            Damage::OtherFormat => {
                let format = 1 - frame.s.format;
                *floats = symbol(frame.s.format(format), &frame.payload, n);
            }
            Damage::SymbolBefore | Damage::SymbolAfter | Damage::DataBefore => {
                let other = match self {
                    Damage::SymbolAfter => frame.symbols.get(n + 1),
                    _ => frame.symbols.get(n.wrapping_sub(1)),
                };
                let Some(other) = other else {
                    return false;
                };
                *floats = other.clone();
                if self == Damage::DataBefore {
                    let right = &frame.symbols[n];
                    for stream in 0..floats.len() / (2 * used) {
                        for pilot in pilot_places(width).0 {
                            let at = 2 * (stream * used + pilot);
                            floats[at..at + 2].copy_from_slice(&right[at..at + 2]);
                        }
                    }
                }
            }
            Damage::ServiceBit | Damage::TailBit | Damage::PadBit => {
                let places = frame.own(
                    n,
                    match self {
                        Damage::ServiceBit => Kind::Service,
                        Damage::TailBit => Kind::Tail,
                        _ => Kind::Pad,
                    },
                );
                if places.is_empty() {
                    return false;
                }
                let place = draw.of(&places);
                *floats = frame.remade(n, |own| own[place] ^= 1);
            }
            Damage::SeedZero => {
                if n > 0 {
                    return false;
                }
                let zeros = [frame.own(0, Kind::Service), frame.own(0, Kind::Pad)].concat();
                *floats = frame.remade(0, |own| zeros.iter().for_each(|place| own[*place] = 0));
            }
            Damage::Junk => {
                let more = 1 + draw.below(40) as usize;
                floats.extend((0..more).map(|_| f32::from_bits(draw.next() as u32)));
            }
        }
        true
    }
}

/// Any data point's place among the points of a symbol.
fn any_data_point(open: OpenSettings, draw: &mut Draw) -> usize {
    let (pilots, used) = pilot_places(open.width);
    let streams = u64::from(second::streams(open.mcs));
    let in_stream: Vec<usize> = (0..used).filter(|place| !pilots.contains(place)).collect();
    draw.below(streams) as usize * used + draw.of(&in_stream)
}

/// The points that the rules give at a data point's place: the bits of both floats, and the label.
fn table(open: OpenSettings, point: usize) -> Vec<([u32; 2], Vec<u8>)> {
    let used = second::used_subcarriers(open.width);
    let k = used[point % used.len()];
    second::data_table(open.width, second::bits_per_carrier(open.mcs), k)
        .into_iter()
        .map(|entry| ([entry.first, entry.second], entry.label))
        .collect()
}

/// Turns over a coded bit, A or B, of a step of which both are kept; not where its point is none of the constellation.
fn flip_coded_bit(open: OpenSettings, floats: &mut [f32], draw: &mut Draw) -> bool {
    let OpenSettings { width, mcs, .. } = open;
    let period = second::pattern(second::rate(mcs)).len();
    let names = second::names_at_places(width, mcs);
    let (stream, place) = loop {
        let stream = draw.below(names.len() as u64) as usize;
        let place = draw.below(names[stream].len() as u64) as usize;
        // Each pattern begins with A0 B0.
        if names[stream][place].unwrap().number % period < 2 {
            break (stream, place);
        }
    };
    flip_label_bit(open, floats, stream, place)
}

/// Turns over a label bit of a stream, by its place in the stream's block; not where its point is none of the constellation.
pub fn flip_label_bit(open: OpenSettings, floats: &mut [f32], stream: usize, place: usize) -> bool {
    let b = second::bits_per_carrier(open.mcs) as usize;
    let used = second::used_subcarriers(open.width);
    let k = second::data_subcarriers(open.width)[place / b];
    let point = stream * used.len() + used.iter().position(|other| *other == k).unwrap();
    let table = table(open, point);
    let now = [floats[2 * point], floats[2 * point + 1]].map(f32::to_bits);
    let Some((_, label)) = table.iter().find(|(levels, _)| *levels == now) else {
        return false;
    };
    let mut label = label.clone();
    label[place % b] ^= 1;
    let (levels, _) = table.iter().find(|(_, other)| *other == label).unwrap();
    floats[2 * point..][..2].copy_from_slice(&levels.map(f32::from_bits));
    true
}

/// The stream and the subcarrier of a point by its place among the points of a symbol.
pub fn place_of(width: u32, point: usize) -> (u32, i32) {
    let used = second::used_subcarriers(width);
    let (stream, place) = (point / used.len(), point % used.len());
    (stream as u32, used[place] as i32)
}
