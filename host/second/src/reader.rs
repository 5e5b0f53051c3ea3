//! Document 01, the strict reader: "a strict reader that takes symbols 0, 1, 2
//! in order".
//!
//! "the reader's step tests 12 first, then 8, 9, 10, 11". What 9 asks is in
//! `point_tables`, what 10 asks in `code_search`; here are the state and its
//! ranges, the judging of the data bits, and what an accepted symbol writes.

use crate::code_search::{search, Found};
use crate::encoder::Encoder;
use crate::point_tables::read_labels;
use crate::points::floats_per_symbol;
use crate::rates::{data_bits_per_symbol, encoders, symbol_count};
use crate::refusal;
use crate::scrambler::{register, scramble};
use crate::settings::{check, Settings};

/// Settings without a seed.
#[derive(Clone, Copy, Debug, PartialEq, Eq)]
pub struct OpenSettings {
    /// 20 or 40 (MHz).
    pub width: u32,
    /// 0 to 31.
    pub mcs: u32,
    /// 0 mixed, 1 green field.
    pub format: u32,
    /// 1 to 65,535 bytes.
    pub length: u32,
    pub smoothing: bool,
    pub not_sounding: bool,
    pub aggregation: bool,
    pub short_guard: bool,
}

/// "Between symbols it carries two six-bit encoder histories, the scrambler and
/// a part of a byte, by value."
///
/// Any number may stand in any field: a forged state is judged.
#[derive(Clone, Copy, Debug, PartialEq, Eq)]
pub struct State {
    /// The number of the symbol that is read next.
    pub symbol: u64,
    /// By encoder, its last six inputs: bit 0 is the newest, bit 5 the oldest.
    pub history: [u64; 2],
    /// The scrambler before the next symbol's first data bit, as a seed: bit 0
    /// is x1. At symbol 0 it is not used.
    pub scrambler: u64,
    /// The bits of the payload byte that is not complete, low bit first; how
    /// many there are follows from the symbol.
    pub part: u64,
    /// Finished, or ended by 9 to 11.
    pub ended: bool,
}

/// What a step answers.
#[derive(Clone, Copy, Debug, PartialEq, Eq)]
pub enum Answer {
    /// The symbol is accepted: the seed at symbol 0, else 0.
    Accepted { seed: u32 },
    /// Refusal 9, with the place of the first failing point.
    Point { stream: u32, subcarrier: i32 },
    /// Refusal 12, 8, 10 or 11.
    Refused(u32),
}

/// The start: "The reader is started with settings without a seed, so 5 isn't
/// given there". Refusals 1 to 4.
///
/// The started state is all zero and not ended.
pub fn reader_start(s: &OpenSettings) -> Result<State, u32> {
    check(&with_some_seed(s))?;
    Ok(State {
        symbol: 0,
        history: [0; 2],
        scrambler: 0,
        part: 0,
        ended: false,
    })
}

/// The step: one symbol is read from the state given.
///
/// Gives the answer and the state after it. `payload` is for the whole payload;
/// only an accepted symbol writes, and "exactly the bytes now complete, each at
/// its own index".
pub fn reader_step(
    s: &OpenSettings,
    state: &State,
    points: &[f32],
    payload: &mut [u8],
) -> (Answer, State) {
    // "8 and 12 return the state given."
    let Some(count) = count_in_range(s, state) else {
        return (Answer::Refused(refusal::CLOSED), *state);
    };
    if !has_floats(s, points) || payload.len() < s.length as usize {
        return (Answer::Refused(refusal::ROOM), *state);
    }

    // "Refusals 9, 10, 11 return the state given with only its end marked".
    let marked = State {
        ended: true,
        ..*state
    };
    // 9 over the whole symbol.
    let labels = match read_labels(s.width, s.mcs, s.format, state.symbol, points) {
        Ok(labels) => labels,
        Err((stream, subcarrier)) => return (Answer::Point { stream, subcarrier }, marked),
    };
    // 10 over the whole symbol and both encoders.
    let before = [unpacked(state.history[0]), unpacked(state.history[1])];
    let Some(Found { bits, after }) = search(s.width, s.mcs, &before, &labels) else {
        return (Answer::Refused(refusal::CODE), marked);
    };
    // 11.
    let Some(read) = judge(s, state, &bits) else {
        return (Answer::Refused(refusal::FRAME), marked);
    };

    // Accepted: now the bytes are written, and the state moves on.
    for (index, byte) in read.complete {
        if let Some(place) = payload.get_mut(index) {
            *place = byte;
        }
    }
    // "With one encoder the second history stays as given."
    let mut history = state.history;
    for (place, encoder) in history.iter_mut().zip(&after) {
        *place = packed(encoder);
    }
    let symbol = state.symbol + 1;
    let next = State {
        symbol,
        history,
        scrambler: read.scrambler,
        part: read.part,
        ended: symbol == count,
    };
    (Answer::Accepted { seed: read.seed }, next)
}

/// The place of the first point of the state's symbol that is not one the rules
/// give, as (stream, subcarrier), or none where every point passes.
///
/// Refusal 12, then 8 for too few floats. It looks at no payload.
pub fn reader_place(
    s: &OpenSettings,
    state: &State,
    points: &[f32],
) -> Result<Option<(u32, i32)>, u32> {
    if count_in_range(s, state).is_none() {
        return Err(refusal::CLOSED);
    }
    if !has_floats(s, points) {
        return Err(refusal::ROOM);
    }
    match read_labels(s.width, s.mcs, s.format, state.symbol, points) {
        Ok(_) => Ok(None),
        Err(place) => Ok(Some(place)),
    }
}

/// The settings with a seed that is accepted; no answer depends on which.
pub(crate) fn with_some_seed(s: &OpenSettings) -> Settings {
    Settings {
        width: s.width,
        mcs: s.mcs,
        format: s.format,
        length: s.length,
        seed: 1,
        smoothing: s.smoothing,
        not_sounding: s.not_sounding,
        aggregation: s.aggregation,
        short_guard: s.short_guard,
    }
}

/// The frame's symbol count where the state is open and in range; none where it
/// is closed: that is refusal 12, "reader state finished, ended by 9 to 11, or
/// outside its ranges".
fn count_in_range(s: &OpenSettings, state: &State) -> Option<u64> {
    // "A state in range has accepted settings",
    let count = u64::from(symbol_count(&with_some_seed(s)).ok()?);
    if state.ended {
        return None;
    }
    // "a symbol number below the count",
    if state.symbol >= count {
        return None;
    }
    // "histories below 64": both, also with one encoder,
    for history in state.history {
        if history >= 64 {
            return None;
        }
    }
    // "from symbol 1 on a scrambler of 1 to 127",
    if state.symbol >= 1 && (state.scrambler < 1 || state.scrambler > 127) {
        return None;
    }
    // "and a part of a byte as many bits long as the payload bits before that
    // symbol leave modulo 8, its other bits zero".
    let long = payload_bits_before(s, state.symbol) % 8;
    for place in long..64 {
        if (state.part >> place) % 2 == 1 {
            return None;
        }
    }
    Some(count)
}

/// Whether the slice has the floats of a symbol.
fn has_floats(s: &OpenSettings, points: &[f32]) -> bool {
    points.len() >= floats_per_symbol(s.width, s.mcs) as usize
}

/// The payload bits before symbol n, max(0, min(nD - 16, 8·length)): of the nD
/// data bits before it the first 16 are service bits, and past the payload
/// there are no more.
fn payload_bits_before(s: &OpenSettings, n: u64) -> u64 {
    let d = u64::from(data_bits_per_symbol(s.width, s.mcs));
    let after_service = n.saturating_mul(d).saturating_sub(16);
    after_service.min(8 * u64::from(s.length))
}

/// The history as an encoder: bit 0 is x(t-1), bit 5 is x(t-6).
fn unpacked(history: u64) -> Encoder {
    let mut earlier = [0; 6];
    let mut rest = history;
    for input in &mut earlier {
        *input = (rest % 2) as u8;
        rest /= 2;
    }
    Encoder { earlier }
}

/// The encoder as a history: x(t-1) is bit 0, x(t-6) is bit 5.
fn packed(encoder: &Encoder) -> u64 {
    let mut history = 0;
    let mut weight = 1;
    for input in encoder.earlier {
        history += weight * u64::from(input % 2);
        weight *= 2;
    }
    history
}

/// What a data bit is: "16 zeros, payload (low bit first), 6·NES tail, pad zeros
/// to a full symbol".
enum Kind {
    Service,
    Payload,
    Tail,
    Pad,
}

/// The kind of the data bit with this number, counted over the frame.
fn kind(s: &OpenSettings, number: u64) -> Kind {
    let tail = 16 + 8 * u64::from(s.length);
    let pad = tail + 6 * u64::from(encoders(s.mcs));
    if number < 16 {
        Kind::Service
    } else if number < tail {
        Kind::Payload
    } else if number < pad {
        Kind::Tail
    } else {
        Kind::Pad
    }
}

/// What is read from the data bits of an accepted symbol.
struct Read {
    /// The seed at symbol 0, else 0.
    seed: u32,
    /// The scrambler before the next symbol's first data bit.
    scrambler: u64,
    /// The bits of the payload byte that is not complete.
    part: u64,
    /// The payload bytes now complete, each with its index.
    complete: Vec<(usize, u8)>,
}

/// Judges a symbol's data bits as the encoders took them. None is refusal 11,
/// "reader: service, tail or pad bit wrong, or the seed would be 0".
fn judge(s: &OpenSettings, state: &State, bits: &[u8]) -> Option<Read> {
    // "the seed is in the answer to symbol 0"; later the state's scrambler,
    // below 128 by its range, is believed.
    let (seed, start) = if state.symbol == 0 {
        let seed = seed_of(bits)?;
        (seed, seed)
    } else {
        (0, state.scrambler as u32)
    };
    let mut register = register(start);

    let first = state
        .symbol
        .saturating_mul(u64::from(data_bits_per_symbol(s.width, s.mcs)));
    // The byte that is being filled, how many bits it has and its index; its
    // first bits come from the state.
    let before = payload_bits_before(s, state.symbol);
    let mut byte = state.part as u8;
    let mut held = before % 8;
    let mut index = (before / 8) as usize;
    let mut complete = Vec::new();
    for (number, bit) in (first..).zip(bits) {
        // "All are scrambled; then the tail is set to zero": the scrambler runs
        // on through the tail.
        let output = register.step();
        match kind(s, number) {
            // A zero, scrambled.
            Kind::Service | Kind::Pad => {
                if *bit != output {
                    return None;
                }
            }
            // Set to zero.
            Kind::Tail => {
                if *bit != 0 {
                    return None;
                }
            }
            // A 0 scrambled is the output, a 1 the other.
            Kind::Payload => {
                if *bit != output {
                    byte |= 1 << held;
                }
                held += 1;
                if held == 8 {
                    complete.push((index, byte));
                    byte = 0;
                    held = 0;
                    index += 1;
                }
            }
        }
    }
    Some(Read {
        seed,
        scrambler: u64::from(register.number()),
        part: u64::from(byte),
        complete,
    })
}

/// The seed of which seven zeros, scrambled, give the first seven data bits:
/// the service bits are zeros. None where no seed from 1 to 127 does; the seed
/// would be 0 then.
fn seed_of(bits: &[u8]) -> Option<u32> {
    let first_seven = bits.get(..7)?;
    (1..=127).find(|seed| scramble(*seed, &[0; 7]) == first_seven)
}

#[cfg(test)]
mod closed;
#[cfg(test)]
mod tests;
