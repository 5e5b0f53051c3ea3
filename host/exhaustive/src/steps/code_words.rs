//! Symbols that some data bits give, though not those of a frame: a reader that only decodes accepts them.

use crate::common::reading::{forward, kind, own_numbers, state_of, Frame, Kind};
use crate::common::Draw;

#[derive(Clone, Copy, Debug, PartialEq, Eq)]
pub enum CodeWord {
    /// Any data bits.
    AnyDataBits,
    /// Any number of the service, tail and pad bits turned over, one at least.
    FormBits,
    /// The tail scrambled and not set to zero.
    ScrambledTail,
    /// The pad set to zero like the tail.
    ClearedPad,
    /// The symbol's own data bits, encoded from another history.
    OtherHistory,
}

impl CodeWord {
    pub const ALL: [CodeWord; 5] = [
        CodeWord::AnyDataBits,
        CodeWord::FormBits,
        CodeWord::ScrambledTail,
        CodeWord::ClearedPad,
        CodeWord::OtherHistory,
    ];

    /// The number that a step gives, where it is always the same. Other form bits may be those of another seed.
    pub fn always(self) -> Option<u32> {
        match self {
            CodeWord::ScrambledTail | CodeWord::ClearedPad => Some(11),
            CodeWord::AnyDataBits | CodeWord::FormBits | CodeWord::OtherHistory => None,
        }
    }

    /// Writes such a symbol in place of symbol n; says whether there was a place for it.
    pub fn apply(self, frame: &Frame, n: usize, floats: &mut Vec<f32>, draw: &mut Draw) -> bool {
        let right = &frame.data[own_numbers(frame.open, n)];
        let mut history = state_of(frame.states[n]).history;
        let data = match self {
            CodeWord::AnyDataBits => right.iter().map(|_| draw.below(2) as u8).collect(),
            CodeWord::FormBits => changed(frame, n, |now, kind, _| match kind {
                Kind::Payload => now,
                _ => now ^ draw.below(2) as u8,
            }),
            CodeWord::ScrambledTail => changed(frame, n, |now, kind, output| match kind {
                Kind::Tail => output,
                _ => now,
            }),
            CodeWord::ClearedPad => changed(frame, n, |now, kind, _| match kind {
                Kind::Pad => 0,
                _ => now,
            }),
            CodeWord::OtherHistory => {
                history[0] ^= 1 + draw.below(63);
                right.to_vec()
            }
        };
        if self != CodeWord::OtherHistory && data == right {
            return false;
        }
        *floats = forward(frame.open, n, history, &data);
        true
    }
}

/// The data bits of symbol n, each made of what it is, of its kind and of the scrambler's output.
fn changed(frame: &Frame, n: usize, mut change: impl FnMut(u8, Kind, u8) -> u8) -> Vec<u8> {
    let outputs = second::scramble(frame.s.seed, &vec![0; frame.data.len()]);
    own_numbers(frame.open, n)
        .map(|number| {
            change(
                frame.data[number],
                kind(frame.open, number),
                outputs[number],
            )
        })
        .collect()
}
