//! States and settings that are not the frame's own, and symbols of other frames.

use super::given::Given;
use crate::common::reading::{
    any_state, number_of, refused_settings, state_of, symbol_from, Frame, ENDED, NO_STATE,
};
use crate::common::Draw;
use second::State;

#[derive(Clone, Copy, Debug, PartialEq, Eq)]
pub enum Forged {
    /// One history replaced, every other time by a number of more than six bits.
    History,
    Scrambler,
    Part,
    SymbolNumber,
    EndMark,
    /// One of the number's 64 bits turned over.
    StateBit,
    /// Any number, mostly of no more bits than a state has.
    AnyNumber,
    /// A state in range that the frame does not lead to.
    InRange,
    /// The same with a symbol made for it.
    InRangeWithItsSymbol,
    /// The state before another symbol of the frame.
    OfAnotherSymbol,
    /// Settings that are refused by 1 to 4.
    RefusedSettings,
    /// Other settings that are accepted, and the frame's state and symbol.
    OtherSettings,
    /// A symbol of a frame of another width and MCS.
    OtherFrame,
}

impl Forged {
    pub const ALL: [Forged; 13] = [
        Forged::History,
        Forged::Scrambler,
        Forged::Part,
        Forged::SymbolNumber,
        Forged::EndMark,
        Forged::StateBit,
        Forged::AnyNumber,
        Forged::InRange,
        Forged::InRangeWithItsSymbol,
        Forged::OfAnotherSymbol,
        Forged::RefusedSettings,
        Forged::OtherSettings,
        Forged::OtherFrame,
    ];

    pub fn always(self) -> Option<u32> {
        match self {
            Forged::EndMark | Forged::RefusedSettings => Some(12),
            Forged::InRangeWithItsSymbol => Some(0),
            _ => None,
        }
    }

    /// Does it to the step of symbol n; says whether there was a place for it.
    pub fn apply(self, frame: &Frame, n: usize, given: &mut Given, draw: &mut Draw) -> bool {
        match self {
            Forged::History | Forged::Scrambler | Forged::Part | Forged::SymbolNumber => {
                let forged = self.field(frame, state_of(given.state % NO_STATE), draw);
                given.state = number_of(&forged);
            }
            Forged::EndMark => given.state |= ENDED,
            Forged::StateBit => given.state ^= 1 << draw.below(64),
            Forged::AnyNumber => given.state = draw.next() >> draw.of(&[0, 14, 15, 16, 24]),
            Forged::InRange => given.state = number_of(&any_state(frame.open, n, draw)),
            Forged::InRangeWithItsSymbol => {
                let state = any_state(frame.open, n, draw);
                given.state = number_of(&state);
                given.points = symbol_from(frame.open, &state, draw);
            }
            Forged::OfAnotherSymbol => {
                if frame.count() < 2 {
                    return false;
                }
                let further = 1 + draw.below(frame.count() as u64 - 1) as usize;
                given.state = frame.states[(n + further) % frame.count()];
            }
            Forged::RefusedSettings => {
                given.open = refused_settings(given.open, 1 + draw.below(4), draw);
            }
            Forged::OtherSettings => other_settings(given, draw),
            Forged::OtherFrame => {
                let other = Frame::any(draw.of(&[20, 40]), draw.below(32) as u32, 1, draw);
                given.points = other.symbols[0].clone();
            }
        }
        true
    }

    /// The state with one field replaced.
    fn field(self, frame: &Frame, state: State, draw: &mut Draw) -> State {
        let count = frame.count() as u64;
        let mut forged = state;
        match self {
            Forged::History => {
                let most = draw.of(&[64, 256]);
                forged.history[draw.below(2) as usize] = draw.below(most);
            }
            Forged::Scrambler => forged.scrambler = draw.below(256),
            Forged::Part => {
                let most = draw.of(&[2, 8, 256]);
                forged.part = draw.below(most);
            }
            _ => {
                let any = draw.below(1 << 16);
                forged.symbol = draw.of(&[0, count - 1, count, count + 1, any]);
            }
        }
        forged
    }
}

/// One of the settings replaced by another that is accepted; the payload slice is as long as it asks for.
fn other_settings(given: &mut Given, draw: &mut Draw) {
    let open = given.open;
    given.open = match draw.below(5) {
        0 => open.width(draw.of(&[20u32, 40])),
        1 => open.mcs(draw.below(32) as u32),
        2 => open.format(draw.below(2) as u32),
        3 => open.length(1 + draw.below(u64::from(open.length) + 20) as u32),
        _ => open
            .smoothing(draw.below(2) as u32)
            .aggregation(draw.below(2) as u32),
    };
    given.room = given.room.max(given.open.length as usize);
}
