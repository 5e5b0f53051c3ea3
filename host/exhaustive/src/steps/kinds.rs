//! The kinds of damage, and where in a frame each is done.

use super::code_words::CodeWord;
use super::forged::Forged;
use super::given::Given;
use super::points::Points;
use super::slices::Slices;
use crate::common::reading::{Damage, Frame};
use crate::common::Draw;
use std::fmt;

#[derive(Clone, Copy, Debug, PartialEq, Eq)]
pub enum Kind {
    /// Nothing is done.
    Undamaged,
    /// The damage to a symbol that the reader's tests do.
    Symbol(Damage),
    Points(Points),
    CodeWord(CodeWord),
    Forged(Forged),
    Slices(Slices),
    /// Any of these groups one after the other.
    Several,
}

impl Kind {
    pub const COUNT: usize = 2
        + Damage::ALL.len()
        + Points::ALL.len()
        + CodeWord::ALL.len()
        + Forged::ALL.len()
        + Slices::ALL.len();

    pub fn all() -> impl Iterator<Item = Kind> + Clone {
        [Kind::Undamaged]
            .into_iter()
            .chain(Damage::ALL.map(Kind::Symbol))
            .chain(Points::ALL.map(Kind::Points))
            .chain(CodeWord::ALL.map(Kind::CodeWord))
            .chain(Forged::ALL.map(Kind::Forged))
            .chain(Slices::ALL.map(Kind::Slices))
            .chain([Kind::Several])
    }

    /// The number that a step gives, where it is always the same.
    pub fn always(self) -> Option<u32> {
        match self {
            Kind::Undamaged => Some(0),
            Kind::Symbol(damage) => damage.always(),
            Kind::CodeWord(word) => word.always(),
            Kind::Forged(forged) => forged.always(),
            Kind::Slices(slices) => slices.always(),
            Kind::Points(_) | Kind::Several => None,
        }
    }

    /// A damaged step: the first symbol from any one on that has a place for the damage, if one has.
    pub fn somewhere(self, frame: &Frame, draw: &mut Draw) -> Option<Given> {
        let first = draw.below(frame.count() as u64) as usize;
        (first..frame.count()).chain(0..first).find_map(|n| {
            let mut given = Given::right(frame, n, draw);
            self.apply(frame, n, &mut given, draw).then_some(given)
        })
    }

    /// Does it to the step of symbol n; says whether there was a place for it.
    fn apply(self, frame: &Frame, n: usize, given: &mut Given, draw: &mut Draw) -> bool {
        match self {
            Kind::Undamaged => true,
            Kind::Symbol(damage) => damage.apply(frame, n, &mut given.points, draw),
            Kind::Points(points) => points.apply(frame, &mut given.points, draw),
            Kind::CodeWord(word) => word.apply(frame, n, &mut given.points, draw),
            Kind::Forged(forged) => forged.apply(frame, n, given, draw),
            Kind::Slices(slices) => slices.apply(frame, given, draw),
            Kind::Several => several(frame, n, given, draw),
        }
    }
}

/// Whole symbols first, then points, state and slices: each but the first finds the symbol at its full length.
fn several(frame: &Frame, n: usize, given: &mut Given, draw: &mut Draw) -> bool {
    let groups = [
        Kind::CodeWord(draw.of(&CodeWord::ALL)),
        Kind::Symbol(draw.of(&Damage::ALL)),
        Kind::Points(draw.of(&Points::ALL)),
        Kind::Forged(draw.of(&Forged::ALL)),
        Kind::Slices(draw.of(&Slices::ALL)),
    ];
    let mut done = 0;
    for kind in groups {
        if draw.below(3) == 0 {
            done += usize::from(kind.apply(frame, n, given, draw));
        }
    }
    done > 1
}

impl fmt::Display for Kind {
    fn fmt(&self, f: &mut fmt::Formatter<'_>) -> fmt::Result {
        match self {
            Kind::Undamaged => write!(f, "nothing"),
            Kind::Symbol(damage) => write!(f, "symbol: {damage:?}"),
            Kind::Points(points) => write!(f, "points: {points:?}"),
            Kind::CodeWord(word) => write!(f, "code word: {word:?}"),
            Kind::Forged(forged) => write!(f, "forged: {forged:?}"),
            Kind::Slices(slices) => write!(f, "slices: {slices:?}"),
            Kind::Several => write!(f, "several"),
        }
    }
}
