//! Steps of the reader on damaged symbols, forged states and short slices, against the second program's reader.

mod code_words;
mod forged;
mod given;
mod kinds;
mod points;
mod slices;
mod tally;

pub use tally::Tally;
#[cfg(test)]
pub use tally::ANSWERS;

use crate::common::reading::{edge_length, Both, Edge, Frame, Lent};
use crate::common::{any_settings, widths_and_mcs, Draw};
use crate::outcome::print_difference;
use crate::parallel;
use given::Given;
use kinds::Kind;
use std::panic::{self, AssertUnwindSafe};

/// What everything is drawn from, and how many steps are taken, where nothing else is said.
pub const SEED: u64 = 0x4854_0003;
pub const STEPS: u64 = 10_000_000;

/// Steps from the states of one frame.
const STEPS_OF_ROUND: u64 = 100;

/// Takes the steps in rounds, each with a frame of its own.
pub fn run(steps: u64, seed: u64) -> Tally {
    // A comparison that fails panics and says what differs; `one_step` catches it.
    panic::set_hook(Box::new(|info| print_difference(|| info.to_string())));
    let mut tally = parallel::sum(steps.div_ceil(STEPS_OF_ROUND), |number| {
        let left = steps - number * STEPS_OF_ROUND;
        round(number, left.min(STEPS_OF_ROUND), seed)
    });
    drop(panic::take_hook());
    tally.seed = seed;
    tally
}

/// Some steps from the states of one frame: the kinds in turn, from any one on.
fn round(number: u64, steps: u64, seed: u64) -> Tally {
    let mut draw = parallel::draw(seed, number);
    let frame = any_frame(number, &mut draw);
    let mut both = Both::default();
    let mut tally = Tally::default();
    let mut kinds = Kind::all()
        .enumerate()
        .cycle()
        .skip(draw.below(Kind::COUNT as u64) as usize);
    while tally.steps() < steps {
        let (index, kind) = kinds.next().expect("a cycle does not end");
        let Some(given) = kind.somewhere(&frame, &mut draw) else {
            continue;
        };
        let lent = Lent::new(given.room, &mut draw);
        match one_step(kind, &mut both, &given, lent.clone()) {
            Ok(answer) => tally.count(index, answer),
            Err(what) => {
                tally.count_difference(index);
                let lent = lent.bytes();
                print_difference(|| {
                    format!("round {number} of {seed:#x}, {kind}: {what}, {given:?}, lent bytes: {lent:02x?}")
                });
            }
        }
    }
    tally.bytes = both.bytes as u64;
    tally
}

/// A frame of up to three symbols, or one whose tail is at an edge. Every other round goes over all widths and MCS; the
/// rounds between them have the cheapest symbols, 20 MHz and one or two streams, so that there are more of them.
fn any_frame(round: u64, draw: &mut Draw) -> Frame {
    let (width, mcs) = match round % 2 {
        0 => widths_and_mcs()
            .nth((round / 2 % 64) as usize)
            .expect("there are 64"),
        _ => (20, (round / 2 % 16) as u32),
    };
    let edge = match draw.below(9) {
        0 => edge_length(width, mcs, Edge::TailInTwo),
        1 => edge_length(width, mcs, Edge::TailBegins),
        2 => edge_length(width, mcs, Edge::NoPad),
        _ => None,
    };
    match edge {
        Some(length) => Frame::new(any_settings(width, mcs, length, draw), draw),
        None => Frame::any(width, mcs, 1 + draw.below(3), draw),
    }
}

/// One step of both programs, with everything compared: the number that both give, or what is wrong.
fn one_step(kind: Kind, both: &mut Both, given: &Given, mut lent: Lent) -> Result<u32, String> {
    let compared = panic::catch_unwind(AssertUnwindSafe(|| {
        both.step(given.open, given.state, &given.points, &mut lent)
    }));
    let Ok((step, _)) = compared else {
        return Err("the programs differ".to_string());
    };
    match kind.always() {
        Some(always) if always != step.number => {
            Err(format!("both programs give {}, not {always}", step.number))
        }
        _ => Ok(step.number),
    }
}
