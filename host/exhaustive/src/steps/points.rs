//! Damage to single points and to whole streams, beside that of the reader's tests.

use crate::common::reading::{flip_label_bit, Frame};
use crate::common::{pilot_places, Draw};

/// The levels of all constellations.
const LEVELS: [f32; 9] = [-7.0, -5.0, -3.0, -1.0, 0.0, 1.0, 3.0, 5.0, 7.0];

#[derive(Clone, Copy, Debug, PartialEq, Eq)]
pub enum Points {
    /// One float replaced by another level, of this constellation or of a larger one.
    AnotherLevel,
    /// One float replaced by the next float above or below it.
    NeighbourFloat,
    /// Any label bit turned over: another point of the constellation.
    LabelBit,
    /// Two label bits turned over.
    TwoLabelBits,
    /// Two carriers of a stream exchanged, data or pilots.
    TwoCarriers,
    /// Two streams exchanged, pilots included.
    TwoStreams,
    /// The data of two streams exchanged.
    DataOfTwoStreams,
    /// Every float's sign turned, a zero's too.
    AllSigns,
    /// Any 32 bits in every float.
    AnyFloats,
}

impl Points {
    pub const ALL: [Points; 9] = [
        Points::AnotherLevel,
        Points::NeighbourFloat,
        Points::LabelBit,
        Points::TwoLabelBits,
        Points::TwoCarriers,
        Points::TwoStreams,
        Points::DataOfTwoStreams,
        Points::AllSigns,
        Points::AnyFloats,
    ];

    /// Does it to a symbol's floats; says whether there was a place for it.
    pub fn apply(self, frame: &Frame, floats: &mut [f32], draw: &mut Draw) -> bool {
        let any = draw.below(floats.len() as u64) as usize;
        match self {
            Points::AnotherLevel => {
                let now = floats[any];
                floats[any] = loop {
                    let level = draw.of(&LEVELS);
                    if level.to_bits() != now.to_bits() {
                        break level;
                    }
                };
            }
            Points::NeighbourFloat => {
                floats[any] = match draw.below(2) {
                    0 => floats[any].next_up(),
                    _ => floats[any].next_down(),
                };
            }
            Points::LabelBit => return flip_any_label_bit(frame, floats, draw),
            Points::TwoLabelBits => {
                return flip_any_label_bit(frame, floats, draw)
                    && flip_any_label_bit(frame, floats, draw);
            }
            Points::TwoCarriers => exchange_carriers(frame.open.width, floats, draw),
            Points::TwoStreams | Points::DataOfTwoStreams => {
                let pilots_too = self == Points::TwoStreams;
                return exchange_streams(frame.open.width, floats, pilots_too, draw);
            }
            Points::AllSigns => floats.iter_mut().for_each(|float| *float = -*float),
            Points::AnyFloats => floats
                .iter_mut()
                .for_each(|float| *float = f32::from_bits(draw.next() as u32)),
        }
        true
    }
}

fn flip_any_label_bit(frame: &Frame, floats: &mut [f32], draw: &mut Draw) -> bool {
    let open = frame.open;
    let stream = draw.below(second::streams(open.mcs).into()) as usize;
    let place = draw.below(second::block(open.width, open.mcs).into()) as usize;
    flip_label_bit(open, floats, stream, place)
}

fn exchange_carriers(width: u32, floats: &mut [f32], draw: &mut Draw) {
    let used = pilot_places(width).1;
    let streams = floats.len() / (2 * used);
    let start = draw.below(streams as u64) as usize * used;
    let one = draw.below(used as u64) as usize;
    let other = (one + 1 + draw.below(used as u64 - 1) as usize) % used;
    for level in 0..2 {
        floats.swap(2 * (start + one) + level, 2 * (start + other) + level);
    }
}

fn exchange_streams(width: u32, floats: &mut [f32], pilots_too: bool, draw: &mut Draw) -> bool {
    let (pilots, used) = pilot_places(width);
    let streams = floats.len() / (2 * used);
    if streams < 2 {
        return false;
    }
    let one = draw.below(streams as u64) as usize;
    let other = (one + 1 + draw.below(streams as u64 - 1) as usize) % streams;
    for float in 0..2 * used {
        if pilots_too || !pilots.contains(&(float / 2)) {
            floats.swap(one * 2 * used + float, other * 2 * used + float);
        }
    }
    true
}
