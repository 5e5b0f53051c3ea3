//! Points and payload slices that are too short, or longer than needed.

use super::given::Given;
use crate::common::reading::Frame;
use crate::common::Draw;

#[derive(Clone, Copy, Debug, PartialEq, Eq)]
pub enum Slices {
    ShortPoints,
    /// One float too few.
    OneFloatLess,
    ShortPayload,
    /// One byte too few.
    OneByteLess,
    BothShort,
    LongPayload,
}

impl Slices {
    pub const ALL: [Slices; 6] = [
        Slices::ShortPoints,
        Slices::OneFloatLess,
        Slices::ShortPayload,
        Slices::OneByteLess,
        Slices::BothShort,
        Slices::LongPayload,
    ];

    pub fn always(self) -> Option<u32> {
        match self {
            Slices::LongPayload => Some(0),
            _ => Some(8),
        }
    }

    /// Does it to a step's slices, for which there is always a place.
    pub fn apply(self, frame: &Frame, given: &mut Given, draw: &mut Draw) -> bool {
        // The settings may be refused ones by now: the frame's length is a small one.
        let length = frame.payload.len();
        let shorter = draw.below(given.points.len() as u64) as usize;
        match self {
            Slices::ShortPoints => given.points.truncate(shorter),
            Slices::OneFloatLess => given.points.truncate(given.points.len() - 1),
            Slices::ShortPayload => given.room = draw.below(length as u64) as usize,
            Slices::OneByteLess => given.room = length - 1,
            Slices::BothShort => {
                given.points.truncate(shorter);
                given.room = draw.below(length as u64) as usize;
            }
            Slices::LongPayload => given.room = length + 1 + draw.below(40) as usize,
        }
        true
    }
}
