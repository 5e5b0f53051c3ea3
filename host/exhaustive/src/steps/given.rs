//! What both programs are given for one step.

use crate::common::reading::Frame;
use crate::common::Draw;
use ht_core::OpenSettings;
use std::fmt;

#[derive(Clone)]
pub struct Given {
    pub open: OpenSettings,
    pub state: u64,
    pub points: Vec<f32>,
    /// Bytes of the payload slice.
    pub room: usize,
}

impl Given {
    /// What a frame's symbol is read with: its own state, and room for the payload.
    pub fn right(frame: &Frame, n: usize, draw: &mut Draw) -> Given {
        Given {
            open: frame.open,
            state: frame.states[n],
            points: frame.symbols[n].clone(),
            room: frame.payload.len() + draw.of(&[0, 0, 3]),
        }
    }
}

/// All that is needed to take the step again: floats by their bits.
impl fmt::Debug for Given {
    fn fmt(&self, f: &mut fmt::Formatter<'_>) -> fmt::Result {
        let Given { open, state, .. } = self;
        write!(f, "state {state:#x} of {open:?}, floats by their bits:")?;
        for float in &self.points {
            write!(f, " {:08x}", float.to_bits())?;
        }
        Ok(())
    }
}
