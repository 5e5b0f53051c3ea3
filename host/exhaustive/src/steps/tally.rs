//! How often each kind of damage was given each answer.

use super::kinds::Kind;
use crate::outcome::{grouped, Outcome};
use std::fmt;
use std::ops::AddAssign;

/// The answers of a step: accepted, and the refusals.
pub const ANSWERS: [usize; 6] = [0, 8, 9, 10, 11, 12];

#[derive(Debug)]
pub struct Tally {
    pub seed: u64,
    /// By kind and by the number that both programs gave.
    given: [[u64; 13]; Kind::COUNT],
    /// By kind, the steps in which something differs.
    differ: [u64; Kind::COUNT],
    /// Payload bytes that were lent and compared.
    pub bytes: u64,
}

impl Default for Tally {
    fn default() -> Tally {
        Tally {
            seed: 0,
            given: [[0; 13]; Kind::COUNT],
            differ: [0; Kind::COUNT],
            bytes: 0,
        }
    }
}

impl Tally {
    pub fn count(&mut self, kind: usize, answer: u32) {
        self.given[kind][answer as usize] += 1;
    }

    pub fn count_difference(&mut self, kind: usize) {
        self.differ[kind] += 1;
    }

    pub fn steps(&self) -> u64 {
        self.given.as_flattened().iter().sum::<u64>() + self.differences()
    }

    pub fn differences(&self) -> u64 {
        self.differ.iter().sum()
    }

    /// Steps with this answer, whatever the damage.
    pub fn answered(&self, answer: usize) -> u64 {
        self.given.iter().map(|of_kind| of_kind[answer]).sum()
    }

    /// Whether every kind of damage was done.
    pub fn every_kind(&self) -> bool {
        self.given
            .iter()
            .all(|of_kind| of_kind.iter().any(|count| *count > 0))
    }
}

impl AddAssign for Tally {
    fn add_assign(&mut self, more: Tally) {
        let places = self.given.as_flattened_mut().iter_mut();
        for (place, count) in places.zip(more.given.as_flattened()) {
            *place += count;
        }
        for (place, count) in self.differ.iter_mut().zip(more.differ) {
            *place += count;
        }
        self.bytes += more.bytes;
    }
}

impl Outcome for Tally {
    fn passed(&self) -> bool {
        let reached = ANSWERS.iter().all(|answer| self.answered(*answer) > 0);
        self.differences() == 0 && reached && self.every_kind()
    }
}

impl fmt::Display for Tally {
    fn fmt(&self, f: &mut fmt::Formatter<'_>) -> fmt::Result {
        let [steps, bytes, differ] = [self.steps(), self.bytes, self.differences()].map(grouped);
        writeln!(f, "| damage | accepted | 8 | 9 | 10 | 11 | 12 | differ |")?;
        writeln!(f, "|---|---|---|---|---|---|---|---|")?;
        let row = |f: &mut fmt::Formatter<'_>, name: &str, counts: Vec<u64>| {
            let cells: Vec<String> = counts.into_iter().map(grouped).collect();
            writeln!(f, "| {name} | {} |", cells.join(" | "))
        };
        for (index, kind) in Kind::all().enumerate() {
            let mut counts = ANSWERS.map(|answer| self.given[index][answer]).to_vec();
            counts.push(self.differ[index]);
            row(f, &kind.to_string(), counts)?;
        }
        let mut counts = ANSWERS.map(|answer| self.answered(answer)).to_vec();
        counts.push(self.differences());
        row(f, "all", counts)?;
        writeln!(
            f,
            "steps: seed {:#x}: {steps} steps, {bytes} lent bytes compared, {differ} steps differ",
            self.seed
        )
    }
}
