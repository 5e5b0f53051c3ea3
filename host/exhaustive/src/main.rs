//! Exhaustive and adversarial runs of the core against the independent second program, too long for the merge gate.
//!
//! - `exhaustive counts [STRIDE]`: symbol count and HT-SIG of every MCS, width and length, or of every STRIDE-th length
//! - `exhaustive frames [LONGEST] [STRIDE]`: every symbol of whole frames, there and back, of every MCS, width and format
//!   or of every STRIDE-th of these; the longest frames have LONGEST bytes
//! - `exhaustive steps [STEPS] [SEED]`: steps of the reader on damaged symbols, forged states and short slices
//!
//! The last line says `passed` or `failed`, and the exit status says the same.

#![forbid(unsafe_code)]

/// The frames, the damage and the comparison of one step are those of the tests of `ht-core`.
#[path = "../../ht-core/tests/common/mod.rs"]
mod common;
mod counts;
mod frames;
mod outcome;
mod parallel;
mod steps;
#[cfg(test)]
mod tests;

use outcome::Outcome;
use std::env;
use std::process::ExitCode;
use std::time::Instant;

/// The longest payload.
const LONGEST: u64 = 65_535;

const USAGE: &str =
    "usage: exhaustive counts [STRIDE] | frames [LONGEST] [STRIDE] | steps [STEPS] [SEED]";

fn main() -> ExitCode {
    let arguments: Vec<String> = env::args().skip(1).collect();
    let begun = Instant::now();
    let Some(passed) = run(&arguments) else {
        eprintln!("{USAGE}");
        return ExitCode::from(2);
    };
    let verdict = if passed { "passed" } else { "failed" };
    let seconds = begun.elapsed().as_secs_f64();
    println!(
        "{}: {verdict} after {seconds:.1} s with {} threads",
        arguments[0],
        parallel::threads()
    );
    if passed {
        ExitCode::SUCCESS
    } else {
        ExitCode::FAILURE
    }
}

/// Runs the part that the arguments name, and says whether it passed; nothing where they name none.
fn run(arguments: &[String]) -> Option<bool> {
    let (part, sizes) = arguments.split_first()?;
    let sizes: Vec<u64> = sizes
        .iter()
        .map(|size| size.parse().ok())
        .collect::<Option<_>>()?;
    let size = |place: usize, without: u64| sizes.get(place).copied().unwrap_or(without);
    let longest = size(0, LONGEST);
    let passed = match part.as_str() {
        "counts" if sizes.len() <= 1 && size(0, 1) > 0 => report(counts::run(size(0, 1))),
        "frames" if sizes.len() <= 2 && (1..=LONGEST).contains(&longest) && size(1, 1) > 0 => {
            report(frames::run(longest as u32, size(1, 1) as usize))
        }
        "steps" if sizes.len() <= 2 => {
            report(steps::run(size(0, steps::STEPS), size(1, steps::SEED)))
        }
        _ => return None,
    };
    Some(passed)
}

/// Prints what a part found, and says whether it passed.
fn report(outcome: impl Outcome) -> bool {
    print!("{outcome}");
    outcome.passed()
}
