//! Small sizes of all three parts, so that the program does not rot.

use crate::outcome::{grouped, Outcome};
use crate::steps::{self, ANSWERS};
use crate::{counts, frames, run};

#[test]
fn some_counts() {
    let tally = counts::run(997);
    assert!(tally.passed(), "{tally}");
    assert_eq!((tally.settings, tally.refused), (64 * 66, 64 * 2 * 4));
}

#[test]
fn some_frames() {
    let tally = frames::run(300, 37);
    assert!(tally.passed(), "{tally}");
    assert_eq!(tally.readings, 4 * tally.frames);
    assert!(tally.frames >= 4 * 5 && tally.symbols > 4 * 40, "{tally}");
}

#[test]
fn some_steps() {
    let tally = steps::run(10_100, steps::SEED);
    assert!(tally.passed(), "{tally}");
    assert_eq!(tally.steps(), 10_100);
    for answer in ANSWERS {
        assert!(tally.answered(answer) > 200, "{tally}");
    }
}

/// The same steps on any number of threads.
#[test]
fn a_seed_gives_the_same_steps() {
    let [one, again] = [0; 2].map(|_| steps::run(500, 7).to_string());
    assert_eq!(one, again);
    assert_ne!(one, steps::run(500, 8).to_string());
}

#[test]
fn arguments_that_name_no_run() {
    for words in [
        "",
        "points",
        "counts 0",
        "counts x",
        "frames 65536",
        "steps 1 2 3",
    ] {
        let arguments: Vec<String> = words.split_whitespace().map(str::to_string).collect();
        assert_eq!(run(&arguments), None, "{words}");
    }
}

#[test]
fn numbers_in_groups() {
    assert_eq!(grouped(0), "0");
    assert_eq!(grouped(999), "999");
    assert_eq!(grouped(4_194_240), "4,194,240");
}
