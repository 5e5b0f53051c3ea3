//! What is written: how much, that its values are the second program's, and that a spoiled theorem has one wrong number.

use crate::frame::{frame, SYMBOLS};
use crate::frame_values::module;
use crate::theorem::{Crate, Theorem};
use crate::write::write_crate;
use std::collections::BTreeSet;
use std::fs::{read_to_string, remove_dir_all};

/// The numbers of the last list in a term: `.. (3 ∷ 17 ∷ [])`.
fn places(given: &str) -> Vec<usize> {
    let (_, list) = given.rsplit_once('(').expect("a list");
    let numbers = list.split(" ∷ ").filter(|entry| !entry.starts_with('['));
    numbers.map(|n| n.parse().expect("a number")).collect()
}

#[test]
fn a_frame_has_its_theorems_and_values() {
    // plan, data bits, points answers and refused questions; of each symbol coded bits, labels, questions and the floats of each stream.
    for (mcs, streams) in [(0, 1), (15, 2), (16, 3), (31, 4)] {
        for width in [20, 40] {
            let module = module(mcs, width);
            assert_eq!(module.theorems.len(), 4 + 3 * (3 + streams));
            let floats = module
                .theorems
                .iter()
                .filter(|t| t.name.starts_with("floats"));
            let floats: usize = floats.map(Theorem::values).sum();
            assert_eq!(floats, [36, 36, 27, 36][streams - 1]);
        }
    }
}

#[test]
fn the_floats_are_those_of_the_second_program() {
    for (mcs, width) in [(5, 20), (22, 40)] {
        let frame = frame(mcs, width);
        let points = second::points::frame_points(&frame.settings, &frame.payload).unwrap();
        assert!(points.len() as u64 >= SYMBOLS);
        let mut seen = 0;
        for theorem in module(mcs, width).theorems {
            let Some(rest) = theorem.name.strip_prefix("floats_") else {
                continue;
            };
            let symbol: usize = rest[..1].parse().unwrap();
            let row = &theorem.rows[0];
            let floats = places(&row.given).into_iter().map(|g| points[symbol][g]);
            let bits: Vec<u64> = floats.map(|level| u64::from(level.to_bits())).collect();
            assert_eq!(row.expected, bits);
            seen += bits.len();
        }
        assert!(seen >= 27);
    }
}

#[test]
fn names_differ_and_no_theorem_is_empty() {
    let mut crates = BTreeSet::new();
    for krate in crate::crates() {
        assert!(crates.insert(krate.name.clone()));
        for module in &krate.modules {
            let names: BTreeSet<&str> = module.theorems.iter().map(|t| t.name.as_str()).collect();
            assert_eq!(names.len(), module.theorems.len(), "{}", module.name);
            assert!(module.theorems.iter().all(|t| t.values() > 0));
        }
    }
}

fn numbers(krate: &Crate) -> Vec<Vec<u64>> {
    let theorems = krate.modules.iter().flat_map(|module| &module.theorems);
    let all = |t: &Theorem| t.rows.iter().flat_map(|row| row.expected.clone()).collect();
    theorems.map(all).collect()
}

#[test]
fn spoiling_makes_one_number_of_each_theorem_wrong() {
    let krate = |module| Crate {
        name: "one".into(),
        modules: vec![module],
        alike: true,
    };
    let (right, mut wrong) = (krate(module(9, 20)), krate(module(9, 20)));
    wrong.spoil();
    for (right, wrong) in numbers(&right).iter().zip(numbers(&wrong)) {
        let differ = right.iter().zip(&wrong).filter(|(a, b)| a != b);
        assert_eq!(differ.count(), 1);
    }
}

#[test]
fn each_theorem_is_written_once() {
    let folder = std::env::temp_dir().join(format!("definition-values-{}", std::process::id()));
    let krate = Crate {
        name: "one".into(),
        modules: vec![module(3, 40)],
        alike: true,
    };
    write_crate(&folder, &krate).unwrap();
    let proofs = read_to_string(folder.join("one/proofs/Mcs3.antt")).unwrap();
    let rows = read_to_string(folder.join("one/specs/Mcs3.antt")).unwrap();
    remove_dir_all(&folder).unwrap();
    for theorem in &krate.modules[0].theorems {
        let name = &theorem.name;
        let proved = format!("\npub {name}_agrees : Holds {name}\n");
        assert_eq!(proofs.matches(&proved).count(), 1);
        for row in &theorem.rows {
            assert!(rows.contains(&row.given));
        }
    }
}
