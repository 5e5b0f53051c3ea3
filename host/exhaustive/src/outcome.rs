//! What the parts of the run have in common: a verdict, differences printed as they are found, numbers in groups.

use std::fmt::{Debug, Display};
use std::sync::atomic::{AtomicU64, Ordering};

/// What a part found, with its figures as text.
pub trait Outcome: Display {
    fn passed(&self) -> bool;
}

/// Differences that are printed; the rest is only counted.
const PRINTED: u64 = 20;

/// Prints one of the first differences.
pub fn print_difference(text: impl FnOnce() -> String) {
    static FOUND: AtomicU64 = AtomicU64::new(0);
    if FOUND.fetch_add(1, Ordering::Relaxed) < PRINTED {
        println!("DIFFERENCE: {}", text());
    }
}

/// Compares what both programs say of something: 0 where it is the same, 1 where it differs.
pub fn compare<T: Debug + PartialEq>(what: &str, of: &impl Debug, core: T, second: T) -> u64 {
    if core == second {
        return 0;
    }
    print_difference(|| format!("{what} of {of:?}: core {core:?}, second program {second:?}"));
    1
}

/// A number in groups of three digits.
pub fn grouped(number: u64) -> String {
    let digits = number.to_string();
    let mut text = String::new();
    for (place, digit) in digits.chars().enumerate() {
        if place > 0 && (digits.len() - place).is_multiple_of(3) {
            text.push(',');
        }
        text.push(digit);
    }
    text
}
