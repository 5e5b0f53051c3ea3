//! Numbered jobs on all processors, and a drawing of numbers for each that does not depend on which thread does it.

use crate::common::Draw;
use std::num::NonZero;
use std::ops::AddAssign;
use std::panic::resume_unwind;
use std::sync::atomic::{AtomicU64, Ordering};
use std::thread;

pub fn threads() -> usize {
    thread::available_parallelism().map_or(1, NonZero::get)
}

/// Does the jobs 0 to `jobs` - 1, each on the next thread that is free, and adds up what they find.
pub fn sum<T>(jobs: u64, job: impl Fn(u64) -> T + Sync) -> T
where
    T: AddAssign + Default + Send,
{
    let next = AtomicU64::new(0);
    let work = || {
        let mut found = T::default();
        loop {
            let number = next.fetch_add(1, Ordering::Relaxed);
            if number >= jobs {
                return found;
            }
            found += job(number);
        }
    };
    let mut all = T::default();
    thread::scope(|scope| {
        let workers: Vec<_> = (0..threads()).map(|_| scope.spawn(work)).collect();
        for worker in workers {
            match worker.join() {
                Ok(found) => all += found,
                Err(panic) => resume_unwind(panic),
            }
        }
    });
    all
}

/// The drawing of one job. Seed and number are mixed (splitmix64), so that jobs beside each other begin far apart.
pub fn draw(seed: u64, job: u64) -> Draw {
    let mut mixed = seed.wrapping_add(job.wrapping_mul(0x9E37_79B9_7F4A_7C15));
    mixed = (mixed ^ mixed >> 30).wrapping_mul(0xBF58_476D_1CE4_E5B9);
    mixed = (mixed ^ mixed >> 27).wrapping_mul(0x94D0_49BB_1331_11EB);
    Draw::new(mixed ^ mixed >> 31)
}
