//! The CPU time of this thread, and the only unsafe code of this crate.

use std::time::Duration;

/// `struct timespec` of 64-bit Linux.
#[repr(C)]
struct Timespec {
    seconds: i64,
    nanoseconds: i64,
}

extern "C" {
    fn clock_gettime(clock: i32, time: *mut Timespec) -> i32;
}

/// `CLOCK_THREAD_CPUTIME_ID` of Linux.
const THREAD_CPU_TIME: i32 = 3;

/// What this thread has used of the CPU since it began.
pub fn thread_cpu_time() -> Duration {
    let mut time = Timespec {
        seconds: 0,
        nanoseconds: 0,
    };
    // SAFETY: the call writes one timespec, at the address of one that lives here.
    let result = unsafe { clock_gettime(THREAD_CPU_TIME, &mut time) };
    assert_eq!(result, 0, "this system has no clock of a thread's CPU time");
    Duration::new(time.seconds as u64, time.nanoseconds as u32)
}

#[cfg(test)]
mod tests {
    use super::*;

    #[test]
    fn the_clock_counts_work() {
        let start = thread_cpu_time();
        let mut turns = 0u64;
        while thread_cpu_time() == start {
            turns += 1;
            assert!(turns < 100_000_000, "the clock stands still");
        }
        assert!(thread_cpu_time() > start);
    }
}
