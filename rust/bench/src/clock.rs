//! Processor time, by two functions of the C library that Rust's own library
//! doesn't offer.
//!
//! The wall clock won't do on a machine with other work. A run shorter than the
//! scheduler's time slice is often left alone, while a longer one is interrupted
//! every time: even the least of many times is then too long by a factor that
//! depends on the run's length, and ratios are wrong.

#![allow(unsafe_code)]

use std::ffi::{c_int, c_long};
use std::time::Duration;

/// Linux's number for the calling thread's processor time.
const CLOCK_THREAD_CPUTIME_ID: c_int = 3;

/// Linux's number for all children that have been waited for.
const RUSAGE_CHILDREN: c_int = -1;

/// C's `struct timespec`.
#[repr(C)]
#[derive(Default)]
struct Timespec {
    seconds: c_long,
    nanoseconds: c_long,
}

/// C's `struct timeval`.
#[repr(C)]
#[derive(Default)]
struct Timeval {
    seconds: c_long,
    microseconds: c_long,
}

/// C's `struct rusage`.
#[repr(C)]
#[derive(Default)]
struct Usage {
    user: Timeval,
    system: Timeval,
    other: [c_long; 14],
}

extern "C" {
    fn clock_gettime(clock: c_int, time: *mut Timespec) -> c_int;
    fn getrusage(who: c_int, usage: *mut Usage) -> c_int;
}

/// The processor time that this thread has used so far.
pub fn thread_time() -> Duration {
    let mut time = Timespec::default();
    // SAFETY: `time` is a place to write to, laid out as C has it.
    let code = unsafe { clock_gettime(CLOCK_THREAD_CPUTIME_ID, &mut time) };
    assert_eq!(code, 0, "Linux has this clock");
    Duration::from_secs(time.seconds as u64) + Duration::from_nanos(time.nanoseconds as u64)
}

/// The processor time that the children waited for have used so far.
pub fn children_time() -> Duration {
    let mut usage = Usage::default();
    // SAFETY: `usage` is a place to write to, laid out as C has it.
    let code = unsafe { getrusage(RUSAGE_CHILDREN, &mut usage) };
    assert_eq!(code, 0, "Linux keeps this account");
    [usage.user, usage.system]
        .map(|time| {
            Duration::from_secs(time.seconds as u64)
                + Duration::from_micros(time.microseconds as u64)
        })
        .iter()
        .sum()
}

#[cfg(test)]
mod tests {
    use super::*;
    use std::process::Command;
    use std::thread;
    use std::time::Instant;

    const LONG: Duration = Duration::from_millis(200);

    #[test]
    fn sleeping_takes_no_time() {
        let start = thread_time();
        thread::sleep(LONG);
        assert!(thread_time() - start < LONG / 2);
    }

    // Half of it is asked for, since the two clocks aren't the same one: a
    // machine may count a thread's time in ticks, or slew its wall clock.
    #[test]
    fn working_takes_time_and_the_wall_clock_shows_it() {
        let (wall, start) = (Instant::now(), thread_time());
        while thread_time() - start < LONG {}
        assert!(wall.elapsed() >= LONG / 2);
    }

    #[test]
    fn a_working_child_takes_more_time_than_a_sleeping_one() {
        let run = |body: &str| {
            let start = children_time();
            let status = Command::new("/bin/sh").args(["-c", body]).status();
            assert!(status.expect("a shell").success());
            children_time() - start
        };
        let worked = run("i=0; while [ $i -lt 300000 ]; do i=$((i + 1)); done");
        let slept = run("exec sleep 0.3");
        assert!(worked > slept * 2, "{worked:?} working, {slept:?} asleep");
    }
}
