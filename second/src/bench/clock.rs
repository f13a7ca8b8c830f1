//! Processor time: what this thread used, without the turns of other programs.

use std::ffi::c_int;

/// As on 64-bit Linux.
#[repr(C)]
struct Time {
    seconds: i64,
    nanoseconds: i64,
}

extern "C" {
    fn clock_gettime(clock: c_int, time: *mut Time) -> c_int;
}

const THREAD_PROCESSOR_TIME: c_int = 3;

/// The processor time of this thread so far, in microseconds.
pub fn microseconds_used() -> f64 {
    let mut time = Time {
        seconds: 0,
        nanoseconds: 0,
    };
    // SAFETY: the time is a place for what is written there. Linux always has this clock.
    unsafe { clock_gettime(THREAD_PROCESSOR_TIME, &mut time) };
    time.seconds as f64 * 1e6 + time.nanoseconds as f64 / 1e3
}
