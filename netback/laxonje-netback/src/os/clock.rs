//! Times of the kernel's clocks.
//!
//! What makes the `unsafe` block sound: the call writes one `struct timespec`, which is the caller's own.
use crate::ffi;
use std::os::raw::c_int;
use std::time::Duration;

/// The time that this thread has had a processor. 0 where the kernel doesn't say it.
pub fn thread_time() -> Duration {
    time_of(ffi::CLOCK_THREAD_CPUTIME_ID)
}

/// The time since a moment of the kernel's, which never goes back: Linux's `bpf_ktime_get_ns` gives programs the same.
pub fn monotonic_time() -> Duration {
    time_of(ffi::CLOCK_MONOTONIC)
}

fn time_of(clock: c_int) -> Duration {
    let mut time = ffi::timespec::default();
    // SAFETY: the module's reason.
    match unsafe { ffi::clock_gettime(clock, &mut time) } {
        0 => Duration::new(time.seconds as u64, time.nanoseconds as u32),
        _ => Duration::ZERO,
    }
}
