//! The processor's time that this thread has used. The turns of other programs are not in it.

use std::os::raw::{c_int, c_long};
use std::time::Duration;

/// `struct timespec` of 64-bit Linux.
#[repr(C)]
#[derive(Default)]
struct Timespec {
    seconds: i64,
    nanoseconds: c_long,
}

extern "C" {
    fn clock_gettime(clock: c_int, time: *mut Timespec) -> c_int;
}

/// `CLOCK_THREAD_CPUTIME_ID` of Linux.
const THREAD: c_int = 3;

/// The time that the thread has used up to now.
pub fn now() -> Duration {
    let mut time = Timespec::default();
    // SAFETY: the pointer is to a `timespec` that may be written.
    let failed = unsafe { clock_gettime(THREAD, &mut time) };
    assert_eq!(failed, 0, "the system has no clock for a thread");
    Duration::new(time.seconds as u64, time.nanoseconds as u32)
}
