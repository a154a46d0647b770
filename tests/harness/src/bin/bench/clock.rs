//! The processor time of this thread, which passes only while it runs.

use std::time::Duration;

#[repr(C)]
struct Timespec {
    seconds: i64,
    nanoseconds: i64,
}

extern "C" {
    fn clock_gettime(clock: i32, time: *mut Timespec) -> i32;
}

/// Of Linux.
const CLOCK_THREAD_CPUTIME_ID: i32 = 3;

pub fn processor_time() -> Duration {
    let mut time = Timespec { seconds: 0, nanoseconds: 0 };
    // The C library writes the time where it is told to.
    let status = unsafe { clock_gettime(CLOCK_THREAD_CPUTIME_ID, &mut time) };
    assert_eq!(status, 0, "the clock cannot be read");
    Duration::new(time.seconds as u64, time.nanoseconds as u32)
}
