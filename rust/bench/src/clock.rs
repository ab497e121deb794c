//! The time that this thread, or this process, has had a processor for. Unlike
//! the time of day it does not go on while other work has the processor.

use std::time::Duration;

/// C's `struct timespec`.
#[repr(C)]
struct TimeSpecification {
    seconds: i64,
    nanoseconds: i64,
}

/// C's `CLOCK_PROCESS_CPUTIME_ID` and `CLOCK_THREAD_CPUTIME_ID`, on Linux.
const OF_THIS_PROCESS: i32 = 2;
const OF_THIS_THREAD: i32 = 3;

extern "C" {
    fn clock_gettime(clock: i32, time: *mut TimeSpecification) -> i32;
}

/// The time of this thread.
pub fn processor_time() -> Duration {
    time_of(OF_THIS_THREAD)
}

/// The time of all threads of this process together.
pub fn process_time() -> Duration {
    time_of(OF_THIS_PROCESS)
}

fn time_of(clock: i32) -> Duration {
    let mut time = TimeSpecification {
        seconds: 0,
        nanoseconds: 0,
    };
    // SAFETY: the pointer is to a timespec that nobody else uses.
    let status = unsafe { clock_gettime(clock, &mut time) };
    assert_eq!(status, 0, "the clock cannot be read");
    Duration::new(time.seconds as u64, time.nanoseconds as u32)
}
