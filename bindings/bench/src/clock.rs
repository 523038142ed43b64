//! The time that this thread has had on a processor. On a busy machine it tells more than the time that went by.

use std::time::Duration;

/// `struct timespec` of 64-bit Linux.
#[repr(C)]
struct Timespec {
    seconds: i64,
    nanoseconds: i64,
}

const THREAD_TIME: i32 = 3;

unsafe extern "C" {
    /// Of the C library, to which the standard library links.
    fn clock_gettime(clock: i32, time: *mut Timespec) -> i32;
}

pub fn now() -> Duration {
    let mut time = Timespec { seconds: 0, nanoseconds: 0 };
    // SAFETY: `time` is a variable of this function, laid out as the call wants it, and written by it alone.
    let done = unsafe { clock_gettime(THREAD_TIME, &mut time) };
    assert_eq!(done, 0, "no clock");
    Duration::new(time.seconds as u64, time.nanoseconds as u32)
}

/// What two readings one after another come to: the median of many.
pub fn cost() -> Duration {
    let mut costs = (0..1001)
        .map(|_| {
            let start = now();
            now() - start
        })
        .collect::<Vec<_>>();
    costs.sort();
    costs[costs.len() / 2]
}
