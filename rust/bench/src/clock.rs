//! The time that this thread has spent on the processor.

#[repr(C)]
struct Timespec {
    seconds: i64,
    nanoseconds: i64,
}

/// Of Linux: the clock of the calling thread.
const THREAD_CPU_TIME: i32 = 3;

extern "C" {
    fn clock_gettime(clock: i32, time: *mut Timespec) -> i32;
}

pub fn seconds() -> f64 {
    let mut time = Timespec { seconds: 0, nanoseconds: 0 };
    // SAFETY: the pointer is to a timespec, in the layout that 64-bit Linux has for it.
    let failed = unsafe { clock_gettime(THREAD_CPU_TIME, &mut time) };
    assert!(failed == 0, "no clock of the thread");
    time.seconds as f64 + time.nanoseconds as f64 * 1e-9
}
