//! The time that this thread has had the processor: what others run on the
//! machine is not counted.

/// As the C library lays it out on 64-bit Linux.
#[repr(C)]
struct Timespec {
    seconds: i64,
    nanoseconds: i64,
}

const THREAD_TIME: i32 = 3;

extern "C" {
    fn clock_gettime(clock: i32, time: *mut Timespec) -> i32;
}

/// The seconds that this thread has run.
pub fn seconds() -> f64 {
    let mut time = Timespec { seconds: 0, nanoseconds: 0 };
    // SAFETY: the pointer is to a struct of the right layout.
    let failed = unsafe { clock_gettime(THREAD_TIME, &mut time) } != 0;
    assert!(!failed, "the machine has no clock for a thread");
    time.seconds as f64 + time.nanoseconds as f64 * 1e-9
}
