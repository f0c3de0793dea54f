//! The processor time of this thread: what others do on the machine is not counted.

#[repr(C)]
struct Timespec {
    seconds: i64,
    nanoseconds: i64,
}

/// Linux's number for the clock of the calling thread.
const THREAD_CPUTIME: i32 = 3;

extern "C" {
    fn clock_gettime(clock: i32, time: *mut Timespec) -> i32;
}

/// The time used so far, in microseconds.
pub fn now() -> f64 {
    let mut time = Timespec {
        seconds: 0,
        nanoseconds: 0,
    };
    // SAFETY: the pointer is to a local that has the layout of x86-64 Linux's `struct timespec`.
    let failed = unsafe { clock_gettime(THREAD_CPUTIME, &mut time) };
    assert_eq!(failed, 0, "no clock of the thread's processor time");
    time.seconds as f64 * 1e6 + time.nanoseconds as f64 / 1e3
}
