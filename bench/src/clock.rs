// The processor time of this thread: other programs on the machine disturb it less than the time of day.

#[repr(C)]
struct Timespec {
    seconds: i64,
    nanoseconds: i64,
}

unsafe extern "C" {
    fn clock_gettime(clock: i32, time: *mut Timespec) -> i32;
}

// CLOCK_THREAD_CPUTIME_ID of Linux.
const THREAD: i32 = 3;

// Microseconds.
pub fn now() -> f64 {
    let mut time = Timespec { seconds: 0, nanoseconds: 0 };
    let answer = unsafe { clock_gettime(THREAD, &mut time) };
    assert_eq!(answer, 0, "this system has no clock of a thread");
    time.seconds as f64 * 1e6 + time.nanoseconds as f64 / 1e3
}
