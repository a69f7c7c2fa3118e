// The time that this thread spent on a processor: other programs that run meanwhile do not count.

#[repr(C)]
#[derive(Default)]
struct Time {
    seconds: i64,
    nanoseconds: i64,
}

extern "C" {
    fn clock_gettime(clock: i32, time: *mut Time) -> i32;
}

/// Linux's number of this clock.
const THREAD_TIME: i32 = 3;

/// Microseconds since the thread began.
pub fn now() -> f64 {
    let mut time = Time::default();
    let status = unsafe { clock_gettime(THREAD_TIME, &mut time) };
    assert_eq!(status, 0, "the thread's clock can be read");
    time.seconds as f64 * 1e6 + time.nanoseconds as f64 / 1e3
}
