//! The time that this thread has had on a processor: what else the machine does meanwhile is not in it.

/// Linux's number of the clock of the calling thread.
const THREAD_CPU_TIME: i32 = 3;

/// As C has it on x86-64, for which the proved code is built.
#[repr(C)]
#[derive(Default)]
struct Time {
    seconds: i64,
    nanoseconds: i64,
}

extern "C" {
    fn clock_gettime(clock: i32, time: *mut Time) -> i32;
}

/// Nanoseconds since some beginning.
pub fn now() -> f64 {
    let mut time = Time::default();
    // SAFETY: the time lives through the call, and is laid out as C has it.
    let status = unsafe { clock_gettime(THREAD_CPU_TIME, &mut time) };
    assert_eq!(status, 0, "there is no such clock");
    time.seconds as f64 * 1e9 + time.nanoseconds as f64
}
