//! Processor time of the thread, so that other work on the same cores counts little.

/// Linux's clock of a thread's processor time.
const THREAD_TIME: i32 = 3;

extern "C" {
    fn clock_gettime(clock: i32, time: *mut [i64; 2]) -> i32;
}

pub fn now() -> f64 {
    let mut time = [0; 2];
    // SAFETY: seconds and nanoseconds are two numbers of 64 bits on x86-64 Linux.
    assert_eq!(unsafe { clock_gettime(THREAD_TIME, &mut time) }, 0);
    time[0] as f64 + time[1] as f64 * 1e-9
}

/// Seconds of one call.
pub fn timed(call: impl FnOnce()) -> f64 {
    let begin = now();
    call();
    now() - begin
}
