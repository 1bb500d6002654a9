//! The time that timings count.

/// The nanoseconds that this thread has had a processor. The clock on the wall would
/// count other programs too.
pub fn processor_time() -> f64 {
    #[repr(C)]
    struct Time {
        seconds: i64,
        nanoseconds: i64,
    }
    unsafe extern "C" {
        fn clock_gettime(clock: i32, time: *mut Time) -> i32;
    }
    const THREAD: i32 = 3; // CLOCK_THREAD_CPUTIME_ID on Linux

    let mut time = Time {
        seconds: 0,
        nanoseconds: 0,
    };
    let status = unsafe { clock_gettime(THREAD, &mut time) };
    assert_eq!(status, 0, "the thread has no clock");
    time.seconds as f64 * 1e9 + time.nanoseconds as f64
}
