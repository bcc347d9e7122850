//! The processor time of this thread: what other programs take on a busy machine is not in it.

#[repr(C)]
struct Timespec {
    seconds: i64,
    nanoseconds: i64,
}

/// Linux's number of the calling thread's clock.
const THREAD_CLOCK: i32 = 3;

extern "C" {
    fn clock_gettime(clock: i32, time: *mut Timespec) -> i32;
}

/// Nanoseconds that this thread has run for.
pub fn spent() -> u64 {
    let mut time = Timespec {
        seconds: 0,
        nanoseconds: 0,
    };
    // SAFETY: the C library's call, which fills the struct of its 64-bit layout.
    let status = unsafe { clock_gettime(THREAD_CLOCK, &mut time) };
    assert_eq!(status, 0, "no clock for this thread");
    time.seconds as u64 * 1_000_000_000 + time.nanoseconds as u64
}
