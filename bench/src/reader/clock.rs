//! The time that this thread has had a processor for. Time of the wall would count what else runs on the machine: a median
//! is not spared by it where a call takes longer than the turns that two busy programs get.

use std::time::Duration;

#[cfg(all(target_os = "linux", target_pointer_width = "64"))]
pub fn now() -> Duration {
    /// As C has it on these machines.
    #[repr(C)]
    struct Time {
        seconds: i64,
        nanoseconds: i64,
    }

    extern "C" {
        fn clock_gettime(clock: i32, time: *mut Time) -> i32;
    }

    const THREAD: i32 = 3;

    let mut time = Time {
        seconds: 0,
        nanoseconds: 0,
    };
    // SAFETY: the function writes the time that it is lent, and keeps nothing.
    let answer = unsafe { clock_gettime(THREAD, &mut time) };
    assert_eq!(answer, 0, "there is a clock for each thread");
    Duration::new(time.seconds as u64, time.nanoseconds as u32)
}

/// Elsewhere the wall has to do.
#[cfg(not(all(target_os = "linux", target_pointer_width = "64")))]
pub fn now() -> Duration {
    use std::sync::OnceLock;
    use std::time::Instant;

    static START: OnceLock<Instant> = OnceLock::new();
    START.get_or_init(Instant::now).elapsed()
}
