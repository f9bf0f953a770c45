//! Time that this thread has been at work, so that other work on the machine
//! is not measured along.

use std::time::Duration;

#[cfg(all(target_os = "linux", target_pointer_width = "64"))]
pub fn now() -> Duration {
    #[repr(C)]
    struct Moment {
        seconds: i64,
        nanoseconds: i64,
    }
    extern "C" {
        fn clock_gettime(clock: i32, moment: *mut Moment) -> i32;
    }
    const THREAD_TIME: i32 = 3;
    let mut moment = Moment {
        seconds: 0,
        nanoseconds: 0,
    };
    // SAFETY: the C library that std is linked with has this function, and it
    // writes one moment of this layout.
    let failed = unsafe { clock_gettime(THREAD_TIME, &mut moment) } != 0;
    assert!(!failed, "the thread's clock cannot be read");
    Duration::new(moment.seconds as u64, moment.nanoseconds as u32)
}

#[cfg(not(all(target_os = "linux", target_pointer_width = "64")))]
pub fn now() -> Duration {
    use std::sync::OnceLock;
    use std::time::Instant;
    static START: OnceLock<Instant> = OnceLock::new();
    START.get_or_init(Instant::now).elapsed()
}

#[cfg(test)]
mod tests {
    use super::*;

    #[test]
    fn time_passes_with_work() {
        let start = now();
        let mut work = 1u64;
        while now() < start + Duration::from_millis(2) {
            work = std::hint::black_box(work.wrapping_mul(3));
        }
        assert!(now() > start);
    }
}
