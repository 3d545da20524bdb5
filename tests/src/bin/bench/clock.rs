//! The time that this thread has run, which stands still while the core does other work.

use std::ffi::c_long;

/// Linux's clock of the thread.
const CLOCK_THREAD_CPUTIME_ID: i32 = 3;

/// C's `struct timespec`.
#[repr(C)]
#[derive(Default)]
struct Time {
    seconds: c_long,
    nanoseconds: c_long,
}

unsafe extern "C" {
    fn clock_gettime(clock: i32, time: *mut Time) -> i32;
}

/// The seconds that this thread has run.
pub fn seconds() -> f64 {
    let mut time = Time::default();
    // SAFETY: the place is that of a `struct timespec`, and is written to.
    let failed = unsafe { clock_gettime(CLOCK_THREAD_CPUTIME_ID, &mut time) };
    assert_eq!(failed, 0, "Linux has this clock");
    time.seconds as f64 + 1e-9 * time.nanoseconds as f64
}

#[cfg(test)]
mod tests {
    use std::hint::black_box;
    use std::thread::sleep;
    use std::time::{Duration, Instant};

    use super::*;

    #[test]
    fn the_clock_goes_on_with_work_and_not_with_sleep() {
        let (start, wall) = (seconds(), Instant::now());
        sleep(Duration::from_millis(200));
        let slept = seconds() - start;
        assert!(slept < 0.1, "{slept}");
        let mut sum = 0u64;
        while seconds() - start < slept + 0.02 {
            sum = black_box(sum + 1);
        }
        assert!(wall.elapsed().as_secs_f64() >= 0.21);
    }
}
