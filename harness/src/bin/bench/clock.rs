//! Time that this thread has had on a processor: other work on the machine does not count.

const THREAD_CPUTIME: i32 = 3;

#[repr(C)]
struct Timespec {
    seconds: i64,
    nanoseconds: i64,
}

extern "C" {
    fn clock_gettime(clock: i32, time: *mut Timespec) -> i32;
}

fn now() -> f64 {
    let mut time = Timespec { seconds: 0, nanoseconds: 0 };
    // Safety: the time is there to be written.
    assert_eq!(unsafe { clock_gettime(THREAD_CPUTIME, &mut time) }, 0);
    time.seconds as f64 * 1e6 + time.nanoseconds as f64 / 1e3
}

/// Microseconds of one run, where so many are made one after the other.
pub fn timed(times: usize, mut run: impl FnMut()) -> f64 {
    let start = now();
    for _ in 0..times {
        run();
    }
    (now() - start) / times as f64
}
