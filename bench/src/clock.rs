//! Processor time of this process, so that other work on the machine counts as little as can be.

#[repr(C)]
struct Timespec {
    seconds: i64,
    nanoseconds: i64,
}

extern "C" {
    fn clock_gettime(clock: i32, time: &mut Timespec) -> i32;
}

const PROCESS_TIME: i32 = 2;

/// Nanoseconds of processor time so far.
pub fn now() -> f64 {
    let mut time = Timespec {
        seconds: 0,
        nanoseconds: 0,
    };
    // SAFETY: the C library writes the one struct that it is lent.
    unsafe { clock_gettime(PROCESS_TIME, &mut time) };
    time.seconds as f64 * 1e9 + time.nanoseconds as f64
}

/// The least time of some runs of a function, in nanoseconds.
pub fn least(times: u32, mut work: impl FnMut()) -> f64 {
    let mut best = f64::INFINITY;
    for _ in 0..times {
        let start = now();
        work();
        best = best.min(now() - start);
    }
    best
}
