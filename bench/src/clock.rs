//! The processor time of this thread, which does not count what others do meanwhile on a busy machine.

#[repr(C)]
struct Time {
    seconds: i64,
    nanoseconds: i64,
}

/// The number of the thread's own clock on Linux.
const THREAD_CLOCK: i32 = 3;

extern "C" {
    fn clock_gettime(clock: i32, time: *mut Time) -> i32;
}

/// Nanoseconds that this thread has run.
pub fn nanoseconds() -> f64 {
    let mut time = Time { seconds: 0, nanoseconds: 0 };
    assert_eq!(unsafe { clock_gettime(THREAD_CLOCK, &mut time) }, 0, "the thread has a clock");
    time.seconds as f64 * 1e9 + time.nanoseconds as f64
}

/// Nanoseconds for one call, over some calls.
fn batch(calls: u32, call: &mut impl FnMut()) -> f64 {
    let began = nanoseconds();
    for _ in 0..calls {
        call();
    }
    (nanoseconds() - began) / f64::from(calls)
}

/// The least time of a batch of calls, and how many batches are timed at least, and for how long.
const BATCH: f64 = 2e6;
const BATCHES: usize = 5;
const LONG_ENOUGH: f64 = 150e6;

/// How many calls take as long as a batch.
fn calls_of_a_batch(call: &mut impl FnMut()) -> u32 {
    let began = nanoseconds();
    let mut calls = 0;
    while nanoseconds() - began < BATCH {
        call();
        calls += 1;
    }
    calls
}

/// Nanoseconds for one call of each, in turn, the fastest batch of each.
pub fn fastest(mut one: impl FnMut(), mut other: impl FnMut()) -> (f64, f64) {
    let (calls, other_calls) = (calls_of_a_batch(&mut one), calls_of_a_batch(&mut other));
    let mut best = (f64::MAX, f64::MAX);
    let mut batches = 0;
    let began = nanoseconds();
    while batches < BATCHES || nanoseconds() - began < LONG_ENOUGH {
        best.0 = best.0.min(batch(calls, &mut one));
        best.1 = best.1.min(batch(other_calls, &mut other));
        batches += 1;
    }
    best
}
