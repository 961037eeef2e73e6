//! How long a call of the published code took, without what the driver does around it.
use std::cell::Cell;
use std::time::Instant;

/// How many empty calls show what reading the clock costs.
const EMPTY_CALLS: usize = 1000;

thread_local! {
    static LAST: Cell<u64> = const { Cell::new(0) };
}

/// Runs a call and notes its nanoseconds.
pub fn timed<T>(call: impl FnOnce() -> T) -> T {
    let start = Instant::now();
    let result = call();
    let took = start.elapsed();
    LAST.set(took.as_nanos() as u64);
    result
}

/// The nanoseconds of the call that was timed last, reading the clock included.
pub fn last() -> u64 {
    LAST.get()
}

/// The nanoseconds that reading the clock adds to a call.
pub fn overhead() -> u64 {
    let empty = |_| {
        timed(|| ());
        last()
    };
    (0..EMPTY_CALLS).map(empty).min().unwrap_or(0)
}
