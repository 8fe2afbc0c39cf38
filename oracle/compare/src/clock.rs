//! Nanoseconds of an operation that is made over and over.

use std::time::Instant;

/// The best of so many rounds counts, each of so many operations.
pub const ROUNDS: usize = 400;
const TIMES: usize = 1000;

/// Of an operation in one round.
pub fn nanoseconds(mut operation: impl FnMut()) -> f64 {
    let t = Instant::now();
    for _ in 0..TIMES {
        operation();
    }
    t.elapsed().as_nanos() as f64 / TIMES as f64
}

/// In the best round.
pub fn best(mut operation: impl FnMut()) -> f64 {
    (0..ROUNDS).map(|_| nanoseconds(&mut operation)).fold(f64::MAX, f64::min)
}
