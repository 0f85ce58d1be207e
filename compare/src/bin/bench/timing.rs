//! Times of calls, and their median.

use std::hint::black_box;
use std::time::Instant;

/// Microseconds of one call, over `batch` calls.
pub fn timed<T>(batch: u32, call: impl Fn() -> T) -> f64 {
    let begin = Instant::now();
    for _ in 0..batch {
        black_box(call());
    }
    begin.elapsed().as_secs_f64() * 1e6 / f64::from(batch)
}

pub fn median(mut values: Vec<f64>) -> f64 {
    values.sort_by(f64::total_cmp);
    values[values.len() / 2]
}
