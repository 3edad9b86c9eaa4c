//! Times of a row: both sides by turns, the best of several samples each. The samples of both sides last equally long, so that what else the
//! machine does meets them alike: of longer samples fewer are undisturbed.

use crate::rows::{Row, Side};
use std::time::{Duration, Instant};

const SAMPLES: usize = 60;
const SAMPLE: Duration = Duration::from_millis(3);

/// Nanoseconds a call.
pub struct Measured {
    pub rust: f64,
    pub port: f64,
}

impl Measured {
    pub fn ratio(&self) -> f64 {
        self.port / self.rust
    }
}

pub fn measure(row: &Row) -> Measured {
    let results = [Side::Rust, Side::Port].map(|side| row.sum(side, 1));
    assert_eq!(results[0], results[1], "{}: the results differ", row.name);
    let [rust, port] = counts(row);
    let mut best = Measured {
        rust: f64::INFINITY,
        port: f64::INFINITY,
    };
    for _ in 0..SAMPLES {
        best.rust = best.rust.min(sample(row, Side::Rust, rust));
        best.port = best.port.min(sample(row, Side::Port, port));
    }
    best
}

/// How many calls of each side fill a sample, which lasts as long as one call of the slower side at least.
fn counts(row: &Row) -> [u64; 2] {
    let calls = [Side::Rust, Side::Port].map(|side| roughly(row, side));
    let length = calls.into_iter().fold(SAMPLE.as_nanos() as f64, f64::max);
    calls.map(|call| (length / call).round() as u64)
}

/// Nanoseconds a call, the best of ever more calls until they fill a sample; the side is warm then.
fn roughly(row: &Row, side: Side) -> f64 {
    let (mut count, mut best) = (1, f64::INFINITY);
    while best * (count as f64) < 2.0 * SAMPLE.as_nanos() as f64 || count < 4 {
        best = sample(row, side, count).min(best);
        count *= 2;
    }
    best
}

/// Nanoseconds a call.
fn sample(row: &Row, side: Side, count: u64) -> f64 {
    let start = Instant::now();
    row.sum(side, count);
    start.elapsed().as_nanos() as f64 / count as f64
}
