//! Measuring the archive beside the same rules in Rust written for speed, in one process, on the same shelves.

pub mod report;
pub mod searches;
pub mod whole;
pub mod workload;

use std::iter::Sum;
use std::ops::{Add, Div};
use std::time::Instant;

/// All is measured so many times over, for a machine may be slow for seconds on end.
pub const PASSES: usize = 3;

/// How often each call is timed in a pass, all in turn, so that a busy machine troubles all alike.
pub const ROUNDS: usize = 7;

/// A sample is as many calls as take about so long: short enough that many samples are not interrupted.
const SAMPLE_NS: f64 = 30_000.0;

/// Nanoseconds of one call: the best of all rounds, and the median of a pass, of the quietest one.
#[derive(Clone, Copy, Debug, Default)]
pub struct Time {
    pub best: f64,
    pub median: f64,
}

impl Time {
    /// Of two passes.
    pub fn better(self, other: Time) -> Time {
        Time { best: self.best.min(other.best), median: self.median.min(other.median) }
    }
}

impl Add for Time {
    type Output = Time;
    fn add(self, other: Time) -> Time {
        Time { best: self.best + other.best, median: self.median + other.median }
    }
}

impl Div<f64> for Time {
    type Output = Time;
    fn div(self, n: f64) -> Time {
        Time { best: self.best / n, median: self.median / n }
    }
}

impl Sum for Time {
    fn sum<I: Iterator<Item = Time>>(times: I) -> Time {
        times.fold(Time::default(), Add::add)
    }
}

/// The times of some calls.
pub fn times<const N: usize>(mut calls: [&mut dyn FnMut(); N]) -> [Time; N] {
    let repeats = calls.each_mut().map(|call| {
        let once = sample(call, 1).min(sample(call, 1));
        (SAMPLE_NS / once.max(1.0)).ceil() as u32
    });
    let mut samples = [const { Vec::new() }; N];
    for _ in 0..ROUNDS {
        for ((call, of_call), &repeats) in calls.iter_mut().zip(&mut samples).zip(&repeats) {
            of_call.push(sample(call, repeats));
        }
    }
    samples.map(|mut of_call| {
        of_call.sort_by(f64::total_cmp);
        Time { best: of_call[0], median: of_call[ROUNDS / 2] }
    })
}

fn sample(call: &mut dyn FnMut(), repeats: u32) -> f64 {
    let start = Instant::now();
    for _ in 0..repeats {
        call();
    }
    start.elapsed().as_nanos() as f64 / f64::from(repeats)
}

/// The geometric mean of some ratios.
pub fn mean(ratios: impl IntoIterator<Item = f64>) -> f64 {
    let (sum, n) = ratios.into_iter().fold((0.0, 0.0), |(sum, n), ratio| (sum + ratio.ln(), n + 1.0));
    (sum / n).exp()
}
