//! Runs one call's comparison on two threads.

use crate::inputs::Inputs;
use std::iter::Sum;

/// How many calls were compared, or the first difference.
pub type Outcome = Result<u64, String>;

const PARTS: u64 = 2;

/// One thread's part of a comparison.
pub struct Part {
    index: u64,
    seed: u64,
    scale: f64,
}

impl Part {
    /// Its own stretch of the generator.
    pub fn inputs(&self) -> Inputs {
        Inputs::new(self.seed ^ (self.index << 40))
    }

    /// Its share of the numbers below the limit.
    pub fn share(&self, limit: u32) -> impl Iterator<Item = u32> {
        (self.index as u32..limit).step_by(PARTS as usize)
    }

    /// Its share of that many tries at random, scaled.
    pub fn tries(&self, count: u64) -> std::ops::Range<u64> {
        0..((count as f64 * self.scale / PARTS as f64).ceil() as u64)
    }

    /// Its share of all 32-bit patterns: at scale 1 every 97th of them, from 97 up all.
    pub fn patterns(&self) -> impl Iterator<Item = u32> {
        let step = (97.0 / self.scale).max(1.0) as usize;
        let from = self.seed % step as u64 + self.index * step as u64;
        (from..1 << 32).step_by(step * PARTS as usize).map(|bits| bits as u32)
    }
}

/// Sums, place by place.
pub fn added<const N: usize>(a: [u64; N], b: [u64; N]) -> [u64; N] {
    std::array::from_fn(|i| a[i] + b[i])
}

/// A line to be printed: a call's name, and what was counted of it.
pub type Line = (&'static str, Vec<(String, u64)>);

/// The outcome of all parts together.
pub fn run<T: Sum + Send>(seed: u64, scale: f64, comparison: fn(&Part) -> Result<T, String>) -> Result<T, String> {
    std::thread::scope(|scope| {
        let parts: Vec<_> =
            (0..PARTS).map(|index| scope.spawn(move || comparison(&Part { index, seed, scale }))).collect();
        let outcomes = parts.into_iter().map(|part| part.join().expect("the original panicked"));
        outcomes.sum()
    })
}
