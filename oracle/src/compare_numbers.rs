//! The roundings, the clamp and the order of writeback.rs, and the depth word: calls on bare floats.

use crate::calls::{Call, LeTotal, Tally};
use crate::compare::{Outcome, Part};
use crate::inputs::shifted;

/// A call on one float: hostile ones, and patterns spread over all 32 bits.
pub fn one_float<C: Call>(part: &Part, call: fn(f32) -> C) -> Outcome {
    let mut tally = Tally::default();
    let mut inputs = part.inputs();
    for _ in part.tries(10_000_000) {
        tally.check(call(inputs.hostile()))?;
    }
    for bits in part.patterns() {
        tally.check(call(f32::from_bits(bits)))?;
    }
    Ok(tally.compared)
}

/// Floats apart, floats a step apart, a float and itself or its opposite, either way round.
pub fn le_total(part: &Part) -> Outcome {
    let mut tally = Tally::default();
    let mut inputs = part.inputs();
    for _ in part.tries(10_000_000) {
        let a = inputs.hostile();
        let b = match inputs.below(4) {
            0 => shifted(a, 1),
            1 => a,
            2 => -a,
            _ => inputs.hostile(),
        };
        tally.check(LeTotal { a, b })?;
        tally.check(LeTotal { a: b, b: a })?;
    }
    Ok(tally.compared)
}
