//! combiner.rs: the six tables and the decoder.

use crate::calls::{Call, DecodeCombine, Tally};
use crate::compare::{Outcome, Part};

/// A table on every index that any slot is wide enough for, with each higher bit, all of them, and any.
pub fn table<C: Call>(part: &Part, call: fn(u32) -> C) -> Outcome {
    let mut tally = Tally::default();
    let mut inputs = part.inputs();
    for low in part.share(32) {
        tally.check(call(low))?;
        tally.check(call(low | !31))?;
        for bit in 5..32 {
            tally.check(call(low | 1 << bit))?;
        }
    }
    for _ in part.tries(1_000_000) {
        tally.check(call(inputs.word()))?;
    }
    Ok(tally.compared)
}

/// Where the slots stand, both cycles: word, low bit and width.
const FIELDS: [(usize, u32, u32); 16] = [
    (0, 20, 4),
    (1, 28, 4),
    (0, 15, 5),
    (1, 15, 3),
    (0, 12, 3),
    (1, 12, 3),
    (0, 9, 3),
    (1, 9, 3),
    (0, 5, 4),
    (1, 24, 4),
    (0, 0, 5),
    (1, 6, 3),
    (1, 21, 3),
    (1, 3, 3),
    (1, 18, 3),
    (1, 0, 3),
];

/// Every value of every field among zeros, among ones and among any bits, and words at random.
pub fn decode_combine(part: &Part) -> Outcome {
    let mut tally = Tally::default();
    let mut inputs = part.inputs();
    for field in part.share(FIELDS.len() as u32) {
        let (word, low, width) = FIELDS[field as usize];
        for value in 0..1 << width {
            let mut around = vec![[0, 0], [!0, !0]];
            around.extend((0..1000).map(|_| [inputs.word(), inputs.word()]));
            for mut words in around {
                words[word] = words[word] & !(((1 << width) - 1) << low) | value << low;
                tally.check(DecodeCombine { w0: words[0], w1: words[1] })?;
            }
        }
    }
    for _ in part.tries(10_000_000) {
        tally.check(DecodeCombine { w0: inputs.word(), w1: inputs.word() })?;
    }
    Ok(tally.compared)
}
