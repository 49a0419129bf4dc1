//! Runs of words of the library against single word reads of frame.rs: the number and the count, and every byte of the two
//! slices, with first pixels up to the largest number and slices that do not match.

use crate::compare::{Line, Part};
use crate::draws::{Frame, Read};
use crate::frame;
use crate::inputs::Inputs;
use crate::library::{self, RunAnswer};
use crate::lists::{frame_and_read, Class};
use std::iter::Sum;

/// How often what came.
#[derive(Default)]
pub struct Counts {
    runs: u64,
    /// Runs turned away as a whole.
    unmatched: u64,
    /// Entries by their number.
    entries: [u64; 11],
    /// Runs whose pixels reach past the largest number.
    wrapping: u64,
}

/// A run's number and count, and the two slices after it.
#[derive(PartialEq, Debug)]
struct Ran {
    number: u32,
    count: u64,
    words: Vec<u8>,
    numbers: Vec<u8>,
}

/// The first pixel, mostly one of the frame.
fn first(inputs: &mut Inputs, read: &Read, entries: usize) -> usize {
    match inputs.below(12) {
        0 => 0,
        1 => usize::MAX,
        2 => usize::MAX - inputs.below(entries as u32 + 2) as usize,
        3 => inputs.bits() as usize,
        4 => 1 << 32,
        _ => read.pixel,
    }
}

/// Mostly two bytes for each number.
fn bytes(inputs: &mut Inputs, entries: usize) -> usize {
    match inputs.below(16) {
        0 => inputs.pick(&[2 * entries + 1, (2 * entries).saturating_sub(1), entries, 0, 2 * entries + 2, 3 * entries]),
        _ => 2 * entries,
    }
}

fn filled(inputs: &mut Inputs, length: usize) -> Vec<u8> {
    (0..length).map(|_| inputs.byte()).collect()
}

/// The library's runs or those of frame.rs.
type Run = fn(&Frame, &Read, &mut [u8], &mut [u8]) -> RunAnswer;

fn ran(run: Run, frame: &Frame, read: &Read, mut words: Vec<u8>, mut numbers: Vec<u8>) -> Ran {
    let answer = run(frame, read, &mut words, &mut numbers);
    Ran { number: answer.number, count: answer.words, words, numbers }
}

fn check(inputs: &mut Inputs, class: Class, counts: &mut Counts) -> Result<(), String> {
    let (frame, read) = frame_and_read(inputs, class);
    let limit = frame.marks.len() as u32 + 3;
    let entries = match class {
        Class::Whole => frame.marks.len(),
        _ => inputs.below(limit) as usize,
    };
    let first = if class == Class::Whole { 0 } else { first(inputs, &read, entries) };
    let read = Read { pixel: first, ..read };
    let words = bytes(inputs, entries);
    let (words, numbers) = (filled(inputs, words), filled(inputs, entries));
    let library = ran(library::read_words, &frame, &read, words.clone(), numbers.clone());
    let original = ran(frame::read_words, &frame, &read, words, numbers);
    if library != original {
        return Err(format!(
            "read_words: DIFFERENT\n  first {first:x}, fmt {}, siz {}, rgb_dither {}, big_endian {}\n  frame: {}\n  library: {library:?}\n  Rust: {original:?}",
            read.fmt,
            read.siz,
            read.rgb_dither,
            read.big_endian,
            frame.text()
        ));
    }
    counts.runs += 1;
    counts.wrapping += u64::from(first.checked_add(entries).is_none());
    if original.number == 0 {
        original.numbers.iter().for_each(|number| counts.entries[usize::from(*number)] += 1);
    } else {
        counts.unmatched += 1;
    }
    Ok(())
}

pub fn runs(part: &Part) -> Result<Counts, String> {
    let mut counts = Counts::default();
    let mut inputs = part.inputs();
    for number in part.tries(200_000) {
        let class = if number % 20_000 == 0 { Class::Whole } else { Class::Any };
        check(&mut inputs, class, &mut counts)?;
    }
    Ok(counts)
}

impl Sum for Counts {
    fn sum<I: Iterator<Item = Self>>(parts: I) -> Self {
        parts.fold(Self::default(), |a, b| Counts {
            runs: a.runs + b.runs,
            unmatched: a.unmatched + b.unmatched,
            entries: std::array::from_fn(|i| a.entries[i] + b.entries[i]),
            wrapping: a.wrapping + b.wrapping,
        })
    }
}

impl Counts {
    pub fn lines(&self) -> Vec<Line> {
        let runs = [
            ("compared".to_string(), self.runs),
            ("with number 19".to_string(), self.unmatched),
            ("past the largest pixel".to_string(), self.wrapping),
        ];
        let entries = [0, 1, 2, 3, 8, 9, 10].map(|number| (format!("with number {number}"), self.entries[number]));
        vec![("read_words", runs.to_vec()), ("read_words, entries", entries.to_vec())]
    }
}
