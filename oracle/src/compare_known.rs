//! A list on two frames of one side. Two runs: the frames differ in bytes that are not known, and nothing may show it. Known
//! frame: the other frame knows everything, as the console does, and whatever the first hands out or marks as known must be
//! true on it. The side is mostly the library, under each choice of its engine: where that is mixed, the two frames differ in the
//! choices, too. A side with an error shows what each of the two notices.

use crate::draws::{Frame, Read, Step};
use crate::frame::frame_number;
use crate::inputs::Inputs;
use crate::lists::{completed, read, twin, List};
use crate::sides::{place, shown, Answered, Ran, Side};
use std::ops::Add;

/// The same list on two frames: the answers are equal, and the frames alike again. Answers how many calls were made.
pub fn two_runs(side: &impl Side, list: &List, inputs: &mut Inputs) -> Result<u64, String> {
    let mut one = list.frame.clone();
    let mut other = twin(inputs, &list.frame);
    for step in &list.steps {
        let before = [one.clone(), other.clone()];
        let answers = [side.call(&mut one, step), side.call(&mut other, step)];
        let ran = Ran { step, before: before.each_ref(), after: [&one, &other], answers: answers.each_ref() };
        if answers[0] != answers[1] || !one.like(&other) || !ran.untouched() {
            return Err(ran.difference("two runs", ["first frame", "second frame"], &place(&one, &other)));
        }
    }
    Ok(list.steps.len() as u64)
}

/// The two frames of a known frame's differences.
const NAMES: [&str; 2] = ["frame", "frame that knows everything"];

/// How much was held to a frame that knows everything.
#[derive(Clone, Copy, Default)]
pub struct Held {
    pub lists: u64,
    pub calls: u64,
    /// Words that were handed out, by reads and by runs.
    pub words: u64,
    /// Known after a call, summed over the calls.
    pub colors: u64,
    pub coverages: u64,
}

impl Add for Held {
    type Output = Self;

    fn add(self, other: Self) -> Self {
        Held {
            lists: self.lists + other.lists,
            calls: self.calls + other.calls,
            words: self.words + other.words,
            colors: self.colors + other.colors,
            coverages: self.coverages + other.coverages,
        }
    }
}

/// A frame that knows everything and goes through the same calls as one that knows less.
#[derive(Clone)]
pub struct KnownFrame {
    frame: Frame,
    /// The run of words after the last call: over the whole frame, by a writer at random.
    read: Read,
    held: Held,
}

/// A call on the frame that knows less.
pub struct Call<'a> {
    pub step: &'a Step,
    pub before: &'a Frame,
    pub after: &'a Frame,
    pub answer: &'a Answered,
}

/// A word read's number and word.
type Word = (u32, u64);

/// Whether a word read that is answered `less` is answered `more` where everything is known: a word is the same one, and a
/// refusal the same one, but for number 10, for which there is no reason then. A refusal comes with no word.
fn follows(less: Word, more: Word) -> bool {
    match less {
        (0, _) => more == less,
        (10, word) => word == 0 && more.0 == 0,
        (_, word) => word == 0 && more == less,
    }
}

/// A run's entries as answers.
fn entries<'a>(words: &'a [u8], numbers: &'a [u8]) -> impl Iterator<Item = Word> + 'a {
    let words = words.chunks_exact(2).map(|word| u16::from_le_bytes([word[0], word[1]]));
    numbers.iter().zip(words).map(|(number, word)| (u32::from(*number), u64::from(word)))
}

impl KnownFrame {
    /// None beside a frame that numbers 1 to 3 refuse.
    pub fn beside(frame: &Frame, inputs: &mut Inputs) -> Option<Self> {
        (frame_number(frame) == 0).then(|| KnownFrame {
            frame: completed(inputs, frame),
            read: Read { pixel: 0, ..read(inputs, (frame.width, frame.height)) },
            held: Held::default(),
        })
    }

    /// The first known byte of `less` that is another one here, or the first mark here that is not 3.
    fn untrue(&mut self, less: &Frame) -> Option<String> {
        for pixel in 0..less.marks.len() {
            let (color, coverage) = less.known(pixel);
            let (true_color, true_coverage) = self.frame.known(pixel);
            if true_color.is_none() || true_coverage.is_none() {
                return Some(format!("marks[{pixel}] is {:02x} where everything is known", self.frame.marks[pixel]));
            }
            if color.is_some() && color != true_color {
                return Some(format!("known colour of pixel {pixel}: {color:02x?} and {true_color:02x?}"));
            }
            if coverage.is_some() && coverage != true_coverage {
                return Some(format!("known coverage of pixel {pixel}: {coverage:?} and {true_coverage:?}"));
            }
            self.held.colors += u64::from(color.is_some());
            self.held.coverages += u64::from(coverage.is_some());
        }
        None
    }

    /// Makes the call here, too.
    pub fn follow(&mut self, side: &impl Side, call: &Call) -> Result<(), String> {
        let Call { step, before, after, answer } = *call;
        let known_before = self.frame.clone();
        let known_answer = side.call(&mut self.frame, step);
        let word = |answer: &Answered| (answer.number, answer.values[0]);
        let followed = match step {
            Step::Read(_) => follows(word(answer), word(&known_answer)),
            _ => *answer == known_answer,
        };
        let untrue = if followed { self.untrue(after) } else { Some("the answer".into()) };
        let (before, after) = ([before, &known_before], [after, &self.frame]);
        let ran = Ran { step, before, after, answers: [answer, &known_answer] };
        let touched = (!ran.untouched()).then(|| "a frame that the call does not write".into());
        if let Some(place) = untrue.or(touched) {
            return Err(ran.difference("known frame", NAMES, &place));
        }
        self.held.calls += 1;
        self.held.words += u64::from(matches!(step, Step::Read(_)) && answer.number == 0);
        Ok(())
    }

    /// After the last call: every pixel in one run of words.
    pub fn finish(mut self, side: &impl Side, less: &Frame) -> Result<Held, String> {
        let read = self.read;
        let n = less.marks.len();
        // Other bytes beforehand: what a run leaves as it was differs.
        let (mut words, mut numbers) = ([vec![0x55; 2 * n], vec![0xaa; 2 * n]], [vec![0x55; n], vec![0xaa; n]]);
        let mut run = |i: usize, frame| side.run(frame, &read, &mut words[i], &mut numbers[i]);
        let answers = [run(0, less), run(1, &self.frame)];
        let mut pairs = entries(&words[0], &numbers[0]).zip(entries(&words[1], &numbers[1]));
        let wrong = pairs.position(|(less, more)| !follows(less, more));
        let counted = answers.iter().all(|answer| answer.number == 0) && answers[0].words <= answers[1].words;
        if !counted || wrong.is_some() {
            let mut text = format!(
                "known frame: DIFFERENT\n  run of words, {}\n  first pixel: {wrong:?}",
                Step::Read(read).text()
            );
            for (i, (name, frame)) in NAMES.iter().zip([less, &self.frame]).enumerate() {
                let pixel = wrong.and_then(|pixel| entries(&words[i], &numbers[i]).nth(pixel));
                text += &format!("\n  {name}: {:?}, there {pixel:x?}, frame {}", answers[i], shown(frame));
            }
            return Err(text);
        }
        self.held.lists = 1;
        self.held.words += answers[0].words;
        Ok(self.held)
    }
}

/// The list on its frame and on one that knows everything, unless numbers 1 to 3 refuse its frame.
pub fn known_frame(side: &impl Side, list: &List, inputs: &mut Inputs) -> Result<Held, String> {
    let Some(mut known) = KnownFrame::beside(&list.frame, inputs) else {
        return Ok(Held::default());
    };
    let mut frame = list.frame.clone();
    for step in &list.steps {
        let before = frame.clone();
        let answer = side.call(&mut frame, step);
        known.follow(side, &Call { step, before: &before, after: &frame, answer: &answer })?;
    }
    known.finish(side, &frame)
}
