//! What carries out a list's calls, what a call answers, and the text of one that came out differently on two frames.

use crate::draws::{slots, EmittedPixels, Frame, Read, Step};
use crate::frame::{self, Emitted, EmittedList, Pen};
use crate::library::{Answer, DrawAnswer, EmittedAnswer, EmittedRunAnswer, RunAnswer};

/// What a call answers.
#[derive(Clone, Debug, Default, PartialEq)]
pub struct Answered {
    pub number: u32,
    /// The pixel count; the word; an emitted pixel and its mask; or how many pixels a run of them lists and how many there
    /// are.
    pub values: Vec<u64>,
    /// The two slices of a run of emitted pixels, as it leaves them.
    pub slots: Option<(Vec<u32>, Vec<u8>)>,
}

impl From<DrawAnswer> for Answered {
    fn from(DrawAnswer { number, pixels }: DrawAnswer) -> Self {
        Answered { number, values: vec![pixels], slots: None }
    }
}

impl From<Answer> for Answered {
    fn from(Answer { number, value }: Answer) -> Self {
        Answered { number, values: vec![value.into()], slots: None }
    }
}

impl From<EmittedAnswer> for Answered {
    fn from(EmittedAnswer { number, pixel, mask }: EmittedAnswer) -> Self {
        Answered { number, values: vec![pixel.into(), mask.into()], slots: None }
    }
}

impl Answered {
    /// Of a run of emitted pixels, which is handed the slices as they are before it.
    pub fn run(run: &EmittedPixels, ask: impl FnOnce(&mut [u32], &mut [u8]) -> EmittedRunAnswer) -> Self {
        let (mut pixels, mut masks) = (run.pixels.clone(), run.masks.clone());
        let EmittedRunAnswer { number, listed, emitted } = ask(&mut pixels, &mut masks);
        Answered { number, values: vec![listed, emitted], slots: Some((pixels, masks)) }
    }

    /// As a sample's line has it.
    pub fn text(&self) -> String {
        let numbers = std::iter::once(self.number.into()).chain(self.values.iter().copied());
        let mut words: Vec<String> = numbers.map(|number: u64| format!("{number:08x}")).collect();
        words.extend(self.slots.iter().map(|(pixels, masks)| slots(pixels, masks)));
        words.join(" ")
    }
}

/// The library (engines.rs), or the frame of frame.rs.
pub trait Side {
    fn call(&self, frame: &mut Frame, step: &Step) -> Answered;

    /// The run of words from the read's pixel on.
    fn run(&self, frame: &Frame, read: &Read, words: &mut [u8], numbers: &mut [u8]) -> RunAnswer;
}

/// A call on the frame of frame.rs, where every pixel that a draw puts on it is handed to `put`.
pub fn on_frame(frame: &mut Frame, step: &Step, put: impl FnMut(&Pen, &mut Frame, usize, &Emitted)) -> Answered {
    match step {
        Step::Draw(draw) => frame::draw_with(frame, draw, put).into(),
        Step::Read(read) => frame::read_word(frame, read).into(),
        Step::EmittedPixel(one) => EmittedList::of(frame, &one.draw).pixel(one.k).into(),
        Step::EmittedPixels(run) => {
            let list = EmittedList::of(frame, &run.draw);
            Answered::run(run, |pixels, masks| list.run(run.first, pixels, masks))
        }
    }
}

/// The frame's text where it is short, and else how its bytes begin.
pub fn shown(frame: &Frame) -> String {
    let mut text = frame.text();
    if text.len() > 20_000 {
        text.truncate(2_000);
        text += "..";
    }
    text
}

/// Where two frames differ first.
pub fn place(a: &Frame, b: &Frame) -> String {
    let slices =
        [("colors", &a.colors, &b.colors), ("coverages", &a.coverages, &b.coverages), ("marks", &a.marks, &b.marks)];
    for (name, a, b) in slices {
        if let Some(at) = a.iter().zip(b).position(|(a, b)| a != b) {
            return format!("{name}[{at}]: {:02x} and {:02x}", a[at], b[at]);
        }
    }
    "no byte".into()
}

/// One call of a list, and what came of it on two frames.
pub struct Ran<'a> {
    pub step: &'a Step,
    pub before: [&'a Frame; 2],
    pub after: [&'a Frame; 2],
    pub answers: [&'a Answered; 2],
}

impl Ran<'_> {
    /// Whether a call that draws nothing left both frames as they were.
    pub fn untouched(&self) -> bool {
        matches!(self.step, Step::Draw(_)) || self.before == self.after
    }

    /// The text of a difference, of which `place` says where it shows first.
    pub fn difference(&self, title: &str, names: [&str; 2], place: &str) -> String {
        let mut text = format!("{title}: DIFFERENT\n  call: {}\n  differs first: {place}", self.step.text());
        for (i, name) in names.iter().enumerate() {
            text += &format!("\n  {name}: {}", self.answers[i].text());
            text +=
                &format!("\n    frame before: {}\n    frame after: {}", shown(self.before[i]), shown(self.after[i]));
        }
        text
    }
}
