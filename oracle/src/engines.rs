//! The library as what carries out a list's calls, under each choice of its engine: the fast one always, the slow one always, or
//! either at random call by call. Nothing that comes of a list may turn on the choice.

use crate::compare::added;
use crate::draws::{EmittedPixel, Frame, Read, Step};
use crate::inputs::Inputs;
use crate::library::{self, Engine, RunAnswer};
use crate::lists::is_long;
use crate::sides::{Answered, Side};
use std::cell::{Cell, RefCell};
use std::num::NonZeroU8;
use std::ops::Add;

#[derive(Clone, Copy, Debug, PartialEq)]
pub enum Choice {
    Fast,
    Slow,
    Mixed,
}

/// What is kept for each choice is in this order.
pub const CHOICES: [Choice; 3] = [Choice::Fast, Choice::Slow, Choice::Mixed];

/// How often the interface was handed each of these numbers for the engine; the last place is that of all others.
pub type Handed = [u64; 5];
const NUMBERS: [u8; 4] = [0, 1, 2, 255];

pub struct Library {
    choice: Choice,
    /// Not the inputs of the lists, which are the same under each choice.
    inputs: RefCell<Inputs>,
    handed: Cell<Handed>,
    /// The last call's engine.
    last: Cell<Engine>,
}

impl Library {
    pub fn new(choice: Choice, inputs: Inputs) -> Self {
        Library { choice, inputs: inputs.into(), handed: Cell::default(), last: Engine::Fast.into() }
    }

    /// One for each choice.
    pub fn each(inputs: &Inputs) -> [Library; 3] {
        CHOICES.map(|choice| Library::new(choice, inputs.clone()))
    }

    /// The next call's engine. The slow one goes by every number but 0.
    fn engine(&self) -> Engine {
        let mut inputs = self.inputs.borrow_mut();
        let slow = match self.choice {
            Choice::Fast => false,
            Choice::Slow => true,
            Choice::Mixed => inputs.flag(),
        };
        let engine = if slow {
            let any = inputs.byte();
            NonZeroU8::new(inputs.pick(&[1, 1, 2, 255, any])).map_or(Engine::SLOW, Engine::Slow)
        } else {
            Engine::Fast
        };
        let mut handed = self.handed.get();
        handed[NUMBERS.iter().position(|number| *number == engine.number()).unwrap_or(NUMBERS.len())] += 1;
        self.handed.set(handed);
        self.last.set(engine);
        engine
    }

    pub fn handed(&self) -> Handed {
        self.handed.get()
    }

    /// A difference, with what was chosen.
    pub fn said(&self, difference: String) -> String {
        format!("{:?}, the last call by {:?}: {difference}", self.choice, self.last.get())
    }
}

impl Side for Library {
    fn call(&self, frame: &mut Frame, step: &Step) -> Answered {
        match step {
            Step::Draw(draw) => library::draw(self.engine(), frame, draw).into(),
            Step::Read(read) => library::read_word(frame, read).into(),
            Step::EmittedPixel(one) => {
                let EmittedPixel { draw, k } = &**one;
                library::emitted_pixel(self.engine(), frame, draw, *k).into()
            }
            Step::EmittedPixels(run) => Answered::run(run, |pixels, masks| {
                library::emitted_pixels(self.engine(), frame, &run.draw, run.first, pixels, masks)
            }),
        }
    }

    fn run(&self, frame: &Frame, read: &Read, words: &mut [u8], numbers: &mut [u8]) -> RunAnswer {
        library::read_words(frame, read, words, numbers)
    }
}

/// What was carried out under one choice, of the calls that have an engine.
#[derive(Clone, Copy, Default)]
pub struct Calls {
    pub draws: u64,
    pub pixels: u64,
    /// Accepted draws over the most triangles.
    pub long: u64,
    pub emitted_pixel: u64,
    pub emitted_pixels: u64,
    /// Pixels that these two answered.
    pub listed: u64,
}

impl Calls {
    pub fn count(&mut self, step: &Step, answer: &Answered) {
        match step {
            Step::Draw(draw) => {
                self.draws += 1;
                self.pixels += answer.values[0];
                self.long += u64::from(answer.number == 0 && is_long(draw));
            }
            Step::Read(_) => {}
            Step::EmittedPixel(_) => {
                self.emitted_pixel += 1;
                self.listed += u64::from(answer.values[1] != 0);
            }
            Step::EmittedPixels(_) => {
                self.emitted_pixels += 1;
                self.listed += answer.values[0];
            }
        }
    }
}

impl Add for Calls {
    type Output = Self;

    fn add(self, other: Self) -> Self {
        Calls {
            draws: self.draws + other.draws,
            pixels: self.pixels + other.pixels,
            long: self.long + other.long,
            emitted_pixel: self.emitted_pixel + other.emitted_pixel,
            emitted_pixels: self.emitted_pixels + other.emitted_pixels,
            listed: self.listed + other.listed,
        }
    }
}

/// What was handed over under the choices together.
pub fn all_handed(sides: &[Library; 3]) -> Handed {
    sides.iter().map(Library::handed).fold(Handed::default(), added)
}

pub fn handed_counts(handed: Handed) -> Vec<(String, u64)> {
    let names = ["calls with 0", "with 1", "with 2", "with 255", "with another"];
    names.map(str::to_string).into_iter().zip(handed).collect()
}
