//! The pixels of a draw by themselves: `emitted_pixel` and `emitted_pixels` of the library, under each choice of its engine, against
//! the walk with masks, on frames and draws that are mostly accepted, with every reason to turn one away. All eight bits of every
//! mask, in order; no call may write the frame, and one that is turned away nothing at all.

use crate::compare::{added, Line, Part};
use crate::compare_frame::{numbers, Numbers, ANSWERED};
use crate::draws::{Draw, EmittedPixel, EmittedPixels, Frame, Step};
use crate::engines::{all_handed, handed_counts, Calls, Handed, Library};
use crate::frame::EmittedList;
use crate::inputs::Inputs;
use crate::lists::{frame_and_draw, Class};
use crate::sides::{place, Answered, Ran, Side};
use std::iter::Sum;

/// Every pixel is asked for by itself of a draw with no more than so many.
const FEW: usize = 24;

/// How often what came.
pub struct Counts {
    /// Draws by their number.
    draws: Numbers,
    /// Of draws that are accepted.
    pixels: u64,
    /// How often each mask came.
    masks: [u64; 256],
    /// Calls by their number.
    singles: Numbers,
    runs: Numbers,
    /// Accepted single calls behind the last pixel.
    behind: u64,
    /// Accepted runs that end behind the last pixel, and those whose places reach past the largest number.
    ending: u64,
    wrapping: u64,
    /// By the choice of the engine.
    calls: [Calls; 3],
    handed: Handed,
}

impl Default for Counts {
    fn default() -> Self {
        Counts {
            draws: Numbers::default(),
            pixels: 0,
            masks: [0; 256],
            singles: Numbers::default(),
            runs: Numbers::default(),
            behind: 0,
            ending: 0,
            wrapping: 0,
            calls: Default::default(),
            handed: Handed::default(),
        }
    }
}

/// A frame and a draw, the pixels that it emits, and what is asked for them.
struct Case<'a> {
    sides: &'a [Library; 3],
    frame: Frame,
    draw: Draw,
    list: EmittedList,
}

impl Case<'_> {
    /// The call on the library, on a frame that it must leave as it was, held to the list's answer.
    fn ask(&self, frame: &mut Frame, step: &Step, expected: &Answered, counts: &mut Counts) -> Result<(), String> {
        for (library, calls) in self.sides.iter().zip(&mut counts.calls) {
            let answers = [&library.call(frame, step), expected];
            let ran = Ran { step, before: [&self.frame; 2], after: [frame, &self.frame], answers };
            if answers[0] != answers[1] || !ran.untouched() {
                let place = place(frame, &self.frame);
                return Err(library.said(ran.difference("emitted pixels", ["library", "Rust"], &place)));
            }
            calls.count(step, answers[0]);
        }
        Ok(())
    }

    fn single(&self, frame: &mut Frame, k: u64, counts: &mut Counts) -> Result<(), String> {
        let step = Step::EmittedPixel(Box::new(EmittedPixel { draw: self.draw.clone(), k }));
        let answer: Answered = self.list.pixel(k).into();
        self.ask(frame, &step, &answer, counts)?;
        counts.singles[answer.number as usize] += 1;
        counts.behind += u64::from(answer.number == 0 && answer.values[1] == 0);
        Ok(())
    }

    /// A run over slices of any bytes.
    fn run(&self, inputs: &mut Inputs, frame: &mut Frame, run: Run, counts: &mut Counts) -> Result<(), String> {
        let Run { first, slots, masks } = run;
        let pixels = (0..slots).map(|_| inputs.word()).collect();
        let masks = (0..masks).map(|_| inputs.byte()).collect();
        let run = Box::new(EmittedPixels { draw: self.draw.clone(), first, pixels, masks });
        let answer = Answered::run(&run, |pixels, masks| self.list.run(first, pixels, masks));
        self.ask(frame, &Step::EmittedPixels(run), &answer, counts)?;
        counts.runs[answer.number as usize] += 1;
        if answer.number == 0 {
            counts.ending += u64::from(answer.values[0] < slots as u64);
            counts.wrapping += u64::from(first.checked_add(slots as u64).is_none());
        }
        Ok(())
    }
}

/// A run's first pixel, and the lengths of its slices.
struct Run {
    first: u64,
    slots: usize,
    masks: usize,
}

/// Places around the ends of a list: its last pixel, the one behind it, and numbers that no list has.
fn hostile_place(inputs: &mut Inputs, count: u64) -> u64 {
    let near = (count + u64::from(inputs.below(3))).saturating_sub(1);
    let bits = inputs.bits();
    inputs.pick(&[near, near, near, 1 << 32, (1 << 32) + near, u64::MAX, u64::MAX - near, bits])
}

/// Anywhere in the list and around its ends, mostly with slices of one length.
fn any_run(inputs: &mut Inputs, count: usize) -> Run {
    let within = u64::from(inputs.below(count as u32 + 1));
    let first = match inputs.below(3) {
        0 => hostile_place(inputs, count as u64),
        1 => u64::from(inputs.below(3)),
        _ => within,
    };
    let most = count.min(64) as u32;
    let slots = match inputs.below(8) {
        0 => 0,
        1 => 1,
        _ => inputs.below(most + 4) as usize,
    };
    let masks = match inputs.below(8) {
        0 => inputs.pick(&[0, slots.saturating_sub(1), slots + 1, 2 * slots, slots + 4]),
        _ => slots,
    };
    Run { first, slots, masks }
}

fn check(inputs: &mut Inputs, class: Class, sides: &[Library; 3], counts: &mut Counts) -> Result<(), String> {
    let (frame, draw) = frame_and_draw(inputs, class);
    let list = EmittedList::of(&frame, &draw);
    let mut lent = frame.clone();
    let case = Case { sides, frame, draw, list };
    let count = case.list.pixels().len();
    // The whole list, with a slot or two behind it.
    let slots = count + inputs.below(3) as usize;
    case.run(inputs, &mut lent, Run { first: 0, slots, masks: slots }, counts)?;
    for _ in 0..2 {
        let run = any_run(inputs, count);
        case.run(inputs, &mut lent, run, counts)?;
        let k = hostile_place(inputs, count as u64);
        case.single(&mut lent, k, counts)?;
    }
    for k in 0..count.min(FEW) {
        let k = if count <= FEW { k as u32 } else { inputs.below(count as u32) };
        case.single(&mut lent, k.into(), counts)?;
    }
    counts.draws[case.list.number() as usize] += 1;
    counts.pixels += count as u64;
    case.list.pixels().iter().for_each(|(_, mask)| counts.masks[usize::from(*mask)] += 1);
    Ok(())
}

/// Until there are enough accepted draws.
pub fn emitted(part: &Part) -> Result<Counts, String> {
    let goal = part.tries(330_000).end;
    let mut counts = Counts::default();
    let mut inputs = part.inputs();
    let sides = Library::each(&inputs.aside());
    while counts.draws[0] < goal {
        let class = if counts.draws[0] % 50_000 == 49_999 { Class::Whole } else { Class::Any };
        check(&mut inputs, class, &sides, &mut counts)?;
    }
    counts.handed = all_handed(&sides);
    Ok(counts)
}

impl Sum for Counts {
    fn sum<I: Iterator<Item = Self>>(parts: I) -> Self {
        parts.fold(Self::default(), |a, b| Counts {
            draws: added(a.draws, b.draws),
            pixels: a.pixels + b.pixels,
            masks: added(a.masks, b.masks),
            singles: added(a.singles, b.singles),
            runs: added(a.runs, b.runs),
            behind: a.behind + b.behind,
            ending: a.ending + b.ending,
            wrapping: a.wrapping + b.wrapping,
            calls: [0, 1, 2].map(|choice| a.calls[choice] + b.calls[choice]),
            handed: added(a.handed, b.handed),
        })
    }
}

impl Counts {
    pub fn lines(&self) -> Vec<Line> {
        let named = |name: &str, count: u64| (name.to_string(), count);
        let kinds = self.masks.iter().filter(|count| **count > 0).count() as u64;
        let mut draws = numbers(&self.draws, &[0, 1, 2, 3, 4, 5, 6, 7]);
        draws.extend([named("pixels", self.pixels), named("masks of 255", kinds)]);
        let mut singles = numbers(&self.singles, &[0, 1, 2, 3, 4, 5, 6, 7]);
        singles.push(named("behind the last pixel", self.behind));
        let mut runs = numbers(&self.runs, &[0, 1, 2, 3, 4, 5, 6, 7, 20]);
        runs.extend([named("end behind the last pixel", self.ending), named("past the largest place", self.wrapping)]);
        let calls = |choice: usize| {
            let Calls { emitted_pixel, emitted_pixels, listed, .. } = self.calls[choice];
            vec![
                named("draws", self.draws.iter().sum()),
                named("emitted_pixel", emitted_pixel),
                named("emitted_pixels", emitted_pixels),
                named(ANSWERED, listed),
            ]
        };
        vec![
            ("emitted, draws", draws),
            ("emitted_pixel", singles),
            ("emitted_pixels", runs),
            ("emitted, slow engine", calls(1)),
            ("emitted, engines mixed", calls(2)),
            ("engine numbers, in all of these", handed_counts(self.handed)),
        ]
    }
}
