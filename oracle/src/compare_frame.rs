//! Lists of draws, emitted pixels and word reads on the library's frame, under each choice of its engine (engines.rs), and on the
//! one of frame.rs: every answer, and every byte of the three slices after each call, and what the rules give up (given_up.rs).
//! Other lists on two frames that differ in unknown bytes, and all of them on a frame that knows everything (compare_known.rs).

use crate::compare::{added, Line, Part};
use crate::compare_known::{known_frame, two_runs, Call, Held, KnownFrame};
use crate::draws::{Frame, Step};
use crate::engines::{all_handed, handed_counts, Calls, Handed, Library};
use crate::frame::{Branches, FULL, PARTIAL, RUN, UNMARKED, UNMARKED_FULL};
use crate::given_up::GivenUp;
use crate::inputs::Inputs;
use crate::lists::{is_long, Class, List};
use crate::sides::{on_frame, place, Answered, Ran, Side};
use std::iter::Sum;

/// A call on the frame of frame.rs.
pub fn on_original(frame: &mut Frame, step: &Step, branches: &mut Branches) -> Answered {
    on_frame(frame, step, |pen, frame, pixel, emitted| pen.put(frame, pixel, emitted, branches))
}

/// How often each number came, 20 being the last.
pub type Numbers = [u64; 21];

/// How often what came.
#[derive(Default)]
pub struct Counts {
    lists: u64,
    twins: u64,
    /// By the choice of the engine.
    twin_calls: [u64; 3],
    calls: [Calls; 3],
    held: [Held; 3],
    handed: Handed,
    /// By the answer's number.
    draws: Numbers,
    reads: Numbers,
    emitted_pixel: Numbers,
    emitted_pixels: Numbers,
    pixels: u64,
    /// Accepted draws over the most triangles.
    long: u64,
    branches: Branches,
    given_up: GivenUp,
}

const SIDES: [&str; 2] = ["library", "Rust"];

const LONG: &str = "draws of 4,096 triangles";
/// Pixels that the two calls for emitted pixels answered.
pub const ANSWERED: &str = "pixels of these two";

impl Counts {
    /// The call on the original, with its pixels counted.
    fn original(&mut self, frame: &mut Frame, step: &Step) -> Answered {
        self.given_up.begin();
        on_frame(frame, step, |pen, frame, pixel, emitted| {
            self.given_up.count(pen, frame, pixel, emitted);
            pen.put(frame, pixel, emitted, &mut self.branches);
        })
    }

    fn count(&mut self, step: &Step, answer: &Answered) {
        let numbers = match step {
            Step::Draw(draw) => {
                self.pixels += answer.values[0];
                self.long += u64::from(answer.number == 0 && is_long(draw));
                &mut self.draws
            }
            Step::Read(_) => &mut self.reads,
            Step::EmittedPixel(_) => &mut self.emitted_pixel,
            Step::EmittedPixels(_) => &mut self.emitted_pixels,
        };
        numbers[answer.number as usize] += 1;
    }
}

/// The call on the side's frame, held to what it came to on the original.
fn same(side: &impl Side, frame: &mut Frame, call: &Call) -> Result<Answered, String> {
    let Call { step, before, after, answer } = *call;
    let answers = [&side.call(frame, step), answer];
    if answers[0] != answers[1] || frame != after {
        let ran = Ran { step, before: [before; 2], after: [frame, after], answers };
        return Err(ran.difference("list", SIDES, &place(frame, after)));
    }
    Ok(answers[0].clone())
}

/// The list on a side and on the original.
pub fn beside_original(side: &impl Side, list: &List) -> Result<(), String> {
    let (mut frame, mut original) = (list.frame.clone(), list.frame.clone());
    for step in &list.steps {
        let before = original.clone();
        let answer = on_original(&mut original, step, &mut Branches::default());
        same(side, &mut frame, &Call { step, before: &before, after: &original, answer: &answer })?;
    }
    Ok(())
}

/// The list under one choice of the engine.
struct Run<'a> {
    library: &'a Library,
    frame: Frame,
    known: Option<KnownFrame>,
}

impl Run<'_> {
    /// The next call, and the same where everything is known.
    fn follow(&mut self, call: &Call, calls: &mut Calls) -> Result<(), String> {
        let answer = same(self.library, &mut self.frame, call)?;
        calls.count(call.step, &answer);
        match &mut self.known {
            Some(known) => known.follow(self.library, call),
            None => Ok(()),
        }
    }

    fn finish(self) -> Result<Held, String> {
        self.known.map_or(Ok(Held::default()), |known| known.finish(self.library, &self.frame))
    }
}

/// The list on the original, and on the library under each choice, there again where everything is known.
fn check(list: &List, sides: &[Library; 3], inputs: &mut Inputs, counts: &mut Counts) -> Result<(), String> {
    let mut original = list.frame.clone();
    let known = KnownFrame::beside(&list.frame, inputs);
    let mut runs = sides.each_ref().map(|library| Run { library, frame: list.frame.clone(), known: known.clone() });
    for step in &list.steps {
        let before = original.clone();
        let answer = counts.original(&mut original, step);
        let call = Call { step, before: &before, after: &original, answer: &answer };
        for (run, calls) in runs.iter_mut().zip(&mut counts.calls) {
            run.follow(&call, calls).map_err(|difference| run.library.said(difference))?;
        }
        if let Some(pixel) = &counts.given_up.wrong {
            let ran = Ran { step, before: [&before; 2], after: [&original; 2], answers: [&answer; 2] };
            return Err(ran.difference("what is certain", SIDES, pixel));
        }
        counts.count(step, &answer);
    }
    for (run, held) in runs.into_iter().zip(&mut counts.held) {
        let library = run.library;
        *held = *held + run.finish().map_err(|difference| library.said(difference))?;
    }
    counts.lists += 1;
    Ok(())
}

/// The list in two runs and beside a frame that knows everything, under each choice on the same frames.
fn check_twins(list: &List, sides: &[Library; 3], inputs: &mut Inputs, counts: &mut Counts) -> Result<(), String> {
    let from = inputs.clone();
    for (choice, library) in sides.iter().enumerate() {
        *inputs = from.clone();
        let calls = two_runs(library, list, inputs).map_err(|difference| library.said(difference))?;
        let held = known_frame(library, list, inputs).map_err(|difference| library.said(difference))?;
        counts.twin_calls[choice] += calls;
        counts.held[choice] = counts.held[choice] + held;
    }
    counts.twins += 1;
    Ok(())
}

/// Lists that are compared with the original, and as many as a quarter of them in two runs.
pub fn lists(part: &Part) -> Result<Counts, String> {
    let mut counts = Counts::default();
    let mut inputs = part.inputs();
    let sides = Library::each(&inputs.aside());
    for number in part.tries(300_000) {
        let class = if number % 50_000 == 0 { Class::Whole } else { Class::Any };
        check(&List::at_random(&mut inputs, class), &sides, &mut inputs, &mut counts)?;
        if number % 4 == 0 {
            check_twins(&List::at_random(&mut inputs, Class::Small), &sides, &mut inputs, &mut counts)?;
        }
    }
    counts.handed = all_handed(&sides);
    Ok(counts)
}

fn both(a: Branches, b: Branches) -> Branches {
    Branches {
        colors: [0, 1].map(|marked| added(a.colors[marked], b.colors[marked])),
        destinations: [0, 1].map(|marked| added(a.destinations[marked], b.destinations[marked])),
        unmarked: [PARTIAL, FULL, RUN].map(|fullness| added(a.unmarked[fullness], b.unmarked[fullness])),
        memory_colors: a.memory_colors + b.memory_colors,
        divided: a.divided + b.divided,
        last_full: None,
    }
}

impl Sum for Counts {
    fn sum<I: Iterator<Item = Self>>(parts: I) -> Self {
        parts.fold(Self::default(), |a, b| Counts {
            lists: a.lists + b.lists,
            twins: a.twins + b.twins,
            twin_calls: added(a.twin_calls, b.twin_calls),
            calls: [0, 1, 2].map(|choice| a.calls[choice] + b.calls[choice]),
            held: [0, 1, 2].map(|choice| a.held[choice] + b.held[choice]),
            handed: added(a.handed, b.handed),
            draws: added(a.draws, b.draws),
            reads: added(a.reads, b.reads),
            emitted_pixel: added(a.emitted_pixel, b.emitted_pixel),
            emitted_pixels: added(a.emitted_pixels, b.emitted_pixels),
            pixels: a.pixels + b.pixels,
            long: a.long + b.long,
            branches: both(a.branches, b.branches),
            given_up: a.given_up.both(b.given_up),
        })
    }
}

/// How often each number came that the call has.
pub fn numbers(counts: &Numbers, having: &[usize]) -> Vec<(String, u64)> {
    let all = ("compared".to_string(), counts.iter().sum());
    let each = having.iter().map(|number| (format!("with number {number}"), counts[*number]));
    std::iter::once(all).chain(each).collect()
}

fn named<const N: usize>(names: [&str; N], counts: [u64; N]) -> Vec<(String, u64)> {
    names.iter().map(|name| name.to_string()).zip(counts).collect()
}

impl Counts {
    pub fn lines(&self) -> Vec<Line> {
        let answers = ["no", "in doubt", "yes"];
        let ways = ["with cvg_dst 0", "1", "2", "3", "above"];
        let Branches { colors, destinations, unmarked, memory_colors, divided, .. } = self.branches;
        let mut lines = vec![
            ("lists", named(["compared", "pixels", LONG], [self.lists, self.pixels, self.long])),
            ("draw", numbers(&self.draws, &[0, 1, 2, 3, 4, 5, 6, 7])),
            ("read_word", numbers(&self.reads, &[0, 1, 2, 3, 8, 9, 10])),
            ("emitted_pixel, in lists", numbers(&self.emitted_pixel, &[0, 1, 2, 3, 4, 5, 6, 7])),
            ("emitted_pixels, in lists", numbers(&self.emitted_pixels, &[0, 1, 2, 3, 4, 5, 6, 7, 20])),
            ("F1 to F4, coverage marked", named(answers, colors[1])),
            ("F1 to F4, coverage unmarked", named(answers, colors[0])),
            ("F3", named(["that take a marked colour in", "divided by A + B"], [memory_colors, divided])),
            ("F5, coverage marked", named(ways, destinations[1])),
            ("F5, coverage unmarked", named(ways, destinations[0])),
            ("F5, coverage unmarked", named(UNMARKED, unmarked.into_iter().fold([0; 8], added))),
            (
                "F5, coverage unmarked, in runs of full pixels",
                named(UNMARKED_FULL.map(|case| UNMARKED[case]), UNMARKED_FULL.map(|case| unmarked[RUN][case])),
            ),
        ];
        lines.extend(self.engine_lines());
        lines.extend(self.given_up.lines());
        lines
    }

    /// What turns on the choice of the engine. The lists of the fast one have lines of their own.
    fn engine_lines(&self) -> Vec<Line> {
        let lists = |choice: usize| {
            let Calls { draws, pixels, long, emitted_pixel, emitted_pixels, listed } = self.calls[choice];
            let counts = [self.lists, draws, pixels, long, emitted_pixel, emitted_pixels, listed];
            named(["compared", "draws", "pixels", LONG, "emitted_pixel", "emitted_pixels", ANSWERED], counts)
        };
        let runs = |choice: usize| named(["lists", "calls"], [self.twins, self.twin_calls[choice]]);
        let known = |choice: usize| {
            let Held { lists, calls, words, colors, coverages } = self.held[choice];
            let names = ["lists", "calls", "words", "known colours", "known coverages"];
            named(names, [lists, calls, words, colors, coverages])
        };
        vec![
            ("lists, slow engine", lists(1)),
            ("lists, engines mixed", lists(2)),
            ("two runs", runs(0)),
            ("two runs, slow engine", runs(1)),
            ("two runs, engines mixed", runs(2)),
            ("known frame", known(0)),
            ("known frame, slow engine", known(1)),
            ("known frame, engines mixed", known(2)),
            ("engine numbers, in all of these", handed_counts(self.handed)),
        ]
    }
}
