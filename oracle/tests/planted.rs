//! Rules changed on purpose, and whether two runs, the known frame (compare_known.rs) and the comparison call by call
//! (compare_frame.rs) notice it. Two runs ask that unknown bytes do not show; only the known frame asks that what is
//! handed out is true; and that as much is known as the rules say, only the comparison asks. The changed rules are
//! those of frame.rs, and the comparison is with frame.rs as it stands, to which the library is held in the same way;
//! the library is asked nothing. Then engines that find other pixels than the original, which two runs and the known
//! frame notice only where the choice of the engine is mixed.

use oracle::compare_frame::{beside_original, on_original};
use oracle::compare_known::{known_frame, two_runs};
use oracle::draws::{Draw, Frame, Read, Shape, Step};
use oracle::frame::{self, Branches, Emitted, EmittedList, Pen, DOUBT, YES};
use oracle::inputs::{shifted, Inputs, SEED};
use oracle::library::RunAnswer;
use oracle::lists::{Class, List};
use oracle::shapes::RECTANGLE;
use oracle::sides::{on_frame, Answered, Side};
use original::writeback::destination;
use original::RenderMode;
use std::cell::RefCell;

/// As many must pass before an error counts as not noticed.
const LISTS: u64 = 20_000;

#[derive(Clone, Copy, PartialEq, Debug)]
enum Fault {
    /// F2 is left out: a pixel in doubt is stored with coverage 0.
    DoubtStored,
    /// An unmarked coverage is taken for 7, in F1, F3 and F5.
    CoverageFull,
    /// F1 is asked as if the memory's colour were marked, and F3 takes zeros for it.
    ColorZeros,
    /// F5 with cvg_dst 0 makes an unmarked coverage count - 1, and marked, under antialias, too.
    CountMarked,
    /// F5 with cvg_dst 0, antialias alone and seven samples makes an unmarked coverage 7, and marked, as it does with
    /// force_blend.
    SevenMarked,
    /// F5 with cvg_dst 1 and all eight samples makes an unmarked coverage 7, and marked, as it does with cvg_dst 0.
    WrapMarked,
    /// F5 asks `destination` for memory 1 to 7 alone.
    ZeroNotAsked,
    /// F5 leaves an unmarked coverage with cvg_dst 0, all eight samples and a flag on.
    EightLeft,
    /// F5 leaves an unmarked coverage with cvg_dst 0, seven samples and force_blend on.
    SevenLeft,
    /// Where F5 marks an unmarked coverage, its byte stays.
    MarkAlone,
    /// A word read passes an unmarked coverage as 0 instead of turning the read away.
    ReadZero,
    /// The same in runs of words alone, which two runs do not make.
    RunZero,
    /// A draw's pixels are listed without those whose coverage byte, marked or not, is above 7.
    ListShows,
    /// A draw's pixels are listed without those whose coverage is unmarked.
    ListMarked,
    /// Asked for its pixels, a draw is drawn.
    ListDraws,
}

/// What notices a fault.
#[derive(PartialEq, Debug)]
struct Noticed {
    two_runs: bool,
    known_frame: bool,
    comparison: bool,
}

/// Unknown bytes show.
const SHOWN: Noticed = Noticed { two_runs: true, known_frame: true, comparison: true };
/// What is handed out, or marked as known, is not true; but it is worked out from what is known alone.
const UNTRUE: Noticed = Noticed { two_runs: false, known_frame: true, comparison: true };
/// The same in runs of words, which two runs and the comparison of lists do not make (compare_runs.rs does).
const UNTRUE_RUN: Noticed = Noticed { two_runs: false, known_frame: true, comparison: false };
/// All that is handed out is true: less is known than should be.
const LESS: Noticed = Noticed { two_runs: false, known_frame: false, comparison: true };

const FAULTS: [(Fault, Noticed); 15] = [
    (Fault::DoubtStored, UNTRUE),
    (Fault::CoverageFull, UNTRUE),
    (Fault::ColorZeros, UNTRUE),
    (Fault::CountMarked, UNTRUE),
    (Fault::SevenMarked, UNTRUE),
    (Fault::WrapMarked, UNTRUE),
    (Fault::ZeroNotAsked, UNTRUE),
    (Fault::EightLeft, LESS),
    (Fault::SevenLeft, LESS),
    (Fault::MarkAlone, SHOWN),
    (Fault::ReadZero, UNTRUE),
    (Fault::RunZero, UNTRUE_RUN),
    (Fault::ListShows, SHOWN),
    (Fault::ListMarked, UNTRUE),
    (Fault::ListDraws, SHOWN),
];

/// The frame of frame.rs, with one of its rules changed or none.
struct Planted(Option<Fault>);

impl Planted {
    fn has(&self, fault: Fault) -> bool {
        self.0 == Some(fault)
    }

    /// The pixels that a draw emits, but for the fault.
    fn list(&self, frame: &mut Frame, draw: &Draw) -> EmittedList {
        let list = EmittedList::of(frame, draw);
        match self.0 {
            Some(Fault::ListShows) => list.kept(|pixel| frame.coverages[pixel] < 8),
            Some(Fault::ListMarked) => list.kept(|pixel| frame.marks[pixel] >= 2),
            Some(Fault::ListDraws) => {
                frame::draw(frame, draw, &mut Branches::default());
                list
            }
            _ => list,
        }
    }

    /// F5 over an unmarked coverage, but for the fault.
    fn fresh(&self, mode: RenderMode, count: u8) -> Option<u8> {
        let RenderMode { cvg_dst, antialias, force_blend, .. } = mode;
        let kept = |memory| destination(mode, count, memory);
        match self.0 {
            Some(Fault::CountMarked) if cvg_dst == 0 && !force_blend => Some(count - 1),
            Some(Fault::SevenMarked) if cvg_dst == 0 && antialias && count == 7 => Some(7),
            Some(Fault::WrapMarked) if cvg_dst == 1 && count == 8 => Some(7),
            Some(Fault::ZeroNotAsked) => (1..8).all(|memory| kept(memory) == kept(1)).then_some(kept(1)),
            Some(Fault::EightLeft) if cvg_dst == 0 && (antialias || force_blend) && count == 8 => None,
            Some(Fault::SevenLeft) if cvg_dst == 0 && force_blend && count == 7 => None,
            _ => frame::covered(mode, count, None),
        }
    }

    /// F1 to F5 on one pixel, as `Pen::put` has them but for the fault.
    fn put(&self, pen: &Pen, frame: &mut Frame, pixel: usize, emitted: &Emitted) {
        let (memory, marked) = frame.known(pixel);
        let coverage = if self.has(Fault::CoverageFull) { marked.or(Some(7)) } else { marked };
        let yes = match pen.answer(emitted, coverage, memory.is_some() || self.has(Fault::ColorZeros)) {
            DOUBT => self.has(Fault::DoubtStored),
            answer => answer == YES,
        };
        if yes {
            let stored = pen.stored(emitted, memory, coverage.unwrap_or(0));
            frame.colors[3 * pixel..3 * pixel + 3].copy_from_slice(&stored);
        }
        let covered = match coverage {
            Some(_) => frame::covered(pen.mode, emitted.count, coverage),
            None => self.fresh(pen.mode, emitted.count),
        };
        if let Some(covered) = covered.filter(|_| marked.is_some() || !self.has(Fault::MarkAlone)) {
            frame.coverages[pixel] = covered;
        }
        frame.marks[pixel] = u8::from(yes) + 2 * u8::from(covered.is_some());
    }
}

/// The frame with every unmarked coverage 0, and marked.
fn zeroed(frame: &Frame) -> Frame {
    let mut zeroed = frame.clone();
    for (mark, coverage) in zeroed.marks.iter_mut().zip(&mut zeroed.coverages).filter(|(mark, _)| **mark < 2) {
        (*mark, *coverage) = (*mark + 2, 0);
    }
    zeroed
}

impl Side for Planted {
    fn call(&self, frame: &mut Frame, step: &Step) -> Answered {
        if let (Step::Read(read), true) = (step, self.has(Fault::ReadZero)) {
            return frame::read_word(&zeroed(frame), read).into();
        }
        match step {
            Step::EmittedPixel(one) => self.list(frame, &one.draw).pixel(one.k).into(),
            Step::EmittedPixels(run) => {
                let list = self.list(frame, &run.draw);
                Answered::run(run, |pixels, masks| list.run(run.first, pixels, masks))
            }
            _ => on_frame(frame, step, |pen, frame, pixel, emitted| self.put(pen, frame, pixel, emitted)),
        }
    }

    fn run(&self, frame: &Frame, read: &Read, words: &mut [u8], numbers: &mut [u8]) -> RunAnswer {
        if self.has(Fault::RunZero) {
            return frame::read_words(&zeroed(frame), read, words, numbers);
        }
        frame::read_words(frame, read, words, numbers)
    }
}

/// The number of the first list for which the check fails.
fn noticed(check: impl Fn(&List, &mut Inputs) -> Result<(), String>) -> Option<u64> {
    let mut inputs = Inputs::new(SEED);
    (0..LISTS).find(|_| {
        let list = List::at_random(&mut inputs, Class::Small);
        check(&list, &mut inputs).is_err()
    })
}

/// The first list in which a fault is noticed: in two runs, by the known frame and in the comparison.
fn first_lists(fault: Option<Fault>) -> [Option<u64>; 3] {
    let planted = Planted(fault);
    [
        noticed(|list, inputs| two_runs(&planted, list, inputs).map(drop)),
        noticed(|list, inputs| known_frame(&planted, list, inputs).map(drop)),
        noticed(|list, _| beside_original(&planted, list)),
    ]
}

#[test]
fn what_notices_a_rule() {
    assert_eq!(first_lists(None), [None; 3]);
    for (fault, expected) in FAULTS {
        let lists = first_lists(Some(fault));
        let [two_runs, known_frame, comparison] = lists.map(|list| list.is_some());
        println!("{fault:?}: first noticed in lists {lists:?}");
        assert_eq!(Noticed { two_runs, known_frame, comparison }, expected, "{fault:?}: lists {lists:?}");
    }
}

/// Without a fault the rules are those of `frame::draw`.
#[test]
fn nothing_else_is_changed() {
    let same = noticed(|list, _| {
        let (mut planted, mut plain) = (list.frame.clone(), list.frame.clone());
        for step in &list.steps {
            Planted(None).call(&mut planted, step);
            if let Step::Draw(draw) = step {
                frame::draw(&mut plain, draw, &mut Branches::default());
            }
        }
        if planted == plain {
            Ok(())
        } else {
            Err(String::new())
        }
    });
    assert_eq!(same, None);
}

/// What an engine does wrong.
#[derive(Clone, Copy, PartialEq, Debug)]
enum EngineFault {
    /// A rectangle holds the samples on its right edge, too.
    RightEdge,
    /// It stops after the scissor's first row.
    FirstRow,
    /// It takes the last triangle first.
    Reversed,
}

const ENGINE_FAULTS: [EngineFault; 3] = [EngineFault::RightEdge, EngineFault::FirstRow, EngineFault::Reversed];

impl EngineFault {
    /// What the draw has to cover for the original to find the pixels that the faulty engine finds. It is turned away as before.
    fn alter(self, shape: &mut Shape) {
        let Shape { scissor, geometry, indices, .. } = shape;
        match self {
            EngineFault::RightEdge => {
                if geometry.kind == RECTANGLE && geometry.right.is_finite() && geometry.right > 0.0 {
                    geometry.right = shifted(geometry.right, 1);
                }
            }
            EngineFault::FirstRow => {
                if scissor.height <= 65_535 {
                    scissor.height = scissor.height.min(1);
                }
            }
            EngineFault::Reversed => *indices = indices.rchunks(3).flatten().copied().collect(),
        }
    }
}

/// The frame of frame.rs over two engines, of which one has the fault.
struct Engines {
    fault: Option<EngineFault>,
    /// Where either engine may be taken for a call; without them it is the faulty one.
    choices: Option<RefCell<Inputs>>,
}

impl Side for Engines {
    fn call(&self, frame: &mut Frame, step: &Step) -> Answered {
        let mut step = step.clone();
        let shape = match &mut step {
            Step::Draw(draw) => Some(&mut draw.shape),
            Step::EmittedPixel(one) => Some(&mut one.draw.shape),
            Step::EmittedPixels(run) => Some(&mut run.draw.shape),
            Step::Read(_) => None,
        };
        let faulty = self.choices.as_ref().is_none_or(|choices| choices.borrow_mut().flag());
        if let (Some(fault), Some(shape), true) = (self.fault, shape, faulty) {
            fault.alter(shape);
        }
        on_original(frame, &step, &mut Branches::default())
    }

    fn run(&self, frame: &Frame, read: &Read, words: &mut [u8], numbers: &mut [u8]) -> RunAnswer {
        frame::read_words(frame, read, words, numbers)
    }
}

/// The first list in which an engine's fault is noticed: beside the original, in two runs and by the known frame.
fn by_each(fault: Option<EngineFault>, mixed: bool) -> [Option<u64>; 3] {
    let choices = mixed.then(|| Inputs::new(!SEED).into());
    let engines = Engines { fault, choices };
    [
        noticed(|list, _| beside_original(&engines, list)),
        noticed(|list, inputs| two_runs(&engines, list, inputs).map(drop)),
        noticed(|list, inputs| known_frame(&engines, list, inputs).map(drop)),
    ]
}

#[test]
fn what_notices_an_engine() {
    assert_eq!(by_each(None, true), [None; 3]);
    for fault in ENGINE_FAULTS {
        let [alone, mixed] = [false, true].map(|mixed| by_each(Some(fault), mixed).map(|list| list.is_some()));
        // An engine that is always wrong in the same way shows beside the original alone.
        assert_eq!(alone, [true, false, false], "{fault:?}");
        assert_eq!(mixed, [true; 3], "{fault:?}");
    }
}
