//! A sample of lists and of what they come to on the frame of frame.rs, as lines of text for a program that replays them.

use crate::compare_frame::on_original;
use crate::draws::Step;
use crate::frame::{Branches, PARTIAL, RUN, UNMARKED, UNMARKED_FULL, UNMARKED_PARTIAL};
use crate::inputs::Inputs;
use crate::lists::{Class, List};
use std::collections::BTreeSet;

/// What a list comes to.
struct Recorded {
    /// Its frame, and then its calls in turn.
    lines: Vec<String>,
    /// Of the emitted pixels that it asks for the kind of each call and its number.
    numbers: BTreeSet<(&'static str, u32)>,
    branches: Branches,
}

fn recorded(list: &List) -> Recorded {
    let mut frame = list.frame.clone();
    let mut lines = vec![format!("frame {}", frame.text())];
    let mut numbers = BTreeSet::new();
    let mut branches = Branches::default();
    for step in &list.steps {
        let answer = on_original(&mut frame, step, &mut branches);
        let slices = match step {
            Step::Draw(_) => format!(" {}", frame.slices()),
            _ => String::new(),
        };
        match step {
            Step::EmittedPixel(_) => drop(numbers.insert(("mask", answer.number))),
            Step::EmittedPixels(_) => drop(numbers.insert(("masks", answer.number))),
            _ => {}
        }
        lines.push(format!("{} = {}{slices}", step.text(), answer.text()));
    }
    Recorded { lines, numbers, branches }
}

/// How many numbers the two calls for emitted pixels have together: 0 to 7, and 20 of a run.
const EMITTED_NUMBERS: usize = 8 + 9;

/// The cases of F5 over an unmarked coverage on pixels that have not all samples, and those in runs of full pixels.
const UNMARKED_CASES: usize = UNMARKED_PARTIAL.len() + UNMARKED_FULL.len();

fn unmarked_cases(list: &List) -> BTreeSet<(usize, usize)> {
    let Branches { unmarked, .. } = recorded(list).branches;
    let all = [PARTIAL, RUN].into_iter().flat_map(|fullness| (0..UNMARKED.len()).map(move |case| (fullness, case)));
    all.filter(|(fullness, case)| unmarked[*fullness][*case] > 0).collect()
}

/// Lists of one kind: as many as `least`, and those behind them that bring something which did not come before, until
/// it is `all` that there is.
fn bringing<T: Ord>(
    inputs: &mut Inputs,
    (least, all): (usize, usize),
    list: fn(&mut Inputs) -> List,
    brings: fn(&List) -> BTreeSet<T>,
) -> Vec<List> {
    let (mut kept, mut seen) = (Vec::new(), BTreeSet::new());
    while kept.len() < least || seen.len() < all {
        let list = list(inputs);
        let brought = brings(&list);
        if kept.len() < least || !brought.is_subset(&seen) {
            kept.push(list);
            seen.extend(brought);
        }
    }
    kept
}

/// About three hundred draws and word reads; then half as many calls of which most ask for emitted pixels, with each of
/// their numbers; then panels over unknown coverages, with each case of F5 there.
pub fn sample(seed: u64) -> Vec<List> {
    let mut inputs = Inputs::new(seed);
    let mut sample: Vec<List> = (0..52).map(|_| List::at_random(&mut inputs, Class::Recorded)).collect();
    let emitted = |list: &List| recorded(list).numbers;
    sample.extend(bringing(&mut inputs, (52, EMITTED_NUMBERS), List::of_emitted, emitted));
    sample.extend(bringing(&mut inputs, (0, UNMARKED_CASES), List::over_unknown, unmarked_cases));
    sample
}

pub fn lines(seed: u64) -> Vec<String> {
    sample(seed).iter().flat_map(|list| recorded(list).lines).collect()
}
