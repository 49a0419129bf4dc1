//! What F1 and F2 give up: colours that they leave unknown although the original gives the same, whatever the unknown
//! part of memory holds. F5 must give up nothing.

use crate::compare::{added, Line};
use crate::draws::Frame;
use crate::frame::{covered, unmarked, Emitted, Pen, DOUBT, YES};

/// Why a pixel's colour is left unknown: F2, and the reasons of F1.
const REASONS: [&str; 4] = ["given up in doubt", "given up for P", "given up for M", "given up for the coverage"];

/// What is counted of each reason.
const COUNTS: [&str; 3] = ["colours", "certain of them", "certain because never blended"];

/// How many were left unknown, how many of them are certain, and, of colours, how many are certain because the pixel has all
/// samples, is not forced and P is known.
#[derive(Default)]
pub struct GivenUp {
    /// By the number of the reason.
    pub colors: [[u64; 3]; 4],
    /// Coverages that F5 leaves unmarked, of which none is certain.
    pub coverages: u64,
    /// The first pixel that is certain where it should not be, or the other way round.
    pub wrong: Option<String>,
    /// What was last asked of a draw, and whether it is certain.
    last: Option<(Asked, bool)>,
}

/// What a pixel's colour turns on beside its draw: the emitted count and floats by their bits, and memory.
type Asked = (u8, [u32; 5], Option<[u8; 3]>, Option<u8>);

/// What an unknown channel or coverage may be, those first that are the most apart.
fn apart(last: u8) -> impl Iterator<Item = u8> {
    [0, last].into_iter().chain(1..last)
}

/// Whether the pixel has the same colour, whatever is in memory where that is not known. A channel depends on its own channel
/// of memory alone, so that greys stand for all colours; a colour that is neither P nor M is not looked at.
fn certain_color(pen: &Pen, emitted: &Emitted, memory: Option<[u8; 3]>, coverage: Option<u8>) -> bool {
    let [p, _, m, _] = pen.selectors();
    let stored = |memory, coverage| pen.stored(emitted, Some(memory), coverage);
    let first = stored(memory.unwrap_or([0; 3]), coverage.unwrap_or(0));
    let at = |memory| match coverage {
        Some(coverage) => stored(memory, coverage) == first,
        None => apart(7).all(|coverage| stored(memory, coverage) == first),
    };
    match memory {
        None if p == 1 || m == 1 => apart(255).all(|grey| at([grey; 3])),
        _ => at(memory.unwrap_or([0; 3])),
    }
}

/// Which pixels in doubt are certain: those with all eight samples, which never blend, and those that a blend leaves as they
/// are. Memory's coverage decides whether a pixel in doubt blends and takes no other part: at 0 all blend but those with all
/// samples, and at 7 none.
fn unblended(pen: &Pen, emitted: &Emitted, memory: Option<[u8; 3]>) -> bool {
    emitted.count == 8 || pen.stored(emitted, memory, 0) == pen.stored(emitted, memory, 7)
}

/// Certain because never blended: all samples, not forced, and P known.
fn never_blended(pen: &Pen, emitted: &Emitted, memory: Option<[u8; 3]>) -> bool {
    let [p, ..] = pen.selectors();
    emitted.count == 8 && !pen.mode.force_blend && (p != 1 || memory.is_some())
}

impl GivenUp {
    /// A draw begins.
    pub fn begin(&mut self) {
        self.last = None;
    }

    /// `certain_color`, which the pixels of a draw often ask again.
    fn certain(&mut self, pen: &Pen, emitted: &Emitted, memory: Option<[u8; 3]>, coverage: Option<u8>) -> bool {
        let [r, g, b, a] = emitted.rgba.map(f32::to_bits);
        let asked = (emitted.count, [r, g, b, a, emitted.shade_alpha.to_bits()], memory, coverage);
        match self.last {
            Some((last, certain)) if last == asked => certain,
            _ => {
                let certain = certain_color(pen, emitted, memory, coverage);
                self.last = Some((asked, certain));
                certain
            }
        }
    }

    /// F5 over an unmarked coverage: it asks for all that memory may have, so that nothing that it leaves is certain. The
    /// closed form must say the same.
    fn count_coverage(&mut self, pen: &Pen, pixel: usize, count: u8) {
        let after = covered(pen.mode, count, None);
        let (_, closed) = unmarked(pen.mode, count);
        self.coverages += u64::from(after.is_none());
        if after != closed {
            let said = format!(
                "pixel {pixel}, {count} samples: the eight questions say {after:?}, the closed form {closed:?}"
            );
            self.wrong.get_or_insert(said);
        }
    }

    /// A pixel that is about to be put.
    pub fn count(&mut self, pen: &Pen, frame: &Frame, pixel: usize, emitted: &Emitted) {
        let (memory, coverage) = frame.known(pixel);
        if coverage.is_none() {
            self.count_coverage(pen, pixel, emitted.count);
        }
        let answer = pen.answer(emitted, coverage, memory.is_some());
        if answer == YES {
            return;
        }
        let [p, _, m, _] = pen.selectors();
        let reason = match answer {
            DOUBT => 0,
            _ if p == 1 && memory.is_none() => 1,
            _ if m == 1 && memory.is_none() => 2,
            _ => 3,
        };
        let certain = self.certain(pen, emitted, memory, coverage);
        let never = never_blended(pen, emitted, memory);
        let counted = [1, u64::from(certain), u64::from(never)];
        self.colors[reason] = std::array::from_fn(|i| self.colors[reason][i] + counted[i]);
        if (answer == DOUBT && certain != unblended(pen, emitted, memory)) || (never && !certain) {
            let Emitted { count, rgba, shade_alpha } = emitted;
            let said = format!(
                "pixel {pixel}, {count} samples, colour {rgba:?}, shade alpha {shade_alpha}; certain: {certain}"
            );
            self.wrong.get_or_insert(said);
        }
    }

    pub fn both(self, other: Self) -> Self {
        GivenUp {
            colors: std::array::from_fn(|reason| added(self.colors[reason], other.colors[reason])),
            coverages: self.coverages + other.coverages,
            wrong: self.wrong.or(other.wrong),
            last: None,
        }
    }

    pub fn lines(&self) -> Vec<Line> {
        let counts = |counts: [u64; 3]| COUNTS.map(str::to_string).into_iter().zip(counts).collect();
        let colors = REASONS.into_iter().zip(self.colors.map(counts));
        let coverages = vec![("coverages, none of them certain".to_string(), self.coverages)];
        colors.chain([("left by F5", coverages)]).collect()
    }
}
