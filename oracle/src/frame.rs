//! The frame of docs/RULES.md over the original's functions: numbers 1 to 10, 19 and 20, F1 to F5, the word reads and the
//! emitted pixels by themselves. The frame is ours, so this is a second writing of the rules, and not of the port.

use crate::draws::{Draw, Frame, Read, Shape};
use crate::library::{Answer, DrawAnswer, EmittedAnswer, EmittedRunAnswer, RunAnswer};
use crate::rust;
use original::writeback::{self, Parts};
use original::{coherence, FramebufferEncoding, RenderMode};

/// What F1 and F2 make of a pixel.
pub const NO: usize = 0;
pub const DOUBT: usize = 1;
pub const YES: usize = 2;

/// How often a pixel went each way. The first index of `colors` and `destinations` says whether the coverage was
/// marked.
#[derive(Clone, Default)]
pub struct Branches {
    /// F1 to F4: NO, DOUBT or YES.
    pub colors: [[u64; 3]; 2],
    /// F5: cvg_dst 0 to 3, then the ones above.
    pub destinations: [[u64; 5]; 2],
    /// F5 over an unmarked coverage: PARTIAL, FULL or RUN, and the case of `unmarked`.
    pub unmarked: [[u64; 8]; 3],
    /// F3: pixels that take a marked colour in, and pixels blended because of their marked coverage.
    pub memory_colors: u64,
    pub divided: u64,
    /// The last pixel and its colour, if it had all samples.
    pub last_full: Option<(usize, [u32; 4])>,
}

/// Whether a pixel has all samples; and whether its left neighbour, which came just before, had them in the same
/// colour, so that the fast engine may paint both in one go. The first of a run is FULL.
pub const PARTIAL: usize = 0;
pub const FULL: usize = 1;
pub const RUN: usize = 2;

impl Branches {
    fn fullness(&mut self, width: usize, pixel: usize, emitted: &Emitted) -> usize {
        let full = (emitted.count == 8).then_some((pixel, emitted.rgba.map(f32::to_bits)));
        let before = std::mem::replace(&mut self.last_full, full);
        match full {
            None => PARTIAL,
            _ if !pixel.is_multiple_of(width) && full == before.map(|(pixel, color)| (pixel + 1, color)) => RUN,
            _ => FULL,
        }
    }
}

fn known_color(mark: u8) -> bool {
    mark == 1 || mark == 3
}

fn known_coverage(mark: u8) -> bool {
    mark == 2 || mark == 3
}

/// Numbers 1 to 3, or 0.
pub fn frame_number(frame: &Frame) -> u32 {
    let Frame { width, height, colors, coverages, marks } = frame;
    if ![width, height].into_iter().all(|side| (1..=1024).contains(side)) {
        return 1;
    }
    let n = (width * height) as usize;
    if (colors.len(), coverages.len(), marks.len()) != (3 * n, n, n) {
        return 2;
    }
    let wrong = |(mark, coverage): (&u8, &u8)| *mark > 3 || (known_coverage(*mark) && *coverage > 7);
    if marks.iter().zip(coverages).any(wrong) {
        return 3;
    }
    0
}

/// Numbers 4 and 5, or 0.
fn shape_number(shape: &Shape) -> u32 {
    let Shape { scissor, vertices, present, indices, .. } = shape;
    if [scissor.left, scissor.top, scissor.width, scissor.height].iter().any(|number| *number > 65_535) {
        return 4;
    }
    let count = present.len();
    let lists = count <= 4096
        && vertices.len() == 6 * count
        && present.iter().all(|flag| *flag <= 1)
        && indices.len() % 3 == 0
        && indices.len() <= 12_288;
    if lists {
        0
    } else {
        5
    }
}

/// What every pixel of a draw shares.
pub struct Pen<'a> {
    pub mode: RenderMode,
    pub parts: &'a Parts,
}

/// What is emitted for one pixel.
pub struct Emitted {
    pub count: u8,
    pub rgba: [f32; 4],
    pub shade_alpha: f32,
}

/// F5: the coverage if it is marked afterwards. An unmarked one is if memory keeps one number, whichever of the eight
/// it had.
pub fn covered(mode: RenderMode, count: u8, coverage: Option<u8>) -> Option<u8> {
    let kept = |memory| writeback::destination(mode, count, memory);
    match coverage {
        Some(coverage) => Some(kept(coverage)),
        None => (0..8).all(|memory| kept(memory) == kept(0)).then_some(kept(0)),
    }
}

/// The cases of F5 over an unmarked coverage: five that mark it, and three that leave it.
pub const UNMARKED: [&str; 8] = [
    "marked by cvg_dst 2",
    "by cvg_dst 0 and neither flag",
    "by eight samples and antialias alone",
    "by eight samples and force_blend",
    "by seven samples and force_blend",
    "left with cvg_dst 0",
    "left with 1",
    "left with 3 and above",
];

/// Those of them that a pixel with all samples may be in, and those of one that has not all.
pub const UNMARKED_FULL: [usize; 6] = [0, 1, 2, 3, 6, 7];
pub const UNMARKED_PARTIAL: [usize; 6] = [0, 1, 4, 5, 6, 7];

/// F5 over an unmarked coverage in closed form: the number of the case, and the coverage if it is marked afterwards. It
/// is here to count the cases; given_up.rs holds it to the eight questions.
pub fn unmarked(mode: RenderMode, count: u8) -> (usize, Option<u8>) {
    let RenderMode { cvg_dst, force_blend, antialias, .. } = mode;
    match cvg_dst {
        2 => (0, Some(7)),
        0 if !force_blend && !antialias => (1, Some(count - 1)),
        0 if count == 8 && !force_blend => (2, Some(7)),
        0 if count == 8 => (3, Some(7)),
        0 if count == 7 && force_blend => (4, Some(7)),
        0 => (5, None),
        1 => (6, None),
        _ => (7, None),
    }
}

impl Pen<'_> {
    /// P, A, M and B.
    pub fn selectors(&self) -> [u16; 4] {
        [14, 10, 6, 2].map(|low| self.mode.blender_mux >> low & 3)
    }

    /// F1 and F2.
    pub fn answer(&self, emitted: &Emitted, coverage: Option<u8>, colored: bool) -> usize {
        let alpha = emitted.rgba[3];
        if !writeback::color_known(self.mode, alpha, emitted.count, coverage, colored) {
            return NO;
        }
        let [_, a, _, b] = self.selectors();
        let opaque = a == 0 && b == 0 && alpha >= 1.0;
        if coverage.is_none() && self.mode.antialias && !self.mode.force_blend && !opaque {
            return DOUBT;
        }
        YES
    }

    /// F3.
    pub fn stored(&self, emitted: &Emitted, memory: Option<[u8; 3]>, coverage: u8) -> [u8; 3] {
        let memory = match memory {
            Some(bytes) => bytes.map(|byte| f32::from(byte) / 255.0),
            None => [0.0; 3],
        };
        // No selector takes the memory's alpha.
        let memory = [memory[0], memory[1], memory[2], 0.0];
        let Emitted { count, rgba, shade_alpha } = *emitted;
        let parts = self.parts.clone();
        let [r, g, b, _] = writeback::blend(self.mode, parts, rgba, memory, shade_alpha, count, coverage);
        [r, g, b]
    }

    /// F1 to F5 on one pixel.
    pub fn put(&self, frame: &mut Frame, pixel: usize, emitted: &Emitted, branches: &mut Branches) {
        let (memory, coverage) = frame.known(pixel);
        let answer = self.answer(emitted, coverage, memory.is_some());
        if answer == YES {
            let stored = self.stored(emitted, memory, coverage.unwrap_or(0));
            frame.colors[3 * pixel..3 * pixel + 3].copy_from_slice(&stored);
        }
        let covered = covered(self.mode, emitted.count, coverage);
        if let Some(covered) = covered {
            frame.coverages[pixel] = covered;
        }
        frame.marks[pixel] = u8::from(answer == YES) + 2 * u8::from(covered.is_some());
        let fullness = branches.fullness(frame.width as usize, pixel, emitted);
        self.count(branches, emitted, (memory, coverage), answer, fullness);
    }

    fn count(
        &self,
        branches: &mut Branches,
        emitted: &Emitted,
        (memory, coverage): (Option<[u8; 3]>, Option<u8>),
        answer: usize,
        fullness: usize,
    ) {
        let marked = usize::from(coverage.is_some());
        branches.colors[marked][answer] += 1;
        branches.destinations[marked][usize::from(self.mode.cvg_dst).min(4)] += 1;
        if coverage.is_none() {
            let (case, _) = unmarked(self.mode, emitted.count);
            branches.unmarked[fullness][case] += 1;
        }
        let [p, a, m, b] = self.selectors();
        let opaque = a == 0 && b == 0 && emitted.rgba[3] >= 1.0;
        let meets = self.mode.antialias && coverage.is_some_and(|coverage| coverage + emitted.count < 8);
        let divided = meets && !self.mode.force_blend && !opaque;
        let blended = divided || (self.mode.force_blend && !opaque);
        if answer == YES {
            branches.memory_colors += u64::from(memory.is_some() && (p == 1 || (m == 1 && blended)));
            branches.divided += u64::from(divided);
        }
    }
}

pub fn draw(frame: &mut Frame, draw: &Draw, branches: &mut Branches) -> DrawAnswer {
    branches.last_full = None;
    draw_with(frame, draw, |pen, frame, pixel, emitted| pen.put(frame, pixel, emitted, branches))
}

/// What an accepted draw is: its mode, its combiner and what it covers.
struct Accepted {
    mode: RenderMode,
    parts: Parts,
    shape: writeback::Shape,
}

/// The draw, or one of the numbers 1 to 7.
fn accepted(frame: &Frame, draw: &Draw) -> Result<Accepted, u32> {
    let number = match frame_number(frame) {
        0 => shape_number(&draw.shape),
        number => number,
    };
    if number != 0 {
        return Err(number);
    }
    let mode = rust::render_mode(draw.mode);
    let parts = writeback::combiner_new(&rust::combiner_uniform(draw.uniform), mode).ok_or(6u32)?;
    let shape = rust::shape(draw.mode, parts.clone(), &draw.shape);
    if !shape.admitted() {
        return Err(7);
    }
    Ok(Accepted { mode, parts, shape })
}

/// A draw, of which every emitted pixel is handed to `put`.
pub fn draw_with(frame: &mut Frame, draw: &Draw, mut put: impl FnMut(&Pen, &mut Frame, usize, &Emitted)) -> DrawAnswer {
    let Accepted { mode, parts, shape } = match accepted(frame, draw) {
        Ok(accepted) => accepted,
        Err(number) => return DrawAnswer { number, pixels: 0 },
    };
    let pen = Pen { mode, parts: &parts };
    let mut pixels = 0;
    shape.rasterize((frame.width as usize, frame.height as usize), |pixel, count, rgba, shade_alpha| {
        pixels += 1;
        put(&pen, frame, pixel, &Emitted { count, rgba, shade_alpha });
    });
    DrawAnswer { number: 0, pixels }
}

/// The pixels that a draw emits, each with its mask, or the number that the draw is turned away with.
pub struct EmittedList(Result<Vec<(u32, u8)>, u32>);

impl EmittedList {
    pub fn of(frame: &Frame, draw: &Draw) -> Self {
        EmittedList(accepted(frame, draw).map(|accepted| {
            let list = rust::emitted(&accepted.shape, (frame.width, frame.height));
            list.iter().map(|(pixel, mask, ..)| (*pixel as u32, *mask)).collect()
        }))
    }

    /// The list, which is empty where the draw is turned away.
    pub fn pixels(&self) -> &[(u32, u8)] {
        self.0.as_deref().unwrap_or_default()
    }

    /// Without the pixels that are not to be kept.
    pub fn kept(self, keep: impl Fn(usize) -> bool) -> Self {
        EmittedList(self.0.map(|list| list.into_iter().filter(|(pixel, _)| keep(*pixel as usize)).collect()))
    }

    /// 0, or one of 1 to 7.
    pub fn number(&self) -> u32 {
        self.0.as_ref().map_or_else(|number| *number, |_| 0)
    }

    /// A place may be any number that is not below 0.
    fn at(&self, place: u128) -> (u32, u8) {
        let found = usize::try_from(place).ok().and_then(|place| self.pixels().get(place));
        found.copied().unwrap_or((0, 0))
    }

    pub fn pixel(&self, k: u64) -> EmittedAnswer {
        let (pixel, mask) = self.at(k.into());
        EmittedAnswer { number: self.number(), pixel, mask: mask.into() }
    }

    pub fn run(&self, first: u64, pixels: &mut [u32], masks: &mut [u8]) -> EmittedRunAnswer {
        let refused = |number| EmittedRunAnswer { number, listed: 0, emitted: 0 };
        if self.number() != 0 {
            return refused(self.number());
        }
        if pixels.len() != masks.len() {
            return refused(20);
        }
        for (i, (pixel, mask)) in pixels.iter_mut().zip(masks.iter_mut()).enumerate() {
            (*pixel, *mask) = self.at(u128::from(first) + i as u128);
        }
        let listed = masks.iter().filter(|mask| **mask != 0).count() as u64;
        EmittedRunAnswer { number: 0, listed, emitted: self.pixels().len() as u64 }
    }
}

pub fn read_word(frame: &Frame, read: &Read) -> Answer {
    match frame_number(frame) {
        0 => read_pixel(frame, read),
        number => Answer { number, value: 0 },
    }
}

/// A word read on a frame that numbers 1 to 3 let through.
pub fn read_pixel(frame: &Frame, read: &Read) -> Answer {
    let refused = |number| Answer { number, value: 0 };
    let Read { pixel, fmt, siz, rgb_dither, big_endian } = *read;
    if pixel >= frame.marks.len() {
        return refused(8);
    }
    let writer = coherence::writer(fmt, siz, frame.width, false);
    if !writer.supported() {
        return refused(9);
    }
    let mark = frame.marks[pixel];
    if !known_color(mark) || (!known_coverage(mark) && siz == 2) {
        return refused(10);
    }
    let bytes = &frame.colors[3 * pixel..3 * pixel + 3];
    // A byte writer looks at neither the coverage nor the alpha, a word writer not at the alpha.
    let coverage = if known_coverage(mark) { frame.coverages[pixel] } else { 0 };
    let encoding = if big_endian { FramebufferEncoding::BigEndian } else { FramebufferEncoding::Native };
    let word = writer.encode([bytes[0], bytes[1], bytes[2], 0], coverage, pixel, None, rgb_dither, encoding);
    Answer { number: 0, value: u32::from(u16::from_le_bytes(word)) }
}

/// The run of words from the read's pixel on.
pub fn read_words(frame: &Frame, read: &Read, words: &mut [u8], numbers: &mut [u8]) -> RunAnswer {
    if words.len() != 2 * numbers.len() {
        return RunAnswer { number: 19, words: 0 };
    }
    // What `read_word` asks first, asked once.
    let refusal = frame_number(frame);
    for (i, (number, word)) in numbers.iter_mut().zip(words.chunks_exact_mut(2)).enumerate() {
        // No frame has the largest pixel.
        let pixel = read.pixel.saturating_add(i);
        let answer = match refusal {
            0 => read_pixel(frame, &Read { pixel, ..*read }),
            number => Answer { number, value: 0 },
        };
        *number = answer.number as u8;
        word.copy_from_slice(&(answer.value as u16).to_le_bytes());
    }
    RunAnswer { number: 0, words: numbers.iter().filter(|number| **number == 0).count() as u64 }
}

impl Frame {
    /// A pixel's colour and coverage, where they are marked.
    pub fn known(&self, pixel: usize) -> (Option<[u8; 3]>, Option<u8>) {
        let mark = self.marks[pixel];
        let bytes = &self.colors[3 * pixel..3 * pixel + 3];
        let color = known_color(mark).then_some([bytes[0], bytes[1], bytes[2]]);
        (color, known_coverage(mark).then_some(self.coverages[pixel]))
    }

    /// Whether two frames differ in bytes alone that are not known, for slices of any length: the demand for secrecy says
    /// so of marks that number 3 refuses, too.
    pub fn like(&self, other: &Frame) -> bool {
        let color = |mark: Option<&u8>| mark.is_some_and(|mark| mark % 2 == 1);
        let coverage = |mark: Option<&u8>| mark.is_some_and(|mark| mark % 4 >= 2);
        let lengths = |frame: &Frame| (frame.width, frame.height, frame.colors.len(), frame.coverages.len());
        let colors = self.colors.iter().zip(&other.colors).enumerate();
        let coverages = self.coverages.iter().zip(&other.coverages).enumerate();
        lengths(self) == lengths(other)
            && self.marks == other.marks
            && colors.into_iter().all(|(i, (a, b))| a == b || !color(self.marks.get(i / 3)))
            && coverages.into_iter().all(|(i, (a, b))| a == b || !coverage(self.marks.get(i)))
    }
}
