//! The original's side: the frame of docs/RULES.md over its `Combiner::new`, `admitted`, `rasterize`, `color_known`, `blend`,
//! `destination` and `encode`.

use crate::emitted::List;
use crate::scenes::{Reads, Scene, Words, BIG_ENDIAN, FMT, SINGLE_READS, SIZ};
use oracle::draws::{Draw, Frame};
use oracle::rust;
use original::writeback::{self, Shape};
use original::{coherence, CombinerUniform, FramebufferEncoding, RenderMode};

struct PreparedDraw {
    mode: RenderMode,
    uniform: CombinerUniform,
    shape: Shape,
}

/// A scene's draws in the original's types, and how its words are read.
pub struct Prepared {
    draws: Vec<PreparedDraw>,
    reads: Reads,
}

fn known_color(mark: u8) -> bool {
    mark & 1 != 0
}

fn known_coverage(mark: u8) -> bool {
    mark & 2 != 0
}

pub fn prepare(scene: &Scene) -> Prepared {
    let draw = |draw: &Draw| {
        let mode = rust::render_mode(draw.mode);
        let uniform = rust::combiner_uniform(draw.uniform);
        let parts = writeback::combiner_new(&uniform, mode).expect("a combiner");
        PreparedDraw { mode, uniform, shape: rust::shape(draw.mode, parts, &draw.shape) }
    };
    Prepared { draws: scene.draws.iter().map(draw).collect(), reads: scene.reads }
}

/// Numbers 1 to 3.
fn frame_number(frame: &Frame) -> u32 {
    let Frame { width, height, colors, coverages, marks } = frame;
    if ![width, height].into_iter().all(|side| (1..=1024).contains(side)) {
        return 1;
    }
    let n = (width * height) as usize;
    if (colors.len(), coverages.len(), marks.len()) != (3 * n, n, n) {
        return 2;
    }
    let wrong = |(mark, coverage): (&u8, &u8)| *mark > 3 || (known_coverage(*mark) && *coverage > 7);
    if marks.iter().zip(coverages).any(wrong) {
        return 3;
    }
    0
}

/// Numbers 1 to 3, 6 and 7.
fn accepted(frame: &Frame, draw: &PreparedDraw) -> bool {
    frame_number(frame) == 0 && writeback::combiner_new(&draw.uniform, draw.mode).is_some() && draw.shape.admitted()
}

fn draw(frame: &mut Frame, draw: &PreparedDraw) -> u64 {
    assert!(accepted(frame, draw));
    let mode = draw.mode;
    let [a, b] = [10, 2].map(|low| mode.blender_mux >> low & 3);
    let mut pixels = 0;
    let extent = (frame.width as usize, frame.height as usize);
    let Frame { colors, coverages, marks, .. } = frame;
    draw.shape.rasterize(extent, |pixel, count, rgba, shade_alpha| {
        pixels += 1;
        let mark = marks[pixel];
        let bytes = &mut colors[3 * pixel..3 * pixel + 3];
        let coverage = known_coverage(mark).then_some(coverages[pixel]);
        let alpha = rgba[3];
        let opaque = a == 0 && b == 0 && alpha >= 1.0;
        let doubt = coverage.is_none() && mode.antialias && !mode.force_blend && !opaque;
        let known = writeback::color_known(mode, alpha, count, coverage, known_color(mark)) && !doubt;
        if known {
            let mut memory = [0.0; 4];
            if known_color(mark) {
                for (value, byte) in memory.iter_mut().zip(&*bytes) {
                    *value = f32::from(*byte) / 255.0;
                }
            }
            let coverage = coverage.unwrap_or(0);
            let stored = draw.shape.blend(rgba, memory, shade_alpha, count, coverage);
            bytes.copy_from_slice(&stored[..3]);
        }
        let covered = match coverage {
            Some(coverage) => Some(writeback::destination(mode, count, coverage)),
            // What `destination` gives for all eight coverages that memory may have, in closed form: the eight
            // questions would be the Rust side's time.
            None if mode.cvg_dst == 2 => Some(7),
            None if mode.cvg_dst != 0 => None,
            None if mode.force_blend => (count >= 7).then_some(7),
            None if mode.antialias => (count == 8).then_some(7),
            None => Some(count - 1),
        };
        if let Some(covered) = covered {
            coverages[pixel] = covered;
        }
        marks[pixel] = u8::from(known) + 2 * u8::from(covered.is_some());
    });
    pixels
}

impl Prepared {
    /// The pixels of each draw and their counts, put behind what its list has.
    pub fn list(&self, frame: &Frame, lists: &mut [List]) {
        let extent = (frame.width as usize, frame.height as usize);
        for (draw, List { pixels, samples }) in self.draws.iter().zip(lists) {
            assert!(accepted(frame, draw));
            draw.shape.rasterize(extent, |pixel, count, _, _| {
                pixels.push(pixel as u32);
                samples.push(count);
            });
        }
    }
}

/// Numbers 8 to 10, and the pixel's two bytes.
fn read_pixel(frame: &Frame, pixel: usize, rgb_dither: u8) -> (u8, [u8; 2]) {
    if pixel >= frame.marks.len() {
        return (8, [0; 2]);
    }
    let writer = coherence::writer(FMT, SIZ, frame.width, false);
    if !writer.supported() {
        return (9, [0; 2]);
    }
    let mark = frame.marks[pixel];
    if !known_color(mark) || (!known_coverage(mark) && SIZ == 2) {
        return (10, [0; 2]);
    }
    let bytes = &frame.colors[3 * pixel..3 * pixel + 3];
    let coverage = if known_coverage(mark) { frame.coverages[pixel] } else { 0 };
    let encoding = if BIG_ENDIAN { FramebufferEncoding::BigEndian } else { FramebufferEncoding::Native };
    let rgba = [bytes[0], bytes[1], bytes[2], 0];
    (0, writer.encode(rgba, coverage, pixel, None, rgb_dither, encoding))
}

/// The words of the first `count` pixels; `check` is what is asked of the frame before each.
fn read(frame: &Frame, rgb_dither: u8, count: usize, words: &mut Words, check: impl Fn()) {
    let entries = words.bytes.chunks_exact_mut(2).zip(&mut words.numbers).take(count);
    for (pixel, (bytes, number)) in entries.enumerate() {
        check();
        let (refusal, word) = read_pixel(frame, pixel, rgb_dither);
        *number = refusal;
        bytes.copy_from_slice(&word);
    }
    words.read = count;
}

/// How many pixels were emitted.
pub fn run(scene: &Prepared, frame: &mut Frame, words: &mut Words) -> u64 {
    let pixels = scene.draws.iter().map(|prepared| draw(frame, prepared)).sum();
    match scene.reads {
        Reads::Nothing => {}
        Reads::Singly { rgb_dither } => {
            read(frame, rgb_dither, SINGLE_READS, words, || assert_eq!(frame_number(frame), 0))
        }
        Reads::Once { rgb_dither } => {
            assert_eq!(frame_number(frame), 0);
            read(frame, rgb_dither, frame.marks.len(), words, || {})
        }
    }
    pixels
}
