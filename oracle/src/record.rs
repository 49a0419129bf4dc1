//! A sample of the original's answers as lines of text, for a program that replays them: for each call plain and hostile
//! arguments, and refused ones where a call refuses.

use crate::calls::*;
use crate::compare_combiner::{any_combiner, draw, strict_combiner};
use crate::compare_pack::any_encode;
use crate::compare_pixel::{any_blend, any_known};
use crate::inputs::{shifted, Inputs};
use crate::library::{Combiner, Mode, Rgba};

/// That many lines of one call.
fn sample<C: Call>(lines: &mut Vec<String>, count: usize, mut call: impl FnMut() -> C) {
    lines.extend((0..count).map(|_| line(&call())));
}

fn selectors(lines: &mut Vec<String>, inputs: &mut Inputs) {
    for index in (0..32).chain((0..8).map(|_| inputs.word())) {
        lines.push(line(&ColorA { index }));
        lines.push(line(&ColorB { index }));
        lines.push(line(&ColorC { index }));
        lines.push(line(&ColorD { index }));
        lines.push(line(&AlphaAbd { index }));
        lines.push(line(&AlphaC { index }));
    }
    sample(lines, 60, || DecodeCombine { w0: inputs.word(), w1: inputs.word() });
}

fn numbers(lines: &mut Vec<String>, inputs: &mut Inputs) {
    for _ in 0..80 {
        let x = inputs.hostile();
        let plain = inputs.plain();
        lines.push(line(&Clamp { x }));
        lines.push(line(&ByteOf { x }));
        lines.push(line(&ByteOf { x: plain }));
        lines.push(line(&Quarter { x }));
        lines.push(line(&FloorIndex { x }));
        lines.push(line(&CeilIndex { x }));
        lines.push(line(&IsFinite { x }));
        lines.push(line(&PackDepth { depth: x }));
        lines.push(line(&PackDepth { depth: plain }));
        let b = inputs.hostile();
        let b = inputs.pick(&[b, -x, shifted(x, 1)]);
        lines.push(line(&LeTotal { a: x, b }));
    }
}

fn combiners(lines: &mut Vec<String>, inputs: &mut Inputs) {
    sample(lines, 80, || draw(inputs));
    sample(lines, 120, || {
        let temper = inputs.temper();
        let combiner = any_combiner(inputs, temper);
        CombinerColor { combiner, shade: inputs.rgba(temper) }
    });
    sample(lines, 60, || {
        let zero_or = |inputs: &mut Inputs, number: u8| if inputs.below(32) == 0 { number } else { 5 };
        let others = inputs.selectors();
        let mut selectors = others.map(|number| zero_or(inputs, number));
        selectors[3] = inputs.pick(&[2, 4, 5, 6, others[3]]);
        selectors[7] = inputs.pick(&[2, 4, 6, others[7]]);
        StrictColor { combiner: strict_combiner(inputs, selectors) }
    });
}

fn pixels(lines: &mut Vec<String>, inputs: &mut Inputs) {
    sample(lines, 80, || {
        let mut mode = inputs.mode();
        mode.cvg_dst = inputs.below(5) as u8;
        Destination { mode, mask: inputs.mask(), memory: inputs.coverage() }
    });
    sample(lines, 120, || any_known(inputs));
    sample(lines, 160, || {
        let temper = inputs.temper();
        any_blend(inputs, temper)
    });
}

fn words(lines: &mut Vec<String>, inputs: &mut Inputs) {
    sample(lines, 80, || PackColor { rgba: inputs.word(), coverage: inputs.coverage(), dither: inputs.below(9) as u8 });
    for siz in 0..=4 {
        for fmt in 0..=5 {
            for depth in [false, true] {
                lines.push(line(&Supported { fmt, siz, width: 320, depth }));
                lines.push(line(&PixelBytes { fmt, siz, width: 320, depth }));
            }
        }
    }
    for width in [0, 1, 1024, 1025] {
        for depth in [false, true] {
            lines.push(line(&Supported { fmt: 0, siz: 2, width, depth }));
            lines.push(line(&PixelBytes { fmt: 0, siz: 2, width, depth }));
        }
    }
    sample(lines, 160, || any_encode(inputs));
}

/// What the rules name (docs/RULES.md): corners and the worked values; and where other roundings differ.
fn examples(lines: &mut Vec<String>) {
    for (a, b) in [(-0.0, 0.0), (0.0, -0.0), (f32::NAN, 0.0), (0.0, f32::NAN)] {
        lines.push(line(&LeTotal { a, b }));
    }
    for x in [-0.125, 0.125, -0.0, f32::NAN, 1023.75, 16_384.0] {
        lines.push(line(&Quarter { x }));
    }
    // The second is below half of a byte, by less than an f32 sum with 0.5 shows.
    for x in [0.5, f32::from_bits(0x3b00_8080), f32::NAN] {
        lines.push(line(&ByteOf { x }));
    }
    // The last would be another word if it were rounded.
    for depth in [0.5, 1.0, -1.0, f32::NAN, f32::from_bits(0x397e_0000)] {
        lines.push(line(&PackDepth { depth }));
    }
    for (cvg_dst, force_blend, antialias) in [(0, true, false), (0, false, true), (1, true, true)] {
        let mode = Mode { cvg_dst, force_blend, antialias, ..Mode::default() };
        lines.push(line(&Destination { mode, mask: 0b0110_1101, memory: 4 }));
    }
    for (value, dither) in [(5, 4), (5, 5), (250, 0)] {
        lines.push(line(&PackColor { rgba: value, coverage: 0, dither }));
    }
    // (Primitive - Zero) * PrimLodFrac + Environment, which a fused multiply and add takes to 1.
    let all = |x: f32| Rgba { r: x, g: x, b: x, a: x };
    let combiner = Combiner {
        selectors: [2, 5, 18, 4, 2, 5, 9, 4],
        prim: all(16_777_215.0),
        env: all(-281_474_943_156_224.0),
        lod: 16_777_215.0,
        ..Combiner::default()
    };
    lines.push(line(&CombinerColor { combiner, shade: all(1.0) }));
}

/// About two thousand lines.
pub fn lines(seed: u64) -> Vec<String> {
    let mut lines = Vec::new();
    let mut inputs = Inputs::new(seed);
    examples(&mut lines);
    selectors(&mut lines, &mut inputs);
    numbers(&mut lines, &mut inputs);
    combiners(&mut lines, &mut inputs);
    pixels(&mut lines, &mut inputs);
    words(&mut lines, &mut inputs);
    lines
}
