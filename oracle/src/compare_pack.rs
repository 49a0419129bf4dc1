//! coherence.rs: `pack_color` and the `Writer`.

use crate::calls::{Encode, PackColor, PixelBytes, Supported, Tally};
use crate::compare::{Outcome, Part};
use crate::inputs::Inputs;

/// Every value of each channel with every threshold and every coverage, and anything.
pub fn pack_color(part: &Part) -> Outcome {
    let mut tally = Tally::default();
    let mut inputs = part.inputs();
    for value in part.share(256) {
        // Each channel goes through all values, and no two are alike.
        let channels = [value as u8, value as u8 ^ 0x55, 255 - value as u8];
        for dither in 0..=255 {
            for coverage in 0..=255 {
                let rgba = u32::from_le_bytes([channels[0], channels[1], channels[2], inputs.byte()]);
                tally.check(PackColor { rgba, coverage, dither })?;
            }
        }
    }
    for _ in part.tries(10_000_000) {
        let rgba = inputs.word();
        let dither = inputs.below(9) as u8;
        tally.check(PackColor { rgba, coverage: inputs.coverage(), dither })?;
    }
    Ok(tally.compared)
}

const WIDTHS: [u32; 9] = [0, 1, 2, 3, 320, 1023, 1024, 1025, u32::MAX];

/// Every fmt, siz and depth, with widths in and out of range.
fn writers(part: &Part) -> impl Iterator<Item = (u8, u8, u32, bool)> {
    part.share(1 << 17).flat_map(|number| {
        let [fmt, siz, depth, _] = number.to_le_bytes();
        WIDTHS.map(|width| (fmt, siz, width, depth == 1))
    })
}

pub fn supported(part: &Part) -> Outcome {
    let mut tally = Tally::default();
    for (fmt, siz, width, depth) in writers(part) {
        tally.check(Supported { fmt, siz, width, depth })?;
    }
    Ok(tally.compared)
}

pub fn pixel_bytes(part: &Part) -> Outcome {
    let mut tally = Tally::default();
    for (fmt, siz, width, depth) in writers(part) {
        tally.check(PixelBytes { fmt, siz, width, depth })?;
    }
    Ok(tally.compared)
}

/// Mostly 1 to 1,024.
fn any_width(inputs: &mut Inputs) -> u32 {
    match inputs.below(32) {
        0 => inputs.word(),
        1..=8 => inputs.pick(&WIDTHS),
        _ => 1 + inputs.below(1024),
    }
}

/// Mostly to 1,048,575: the first rows, the ends of any row, anywhere.
fn any_pixel(inputs: &mut Inputs, width: u32) -> u32 {
    let step = inputs.below(5).wrapping_sub(2);
    match inputs.below(32) {
        0 => inputs.word(),
        1..=2 => 1_048_575u32.wrapping_add(step),
        3..=10 => inputs.below(64),
        11..=20 => inputs.below(1024).wrapping_mul(width).wrapping_add(step),
        _ => inputs.below(1 << 20),
    }
}

/// Any pixel for this writer. A depth's bytes are a float.
fn pixel_for(inputs: &mut Inputs, fmt: u8, siz: u8, width: u32, depth: bool) -> Encode {
    let temper = inputs.temper();
    let rgba = if depth { inputs.float(temper).to_bits() } else { inputs.word() };
    Encode {
        fmt,
        siz,
        width,
        depth,
        rgba,
        coverage: inputs.coverage(),
        pixel: any_pixel(inputs, width),
        literal: inputs.below(4) == 0,
        word: inputs.word(),
        rgb_dither: if inputs.below(8) == 0 { inputs.byte() } else { inputs.below(4) as u8 },
        big_endian: inputs.flag(),
    }
}

/// Mostly a supported writer.
pub fn any_encode(inputs: &mut Inputs) -> Encode {
    let (fmt, siz, depth) = match inputs.below(8) {
        0 => (inputs.byte(), inputs.byte(), inputs.flag()),
        1 => (inputs.below(6) as u8, inputs.below(5) as u8, inputs.flag()),
        2 => (inputs.byte(), inputs.below(4) as u8, true),
        3 => (2 + inputs.below(3) as u8, 1, false),
        _ => (0, 2, false),
    };
    let width = any_width(inputs);
    pixel_for(inputs, fmt, siz, width, depth)
}

/// Every writer with pixels in and out of range, every place of both dither tables, and anything.
pub fn encode(part: &Part) -> Outcome {
    let mut tally = Tally::default();
    let mut inputs = part.inputs();
    for (fmt, siz, width, depth) in writers(part) {
        for _ in 0..4 {
            tally.check(pixel_for(&mut inputs, fmt, siz, width, depth))?;
        }
    }
    for rgb_dither in part.share(256) {
        for pixel in 0..64 {
            for value in 0..=255 {
                let rgba = u32::from_le_bytes([value, value ^ 0x55, 255 - value, inputs.byte()]);
                let call = pixel_for(&mut inputs, 0, 2, 8, false);
                tally.check(Encode { rgba, pixel, rgb_dither: rgb_dither as u8, literal: false, ..call })?;
            }
        }
    }
    for _ in part.tries(16_000_000) {
        tally.check(any_encode(&mut inputs))?;
    }
    Ok(tally.compared)
}
