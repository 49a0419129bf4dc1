//! Draws, their emitted pixels, word reads and the frame that they work on, and their text.

use crate::library::{Geometry, Mode, Scissor, Uniform};
use crate::words::{hex, Words};

/// What a draw covers, and where.
#[derive(Clone, Default)]
pub struct Shape {
    pub cull: bool,
    pub scissor: Scissor,
    pub geometry: Geometry,
    /// x, y, red, green, blue, alpha, again and again.
    pub vertices: Vec<f32>,
    /// For each vertex 1 if it is there.
    pub present: Vec<u8>,
    /// Three for each triangle.
    pub indices: Vec<u32>,
}

#[derive(Clone, Default)]
pub struct Draw {
    pub mode: Mode,
    pub uniform: Uniform,
    pub shape: Shape,
}

#[derive(Clone, Copy)]
pub struct Read {
    pub pixel: usize,
    pub fmt: u8,
    pub siz: u8,
    pub rgb_dither: u8,
    pub big_endian: bool,
}

/// The k-th pixel that a draw emits.
#[derive(Clone)]
pub struct EmittedPixel {
    pub draw: Draw,
    pub k: u64,
}

/// A run of the pixels that a draw emits, with the two slices as they are before it.
#[derive(Clone)]
pub struct EmittedPixels {
    pub draw: Draw,
    pub first: u64,
    pub pixels: Vec<u32>,
    pub masks: Vec<u8>,
}

/// A call of a list.
#[derive(Clone)]
pub enum Step {
    Draw(Box<Draw>),
    Read(Read),
    EmittedPixel(Box<EmittedPixel>),
    EmittedPixels(Box<EmittedPixels>),
}

/// The sizes and the three slices, whose lengths may be wrong ones.
#[derive(Clone, PartialEq)]
pub struct Frame {
    pub width: u32,
    pub height: u32,
    pub colors: Vec<u8>,
    pub coverages: Vec<u8>,
    pub marks: Vec<u8>,
}

/// A list's length and, unless it is empty, its words.
fn counted<T: Words>(values: &Vec<T>) -> String {
    let length = format!("{:08x}", values.len());
    if values.is_empty() {
        length
    } else {
        length + " " + &hex(values)
    }
}

/// A slice's length and, unless it is empty, its bytes as one string of two digits each.
fn bytes(slice: &[u8]) -> String {
    let length = format!("{:08x}", slice.len());
    if slice.is_empty() {
        return length;
    }
    let digits: String = slice.iter().map(|byte| format!("{byte:02x}")).collect();
    length + " " + &digits
}

impl Frame {
    pub fn slices(&self) -> String {
        [&self.colors, &self.coverages, &self.marks].map(|slice| bytes(slice)).join(" ")
    }

    pub fn text(&self) -> String {
        format!("{} {} {}", hex(&self.width), hex(&self.height), self.slices())
    }
}

impl Shape {
    pub fn text(&self) -> String {
        let Shape { cull, scissor, geometry, vertices, present, indices } = self;
        let fixed = [hex(cull), hex(scissor), hex(geometry)].join(" ");
        [fixed, counted(vertices), bytes(present), counted(indices)].join(" ")
    }
}

impl Draw {
    pub fn text(&self) -> String {
        format!("{} {} {}", hex(&self.mode), hex(&self.uniform), self.shape.text())
    }
}

/// A run's two slices, before it or after it.
pub fn slots(pixels: &Vec<u32>, masks: &[u8]) -> String {
    format!("{} {}", counted(pixels), bytes(masks))
}

impl Step {
    pub fn text(&self) -> String {
        match self {
            Step::Draw(draw) => format!("draw {}", draw.text()),
            Step::Read(Read { pixel, fmt, siz, rgb_dither, big_endian }) => {
                let rest = [hex(fmt), hex(siz), hex(rgb_dither), hex(big_endian)].join(" ");
                format!("read {pixel:08x} {rest}")
            }
            Step::EmittedPixel(one) => format!("mask {} {}", one.draw.text(), hex(&one.k)),
            Step::EmittedPixels(run) => {
                format!("masks {} {} {}", run.draw.text(), hex(&run.first), slots(&run.pixels, &run.masks))
            }
        }
    }
}
