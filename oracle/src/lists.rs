//! Lists of draws, emitted pixels and word reads on a frame, mostly accepted, with every reason to turn one away.

use crate::compare_combiner::{passing, usable};
use crate::draws::{Draw, EmittedPixel, EmittedPixels, Frame, Read, Shape, Step};
use crate::frame::EmittedList;
use crate::inputs::Inputs;
use crate::library::{Geometry, Mode, Rgba, Scissor, Uniform};
use crate::shapes::{any_shape, flawed, rectangle, triangles, RECTANGLE, TRIANGLES};

pub struct List {
    pub frame: Frame,
    pub steps: Vec<Step>,
}

/// How large the frame is.
#[derive(Clone, Copy, PartialEq)]
pub enum Class {
    /// Up to 6 by 6.
    Small,
    /// Up to 8 by 8, without long lists: to be written down.
    Recorded,
    /// Mostly small, some longer in one direction or in both.
    Any,
    /// 1,024 by 1,024, and few calls.
    Whole,
}

fn size(inputs: &mut Inputs, class: Class) -> (u32, u32) {
    let mut side = |limit: u32| 1 + inputs.below(limit);
    match class {
        Class::Small => (side(6), side(6)),
        Class::Recorded => (side(8), side(8)),
        Class::Whole => (1024, 1024),
        Class::Any => match side(512) {
            1 => (side(1024), side(4)),
            2 => (side(4), side(1024)),
            3 if side(16) == 1 => (side(1024), side(1024)),
            3..=12 => (side(24), side(24)),
            13..=100 => (side(12), side(12)),
            _ => (side(6), side(6)),
        },
    }
}

/// A mark byte is known whole, not at all, or anything.
fn marks(inputs: &mut Inputs, n: usize) -> Vec<u8> {
    let kind = inputs.below(4);
    (0..n).map(|_| [0, 3, inputs.below(4) as u8, inputs.below(4) as u8][kind as usize]).collect()
}

/// A coverage that is not marked may be any byte.
fn coverage(inputs: &mut Inputs, mark: u8) -> u8 {
    let byte = inputs.byte();
    if mark & 2 != 0 {
        byte % 8
    } else {
        byte
    }
}

fn frame(inputs: &mut Inputs, (width, height): (u32, u32)) -> Frame {
    let n = (width * height) as usize;
    let marks = marks(inputs, n);
    Frame {
        width,
        height,
        colors: (0..3 * n).map(|_| inputs.byte()).collect(),
        coverages: marks.iter().map(|mark| coverage(inputs, *mark)).collect(),
        marks,
    }
}

/// One byte or a few more or less, or none at all.
fn resize(inputs: &mut Inputs, slice: &mut Vec<u8>) {
    let length = slice.len();
    let other = inputs.pick(&[0, length.saturating_sub(1), length + 1, length / 2, length * 3]);
    let byte = inputs.byte() & 3;
    slice.resize(other, byte);
}

/// What numbers 1 to 3 turn away.
fn break_frame(inputs: &mut Inputs, frame: &mut Frame) {
    let pixel = inputs.below(frame.marks.len().max(1) as u32) as usize;
    let wrong = inputs.pick(&[0, 1025, 1 << 16, 1 << 31, u32::MAX]);
    match inputs.below(10) {
        0 => frame.width = wrong,
        1 => frame.height = wrong,
        2 => frame.width = frame.width.wrapping_add(1),
        3 => resize(inputs, &mut frame.colors),
        4 => resize(inputs, &mut frame.coverages),
        5 => resize(inputs, &mut frame.marks),
        6..=7 => {
            if let Some(mark) = frame.marks.get_mut(pixel) {
                *mark = inputs.pick(&[4, 5, 6, 7, 8, 130, 255]);
            }
        }
        _ => {
            if pixel < frame.marks.len().min(frame.coverages.len()) {
                frame.marks[pixel] = inputs.pick(&[2, 3]);
                frame.coverages[pixel] = inputs.pick(&[8, 9, 15, 128, 255]);
            }
        }
    }
}

/// What number 4 turns away, and its last number that passes.
fn break_scissor(inputs: &mut Inputs, shape: &mut Shape) {
    let number = inputs.pick(&[65_535, 65_536, 65_536, 1 << 31, u32::MAX]);
    let scissor = &mut shape.scissor;
    let field = [&mut scissor.left, &mut scissor.top, &mut scissor.width, &mut scissor.height];
    *field.into_iter().nth(inputs.below(4) as usize).unwrap() = number;
}

/// What number 5 turns away but for long lists.
fn break_lists(inputs: &mut Inputs, shape: &mut Shape) {
    let vertex = inputs.below(shape.present.len().max(1) as u32) as usize;
    match inputs.below(6) {
        0 => shape.vertices.push(0.5),
        1 => drop(shape.vertices.pop()),
        2 => shape.present.push(1),
        3 => shape.indices.push(0),
        4 => drop(shape.indices.pop()),
        _ => match shape.present.get_mut(vertex) {
            Some(flag) => *flag = inputs.pick(&[2, 3, 255]),
            None => shape.present.push(2),
        },
    }
}

/// Lists as long as number 5 lets them be, or a little longer.
fn lengthen(inputs: &mut Inputs, shape: &mut Shape) {
    if inputs.flag() {
        let count = inputs.pick(&[4095, 4096, 4096, 4097, 4098]);
        shape.vertices.resize(6 * count, 0.25);
        shape.present.resize(count, 1);
    }
    if inputs.flag() {
        let longest = inputs.pick(&[12_288, 12_288, 12_291, 12_289]);
        let count = shape.present.len().max(1) as u32;
        let last = count.min(inputs.pick(&[4, 4096]));
        shape.indices.resize_with(longest, || count - 1 - inputs.below(last));
    }
}

fn shape(inputs: &mut Inputs, size: (u32, u32)) -> Shape {
    let mut shape = match inputs.below(8) {
        // One triangle over all of the frame, or nearly.
        0 => {
            let mut shape = triangles(inputs, size, 1);
            let (right, bottom) = (size.0 as f32 * 2.0, size.1 as f32 * 2.0);
            for (vertex, position) in [[0.0, -0.0], [right, 0.25], [0.125, bottom]].into_iter().enumerate() {
                shape.vertices[6 * vertex..6 * vertex + 2].copy_from_slice(&position);
            }
            shape
        }
        1 => {
            let shape = rectangle(inputs, size);
            let sides =
                Geometry { left: -0.0, top: 0.0, right: size.0 as f32, bottom: size.1 as f32, ..shape.geometry };
            Shape { geometry: sides, ..shape }
        }
        _ => any_shape(inputs, size),
    };
    if inputs.below(12) == 0 {
        flawed(inputs, &mut shape);
    }
    if inputs.below(24) == 0 {
        break_scissor(inputs, &mut shape);
    }
    if inputs.below(24) == 0 {
        break_lists(inputs, &mut shape);
    }
    shape
}

/// P and M alike and B of 1 - A: what a pixel in doubt has.
fn equal_sources(mux: u16) -> u16 {
    mux & !0x00cc | mux >> 8 & 0x00c0
}

/// Mostly a mode that passes. cvg_dst has two bits on the console, and more do the same as its last case.
fn mode(inputs: &mut Inputs) -> Mode {
    let any = inputs.mode();
    let cvg_dst = if inputs.below(8) == 0 { any.cvg_dst } else { any.cvg_dst % 4 };
    let blender_mux = if inputs.below(4) == 0 { equal_sources(any.blender_mux) } else { any.blender_mux };
    // With antialias on and force_blend off it is the coverage that decides.
    let antialias = any.antialias || inputs.flag();
    let force_blend = any.force_blend && inputs.flag();
    let mode = Mode { cvg_dst, blender_mux, antialias, force_blend, ..any };
    if inputs.below(24) == 0 {
        mode
    } else {
        passing(mode)
    }
}

fn uniform(inputs: &mut Inputs) -> Uniform {
    let temper = inputs.temper();
    let any = inputs.uniform(temper);
    let tex_enable = if inputs.below(48) == 0 { any.tex_enable } else { 0 };
    let uniform = Uniform { tex_enable, ..any };
    if inputs.below(24) == 0 {
        uniform
    } else {
        usable(inputs, uniform)
    }
}

/// P is the pixel's colour and M the memory's, by the pixel's alpha.
pub const OVER_MEMORY: u16 = 1 << 6;

/// (0 - 0) * 0 + Primitive, for the colour and for the alpha.
pub fn of_one_color(prim: Rgba) -> Uniform {
    Uniform { combine_l: 0x0000_01ff, combine_h: 0x0ffc_00fb, prim, ..Uniform::default() }
}

/// A solid panel: a rectangle with sides at quarters of a pixel, or a triangle, of one opaque colour, so that the fast
/// engine paints its full pixels in runs.
fn panel(inputs: &mut Inputs, (width, height): (u32, u32)) -> Draw {
    let any = inputs.mode();
    let cvg_dst = if inputs.flag() { 0 } else { inputs.pick(&[1, 2, 3, any.cvg_dst]) };
    let mode = passing(Mode { cvg_dst, blender_mux: OVER_MEMORY, ..any });
    let prim = Rgba { r: inputs.plain(), g: inputs.plain(), b: inputs.plain(), a: 1.0 };
    let scissor = Scissor { left: 0, top: 0, width, height };
    let shape = if inputs.flag() {
        Shape { cull: false, scissor, ..triangles(inputs, (width, height), 1) }
    } else {
        let mut sides = |size: u32| {
            let [a, b] = [0; 2].map(|_| inputs.below(4 * size + 2) as f32 / 4.0);
            [a.min(b), a.max(b)]
        };
        let ([left, right], [top, bottom]) = (sides(width), sides(height));
        Shape { scissor, geometry: Geometry { kind: RECTANGLE, left, top, right, bottom }, ..Shape::default() }
    };
    Draw { mode, uniform: of_one_color(prim), shape }
}

fn draw(inputs: &mut Inputs, size: (u32, u32), class: Class) -> Draw {
    let mut shape = shape(inputs, size);
    let long = match class {
        Class::Recorded => false,
        // On a large frame so many triangles take long.
        _ => size.0 * size.1 <= 144 && inputs.below(2000) == 0,
    };
    if long {
        lengthen(inputs, &mut shape);
    }
    // Otherwise a scissor leaves little of a large frame.
    if class == Class::Whole && inputs.below(4) == 0 {
        shape.scissor = Scissor { left: 0, top: 0, width: 65_535, height: 65_535 };
    }
    Draw { mode: mode(inputs), uniform: uniform(inputs), shape }
}

/// Mostly a pixel of the frame and a supported writer.
pub fn read(inputs: &mut Inputs, (width, height): (u32, u32)) -> Read {
    let n = width * height;
    let inside = inputs.below(n) as usize;
    let past = inputs.pick(&[n, n + 1, 1 << 20, u32::MAX]) as usize;
    let (fmt, siz) = match inputs.below(16) {
        0 => (inputs.byte(), inputs.byte()),
        1 => (inputs.below(6) as u8, inputs.below(5) as u8),
        2..=9 => (0, 2),
        _ => (2 + inputs.below(3) as u8, 1),
    };
    let rgb_dither = if inputs.below(8) == 0 { inputs.byte() } else { inputs.below(4) as u8 };
    Read { pixel: if inputs.below(16) == 0 { past } else { inside }, fmt, siz, rgb_dither, big_endian: inputs.flag() }
}

/// A frame, in one of ten cases one that numbers 1 to 3 may refuse, and a call on it.
fn frame_and<T>(inputs: &mut Inputs, class: Class, call: impl Fn(&mut Inputs, (u32, u32)) -> T) -> (Frame, T) {
    let size = size(inputs, class);
    let mut frame = frame(inputs, size);
    let call = call(inputs, size);
    if inputs.below(10) == 0 {
        break_frame(inputs, &mut frame);
    }
    (frame, call)
}

pub fn frame_and_read(inputs: &mut Inputs, class: Class) -> (Frame, Read) {
    frame_and(inputs, class, read)
}

pub fn frame_and_draw(inputs: &mut Inputs, class: Class) -> (Frame, Draw) {
    frame_and(inputs, class, |inputs, size| draw(inputs, size, class))
}

/// The place of an emitted pixel, mostly one of the first `about` or just behind them.
fn emitted_place(inputs: &mut Inputs, about: u32) -> u64 {
    match inputs.below(16) {
        0 => u64::MAX - u64::from(inputs.below(8)),
        1 => inputs.bits(),
        2 => inputs.pick(&[1 << 32, u64::from(u32::MAX), about.into()]),
        3..=6 => inputs.below(4).into(),
        _ => inputs.below(about + 2).into(),
    }
}

/// One of the pixels that the draw emits, which are `about` so many, or a run of them over slices of any bytes, mostly of one
/// length.
fn emitted(inputs: &mut Inputs, draw: Draw, about: u32) -> Step {
    let place = emitted_place(inputs, about);
    if inputs.flag() {
        return Step::EmittedPixel(Box::new(EmittedPixel { draw, k: place }));
    }
    let slots = inputs.below(about.min(20) + 3);
    let masks = if inputs.below(8) == 0 { inputs.below(slots + 3) } else { slots };
    let pixels = (0..slots).map(|_| inputs.word()).collect();
    let masks = (0..masks).map(|_| inputs.byte()).collect();
    Step::EmittedPixels(Box::new(EmittedPixels { draw, first: place, pixels, masks }))
}

/// The calls, some draws among which are asked for their pixels before they are made.
fn asked(inputs: &mut Inputs, steps: Vec<Step>, pixels: u32) -> Vec<Step> {
    let mut all = Vec::new();
    for step in steps {
        if let (Step::Draw(draw), 0) = (&step, inputs.below(4)) {
            all.push(emitted(inputs, draw.as_ref().clone(), pixels));
        }
        all.push(step);
    }
    all
}

impl List {
    pub fn at_random(inputs: &mut Inputs, class: Class) -> List {
        let size = size(inputs, class);
        let mut frame = frame(inputs, size);
        let broken = inputs.below(if class == Class::Recorded { 5 } else { 10 }) == 0;
        let calls = match class {
            Class::Small | Class::Any if broken => 3,
            Class::Small | Class::Any => 5 + inputs.below(16),
            Class::Recorded if broken => 2,
            Class::Recorded => 5 + inputs.below(4),
            Class::Whole => 6,
        };
        let step = |inputs: &mut Inputs| match inputs.below(3) {
            0 => Step::Read(read(inputs, size)),
            _ => Step::Draw(Box::new(draw(inputs, size, class))),
        };
        let mut steps: Vec<Step> = (0..calls).map(|_| step(inputs)).collect();
        if class != Class::Recorded {
            steps = asked(&mut inputs.aside(), steps, size.0 * size.1);
        }
        if broken && class != Class::Whole {
            break_frame(inputs, &mut frame);
            if inputs.flag() {
                break_frame(inputs, &mut frame);
            }
        }
        List { frame, steps }
    }

    /// Three calls, to be written down, most of which ask for the pixels of a draw that emits some.
    pub fn of_emitted(inputs: &mut Inputs) -> List {
        let size = size(inputs, Class::Recorded);
        let mut frame = frame(inputs, size);
        let step = |inputs: &mut Inputs| loop {
            let draw = draw(inputs, size, Class::Recorded);
            let about = EmittedList::of(&frame, &draw).pixels().len() as u32;
            match inputs.below(16) {
                0 => return Step::Draw(Box::new(draw)),
                // One that emits nothing, or is turned away, is mostly passed over.
                1..=10 if about == 0 => {}
                _ => return emitted(inputs, draw, about),
            }
        };
        let steps = (0..3).map(|_| step(inputs)).collect();
        if inputs.below(5) == 0 {
            break_frame(inputs, &mut frame);
        }
        List { frame, steps }
    }

    /// Two solid panels on a frame of which no coverage is known, to be written down, and behind each a word read of
    /// one of its pixels, which gets a word exactly if the coverage is known then.
    pub fn over_unknown(inputs: &mut Inputs) -> List {
        let size = (2 + inputs.below(5), 1 + inputs.below(3));
        let mut frame = frame(inputs, size);
        frame.marks.iter_mut().for_each(|mark| *mark %= 2);
        frame.coverages.fill_with(|| inputs.byte());
        let step = |inputs: &mut Inputs| loop {
            let draw = panel(inputs, size);
            let list = EmittedList::of(&frame, &draw);
            if !list.pixels().is_empty() {
                let (pixel, _) = inputs.pick(list.pixels());
                let read = Read { pixel: pixel as usize, fmt: 0, siz: 2, ..read(inputs, size) };
                return [Step::Draw(Box::new(draw)), Step::Read(read)];
            }
        };
        let steps = (0..2).flat_map(|_| step(inputs)).collect();
        List { frame, steps }
    }
}

/// The frame with other bytes where none is known.
pub fn twin(inputs: &mut Inputs, frame: &Frame) -> Frame {
    let mut twin = frame.clone();
    for (i, byte) in twin.colors.iter_mut().enumerate() {
        if frame.marks.get(i / 3).is_none_or(|mark| mark % 2 == 0) {
            *byte = inputs.byte();
        }
    }
    for (i, byte) in twin.coverages.iter_mut().enumerate() {
        if frame.marks.get(i).is_none_or(|mark| mark % 4 < 2) {
            *byte = inputs.byte();
        }
    }
    twin
}

/// A frame that knows everything: the bytes that are known stay, and the others are any that the console's memory may hold.
pub fn completed(inputs: &mut Inputs, frame: &Frame) -> Frame {
    let mut completed = frame.clone();
    for (pixel, mark) in frame.marks.iter().enumerate() {
        if mark % 2 == 0 {
            completed.colors[3 * pixel..3 * pixel + 3].fill_with(|| inputs.byte());
        }
        if mark % 4 < 2 {
            completed.coverages[pixel] = inputs.below(8) as u8;
        }
    }
    completed.marks.fill(3);
    completed
}

/// Whether a draw goes over many triangles.
pub fn is_long(draw: &Draw) -> bool {
    draw.shape.geometry.kind == TRIANGLES && draw.shape.indices.len() > 12_000
}
