//! What is timed: frames, draws and word reads, the same for both sides.

use oracle::draws::{Draw, Frame, Read, Shape};
use oracle::library::{self, Engine, Geometry, Mode, Rgba, Scissor, Uniform};

pub struct Scene {
    pub name: &'static str,
    pub frame: Frame,
    pub draws: Vec<Draw>,
    /// How the words are read after the draws.
    pub reads: Reads,
}

/// How every word is read. The library takes one run in both cases.
#[derive(Clone, Copy, PartialEq)]
pub enum Reads {
    Nothing,
    /// The Rust by single word reads, each with numbers 1 to 3: the time grows with the square of the pixels, so that it
    /// reads the first ones alone.
    Singly {
        rgb_dither: u8,
    },
    /// The Rust pixel after pixel, with numbers 1 to 3 once.
    Once {
        rgb_dither: u8,
    },
}

/// How many pixels the Rust reads singly.
pub const SINGLE_READS: usize = 400;

// 16-bit words.
pub const FMT: u8 = 0;
pub const SIZ: u8 = 2;
pub const BIG_ENDIAN: bool = true;

/// Two bytes and a number for each pixel of the frame, and how many of them were read.
pub struct Words {
    pub bytes: Vec<u8>,
    pub numbers: Vec<u8>,
    pub read: usize,
}

impl Words {
    pub fn none(scene: &Scene) -> Self {
        let pixels = if scene.reads == Reads::Nothing { 0 } else { scene.frame.marks.len() };
        Words { bytes: vec![0; 2 * pixels], numbers: vec![0; pixels], read: 0 }
    }

    /// No number is 165, so that an entry that no read wrote shows.
    pub fn clear(&mut self) {
        self.bytes.fill(165);
        self.numbers.fill(165);
        self.read = 0;
    }

    /// Whether the library has the Rust's words, and each side read as many as it should.
    pub fn agrees(&self, library: &Words, scene: &Scene) -> bool {
        let (singly, all) = (matches!(scene.reads, Reads::Singly { .. }), self.numbers.len());
        self.read == if singly { SINGLE_READS } else { all }
            && library.read == all
            && self.bytes[..2 * self.read] == library.bytes[..2 * self.read]
            && self.numbers[..self.read] == library.numbers[..self.read]
    }
}

/// A repeatable sequence of numbers (xorshift).
struct Numbers(u64);

impl Numbers {
    fn next(&mut self) -> u64 {
        self.0 ^= self.0 << 13;
        self.0 ^= self.0 >> 7;
        self.0 ^= self.0 << 17;
        self.0
    }

    /// From 0.0 up to 1.0.
    fn unit(&mut self) -> f32 {
        (self.next() >> 40) as f32 / (1 << 24) as f32
    }
}

const MARKED: u8 = 3;
const UNMARKED: u8 = 0;

fn frame(width: u32, height: u32, mark: u8) -> Frame {
    let pixels = (width * height) as usize;
    let colors = (0..3 * pixels).map(|i| (i * 7) as u8).collect();
    Frame { width, height, colors, coverages: vec![7; pixels], marks: vec![mark; pixels] }
}

/// Every third of the upright stripes of 100 pixels is unknown: number 3 finds marks of both kinds.
fn striped(frame: &Frame) -> Frame {
    let mut striped = frame.clone();
    let width = frame.width as usize;
    for (pixel, mark) in striped.marks.iter_mut().enumerate() {
        if pixel % width / 100 % 3 == 1 {
            *mark = UNMARKED;
        }
    }
    striped
}

// Selector numbers of the combiner's second cycle, in their slots: only these are used.
const SHADE: u32 = 4;
const PRIMITIVE: u32 = 3;
const ZERO_A: u32 = 15;
const ZERO_B: u32 = 15;
const ZERO_C: u32 = 31;
const ZERO_ALPHA: u32 = 7;

/// The combine words of (0 - 0) * 0 + d in both cycles' second slots.
fn constant(d: u32, alpha_d: u32) -> (u32, u32) {
    let w0 = (ZERO_A << 5) | ZERO_C;
    let w1 = (ZERO_B << 24) | (ZERO_ALPHA << 21) | (ZERO_ALPHA << 18) | (d << 6) | (ZERO_ALPHA << 3) | alpha_d;
    (w0, w1)
}

fn uniform((combine_l, combine_h): (u32, u32), prim: Rgba) -> Uniform {
    Uniform { combine_l, combine_h, prim, ..Uniform::default() }
}

/// P and M by 14 and 6, A and B by 10 and 2: the pixel and the memory, by the pixel's alpha.
const OVER_MEMORY: u16 = 1 << 6;

fn opaque() -> Mode {
    Mode { antialias: true, blender_mux: OVER_MEMORY, ..Mode::default() }
}

fn translucent() -> Mode {
    Mode { force_blend: true, antialias: true, blender_mux: OVER_MEMORY, ..Mode::default() }
}

fn full(frame: &Frame) -> Scissor {
    Scissor { left: 0, top: 0, width: frame.width, height: frame.height }
}

fn triangle(numbers: &mut Numbers, frame: &Frame, size: f32, alpha: f32) -> ([f32; 18], f32) {
    let (width, height) = (frame.width as f32, frame.height as f32);
    let center = [numbers.unit() * width, numbers.unit() * height];
    let mut floats = [0.0; 18];
    for corner in floats.chunks_mut(6) {
        corner[0] = (center[0] + (numbers.unit() - 0.5) * size).clamp(-1024.0, 1023.75);
        corner[1] = (center[1] + (numbers.unit() - 0.5) * size).clamp(-2048.0, 2047.75);
        for channel in &mut corner[2..5] {
            *channel = numbers.unit();
        }
        corner[5] = alpha;
    }
    (floats, size)
}

fn triangles(frame: &Frame, mode: Mode, uniform: Uniform, sizes: &[f32], count: usize, alpha: f32, seed: u64) -> Draw {
    let mut numbers = Numbers(seed);
    let mut shape = Shape {
        cull: false,
        scissor: full(frame),
        geometry: Geometry { kind: 1, ..Geometry::default() },
        ..Shape::default()
    };
    for i in 0..count {
        let (floats, _) = triangle(&mut numbers, frame, sizes[i % sizes.len()], alpha);
        shape.vertices.extend(floats);
        shape.present.extend([1; 3]);
        let first = 3 * i as u32;
        shape.indices.extend([first, first + 1, first + 2]);
    }
    Draw { mode, uniform, shape }
}

/// A list as long as number 5 lets through: 1,365 triangles of 1 to 4 pixels, each three times.
fn tiny_triangles(frame: &Frame, uniform: Uniform) -> Draw {
    let mut draw = triangles(frame, opaque(), uniform, &[1.0, 2.0, 3.0, 4.0], 1365, 1.0, 51);
    draw.shape.indices = draw.shape.indices.repeat(3);
    draw
}

fn rectangle(frame: &Frame, mode: Mode, uniform: Uniform, [left, top, right, bottom]: [f32; 4]) -> Draw {
    let shape =
        Shape { scissor: full(frame), geometry: Geometry { kind: 2, left, top, right, bottom }, ..Shape::default() };
    Draw { mode, uniform, shape }
}

const RED: Rgba = Rgba { r: 0.8, g: 0.3, b: 0.1, a: 1.0 };
const GLASS: Rgba = Rgba { r: 0.2, g: 0.7, b: 0.9, a: 0.5 };

/// Edges from 4 to 400 pixels.
const MIXED: [f32; 6] = [4.0, 12.0, 30.0, 80.0, 200.0, 400.0];

pub fn all() -> Vec<Scene> {
    let page = frame(320, 240, MARKED);
    let large = frame(1024, 1024, MARKED);
    // Bytes that no coverage has: a mark that is set without its byte shows.
    let unknown = Frame { coverages: vec![200; 1024 * 1024], ..frame(1024, 1024, UNMARKED) };
    let shaded = uniform(constant(SHADE, SHADE), RED);
    let flat = uniform(constant(PRIMITIVE, PRIMITIVE), RED);
    let glass = uniform(constant(PRIMITIVE, PRIMITIVE), GLASS);
    let sides = [0.5, 0.25, 1020.0, 1019.5];
    let small =
        |mode, uniform| (0..400).map(|i| triangles(&large, mode, uniform, &[10.0], 2, 1.0, 7 + i)).collect::<Vec<_>>();
    let tiny = |name, frame: &Frame, uniform| Scene {
        name,
        draws: vec![tiny_triangles(frame, uniform); 4],
        frame: frame.clone(),
        reads: Reads::Nothing,
    };
    let words = |name, reads| Scene { name, draws: vec![], frame: large.clone(), reads };
    vec![
        Scene {
            name: "shaded triangles of mixed size",
            draws: vec![triangles(&page, opaque(), shaded, &MIXED, 600, 1.0, 1)],
            frame: page.clone(),
            reads: Reads::Nothing,
        },
        Scene {
            name: "shaded triangles, blended with memory",
            draws: vec![triangles(&page, translucent(), shaded, &MIXED, 600, 0.5, 2)],
            frame: page.clone(),
            reads: Reads::Nothing,
        },
        Scene {
            name: "flat triangles",
            draws: vec![triangles(&page, opaque(), flat, &MIXED, 600, 1.0, 3)],
            frame: page.clone(),
            reads: Reads::Nothing,
        },
        Scene {
            name: "flat triangles, blended with memory",
            draws: vec![triangles(&page, translucent(), glass, &MIXED, 600, 1.0, 4)],
            frame: page.clone(),
            reads: Reads::Nothing,
        },
        Scene {
            name: "large rectangles",
            draws: vec![rectangle(&large, opaque(), flat, sides); 4],
            frame: large.clone(),
            reads: Reads::Nothing,
        },
        Scene {
            name: "large rectangles, blended with memory",
            draws: vec![rectangle(&large, translucent(), glass, sides); 4],
            frame: large.clone(),
            reads: Reads::Nothing,
        },
        // One, because a second would find its coverages known.
        Scene {
            name: "a large rectangle over an unknown frame",
            draws: vec![rectangle(&unknown, opaque(), flat, sides)],
            frame: unknown,
            reads: Reads::Nothing,
        },
        Scene {
            name: "400 draws of two small triangles, 1024 x 1024",
            draws: small(opaque(), shaded),
            frame: large.clone(),
            reads: Reads::Nothing,
        },
        Scene {
            name: "the same, a third of the frame unknown",
            draws: small(opaque(), shaded),
            frame: striped(&large),
            reads: Reads::Nothing,
        },
        tiny("tiny shaded triangles", &page, shaded),
        tiny("tiny flat triangles", &page, flat),
        tiny("tiny shaded triangles, 1024 x 1024", &large, shaded),
        tiny("tiny flat triangles, 1024 x 1024", &large, flat),
        words("every word, a run; Rust: 400 single reads", Reads::Singly { rgb_dither: 0 }),
        words("every word, a run; Rust: numbers 1 to 3 once", Reads::Once { rgb_dither: 0 }),
        words("every word undithered, a run; Rust: numbers 1 to 3 once", Reads::Once { rgb_dither: 3 }),
    ]
}

/// The library's side: how many pixels were emitted.
pub fn run(scene: &Scene, frame: &mut Frame, words: &mut Words) -> u64 {
    let mut pixels = 0;
    for draw in &scene.draws {
        let answer = library::draw(Engine::Fast, frame, draw);
        assert_eq!(answer.number, 0);
        pixels += answer.pixels;
    }
    match scene.reads {
        Reads::Nothing => {}
        Reads::Singly { rgb_dither } | Reads::Once { rgb_dither } => {
            let read = Read { pixel: 0, fmt: FMT, siz: SIZ, rgb_dither, big_endian: BIG_ENDIAN };
            let answer = library::read_words(frame, &read, &mut words.bytes, &mut words.numbers);
            assert_eq!(answer.number, 0);
            words.read = answer.words as usize;
        }
    }
    pixels
}
