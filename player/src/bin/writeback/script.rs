//! A file's statements (docs/FORMAT.md): settings, which stay until they are set again, and what is done with them.

use crate::fields;
use crate::words::{self, quoted, Words};
use std::ops::RangeInclusive;
use writeback::{CombinerUniform, Draw, Engine, Geometry, RenderMode, Scissor, Vertex, Vertices, Writer};

/// The frame's sizes; others are number 1.
const SIDES: RangeInclusive<u64> = 1..=1024;

/// The most words that one statement reads: as many as the largest frame has pixels.
const LONGEST_RUN: u64 = 1024 * 1024;

/// The most pixels that one statement goes through sample by sample.
const LONGEST_WALK: u64 = 1024;

/// The statements that draw, and that may stand behind `masks` and `samples`.
const DRAWS: [(&str, &str); 3] = [("triangles", "triangles"), ("rectangle", "rectangle"), ("nothing", "nothing")];

/// Pixels of the frame, all inside it.
#[derive(Clone, Copy)]
pub struct Area {
    pub left: usize,
    pub top: usize,
    pub width: usize,
    pub height: usize,
}

/// What the game itself writes to every pixel of an area.
#[derive(Clone, Copy)]
pub enum Bytes {
    Color([u8; 3]),
    Coverage(u8),
    Unknown,
    Mark(u8),
}

/// What there is to do on the frame. There is one of them at a time, so that its size does not matter.
#[allow(clippy::large_enum_variant)]
pub enum Step<'a> {
    Write(Area, Bytes),
    /// A draw, with its keyword.
    Draw(&'static str, Draw<'a>),
    /// The pixels that a draw would emit.
    Masks(&'static str, Draw<'a>),
    /// A draw as the slow engine goes through it, and the pixels that it visits.
    Samples(&'static str, Draw<'a>, Area),
    Word {
        pixel: usize,
        writer: Writer,
    },
    Words {
        first: usize,
        count: usize,
        writer: Writer,
    },
}

/// The settings, and the frame's size once it is known.
#[derive(Default)]
pub struct Script {
    size: Option<(u32, u32)>,
    mode: RenderMode,
    uniform: CombinerUniform,
    cull: bool,
    scissor: Scissor,
    vertices: Vertices,
    engine: Engine,
    writer: Writer,
    /// The indices of the last draw, kept for their memory.
    indices: Vec<u32>,
}

fn index(word: &str) -> Result<u32, String> {
    Ok(words::whole(word, 0..=u32::MAX.into())? as u32)
}

fn flag(word: &str) -> Result<u8, String> {
    Ok(words::whole(word, 0..=u8::MAX.into())? as u8)
}

fn area(words: &mut Words, (width, height): (u32, u32)) -> Result<Area, String> {
    let [left, top, across, down] = words.u32s("the area")?.map(u64::from);
    if left + across > width.into() || top + down > height.into() {
        return Err(format!("the area is not inside the frame, which is {width} by {height}"));
    }
    let [left, top, width, height] = [left, top, across, down].map(|number| number as usize);
    Ok(Area { left, top, width, height })
}

/// The pixels of the frame inside a scissor.
fn inside(scissor: Scissor, (width, height): (u32, u32)) -> Area {
    let part = |first: u32, count: u32, size: u32| {
        let start = first.min(size);
        (start as usize, (first.saturating_add(count).min(size) - start) as usize)
    };
    let (left, across) = part(scissor.left, scissor.width, width);
    let (top, down) = part(scissor.top, scissor.height, height);
    Area { left, top, width: across, height: down }
}

/// A pixel by its number, or as `X,Y`.
fn pixel(words: &mut Words, (width, _): (u32, u32)) -> Result<usize, String> {
    let word = words.needed("the pixel")?;
    let wrong = |wrong| format!("the pixel: {wrong}");
    let number = match word.split_once(',') {
        None => words::whole(word, 0..=usize::MAX as u64).map_err(wrong)?,
        Some((x, y)) => {
            let x = words::whole(x, 0..=u64::from(width) - 1).map_err(wrong)?;
            let y = words::whole(y, 0..=u32::MAX.into()).map_err(wrong)?;
            y * u64::from(width) + x
        }
    };
    Ok(number as usize)
}

impl Script {
    /// Reads a line. A setting, a comment and an empty line leave nothing to do.
    pub fn line(&mut self, line: &str) -> Result<Option<Step<'_>>, String> {
        let mut words = Words::of(line);
        let Some(keyword) = words.next() else {
            return Ok(None);
        };
        if self.set(keyword, &mut words)? {
            words.end()?;
            return Ok(None);
        }
        self.step(keyword, &mut words).map(Some)
    }

    /// The frame's size, which the file's first statement gives.
    pub fn size(&self) -> Result<(u32, u32), String> {
        self.size.ok_or_else(|| "the first statement must be: frame WIDTH HEIGHT".into())
    }

    /// Whether the keyword is a setting's; it is set then.
    fn set(&mut self, keyword: &str, words: &mut Words) -> Result<bool, String> {
        if keyword != "frame" {
            self.size()?;
        }
        match keyword {
            "frame" => self.frame(words)?,
            "mode" => fields::mode(&mut self.mode, words)?,
            "blender" => self.mode.blender_mux = fields::blender(words)?,
            "uniform" => fields::uniform(&mut self.uniform, words)?,
            "combine" => (self.uniform.combine_l, self.uniform.combine_h) = fields::combine(words)?,
            "cull" => self.cull = words.flag("cull")?,
            "scissor" => {
                let [left, top, width, height] = words.u32s("the scissor")?;
                self.scissor = Scissor { left, top, width, height };
            }
            "engine" => self.engine = words.one_of("engine", &fields::ENGINES)?,
            "vertex" => {
                let [x, y, r, g, b, a] = words.floats("the vertex")?;
                self.vertices.push(Some(Vertex { position: [x, y], color: [r, g, b, a] }));
            }
            "absent" => self.vertices.push(None),
            "floats" => {
                let floats = words.all("the floats", words::float)?;
                self.vertices.parts_mut().0.extend(floats);
            }
            "flags" => {
                let flags = words.all("the flags", flag)?;
                self.vertices.parts_mut().1.extend(flags);
            }
            "no_vertices" => self.vertices.clear(),
            "writer" => fields::writer(&mut self.writer, words)?,
            _ => return Ok(false),
        }
        Ok(true)
    }

    fn step(&mut self, keyword: &str, words: &mut Words) -> Result<Step<'_>, String> {
        if let Some((name, _)) = DRAWS.iter().find(|(name, _)| *name == keyword) {
            return Ok(Step::Draw(name, self.draw(name, words)?));
        }
        match keyword {
            "color" => self.write(words, |words| Ok(Bytes::Color(words.u8s("the color")?))),
            "coverage" => self.write(words, |words| Ok(Bytes::Coverage(words.u8("the coverage")?))),
            "unknown" => self.write(words, |_| Ok(Bytes::Unknown)),
            "mark" => self.write(words, |words| Ok(Bytes::Mark(words.u8("the mark")?))),
            "masks" => {
                let name = words.one_of("masks", &DRAWS)?;
                Ok(Step::Masks(name, self.draw(name, words)?))
            }
            "samples" => {
                let size = self.size()?;
                let name = words.one_of("samples", &DRAWS)?;
                let draw = self.draw(name, words)?;
                let area = inside(draw.scissor, size);
                let shapes = match draw.geometry {
                    Geometry::Nothing => 0,
                    Geometry::Triangles => draw.indices.len() / 3,
                    Geometry::Rectangle { .. } => 1,
                };
                let visited = (shapes * area.width * area.height) as u64;
                if visited > LONGEST_WALK {
                    return Err(format!("samples: the draw visits {visited} pixels, and the most is {LONGEST_WALK}"));
                }
                Ok(Step::Samples(name, draw, area))
            }
            "word" => {
                let pixel = pixel(words, self.size()?)?;
                words.end()?;
                Ok(Step::Word { pixel, writer: self.writer })
            }
            "words" => {
                let first = pixel(words, self.size()?)?;
                let count = words.whole("the count", 0..=LONGEST_RUN)? as usize;
                words.end()?;
                Ok(Step::Words { first, count, writer: self.writer })
            }
            _ => Err(format!("{} is no statement", quoted(keyword))),
        }
    }

    fn frame(&mut self, words: &mut Words) -> Result<(), String> {
        if self.size.is_some() {
            return Err("the frame has its size already".into());
        }
        let (width, height) = (words.whole("the width", SIDES)?, words.whole("the height", SIDES)?);
        self.size = Some((width as u32, height as u32));
        Ok(())
    }

    fn write(
        &mut self,
        words: &mut Words,
        bytes: impl Fn(&mut Words) -> Result<Bytes, String>,
    ) -> Result<Step<'_>, String> {
        let area = area(words, self.size()?)?;
        let bytes = bytes(words)?;
        words.end()?;
        Ok(Step::Write(area, bytes))
    }

    /// The draw of one of [`DRAWS`]. The words that are left, behind a rectangle's sides, are the indices.
    fn draw(&mut self, name: &str, words: &mut Words) -> Result<Draw<'_>, String> {
        let geometry = match name {
            "triangles" => Geometry::Triangles,
            "rectangle" => {
                let [left, top, right, bottom] = words.floats("the sides")?;
                Geometry::Rectangle { left, top, right, bottom }
            }
            _ => Geometry::Nothing,
        };
        self.indices = words.all("the indices", index)?;
        let Script { mode, uniform, cull, scissor, vertices, indices, engine, .. } = self;
        let (mode, uniform, cull, scissor, engine) = (*mode, *uniform, *cull, *scissor, *engine);
        Ok(Draw { mode, uniform, cull, scissor, geometry, vertices, indices, engine })
    }
}
