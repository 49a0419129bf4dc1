//! writeback.rs: `admitted` and `rasterize`. The library's list of emitted pixels is made here as its definition makes it: every
//! pixel of the frame inside the scissor, triangle after triangle, row after row, from left to right.

use crate::calls::{InRange, Tally};
use crate::compare::{Line, Outcome, Part};
use crate::compare_combiner::any_combiner;
use crate::draws::Shape;
use crate::inputs::{shifted, Inputs};
use crate::library::{Combiner, Mode, Rgba};
use crate::rust::Fragment;
use crate::shapes::{any_shape, flawed, size, RECTANGLE};
use crate::words::{hex, Words};
use crate::{library, rust};
use std::iter::Sum;

/// Every pair of limits and neighbours, and hostile floats.
pub fn in_range(part: &Part) -> Outcome {
    const LIMITS: [f32; 6] = [-1024.0, 1023.75, -2048.0, 2047.75, 0.0, f32::NAN];
    let mut tally = Tally::default();
    let mut inputs = part.inputs();
    for x in LIMITS {
        for y in LIMITS {
            for by in 0..25 {
                tally.check(InRange { x: shifted(x, by % 5 - 2), y: shifted(y, by / 5 - 2) })?;
            }
        }
    }
    for _ in part.tries(4_000_000) {
        let (x, y) = (inputs.hostile(), inputs.hostile());
        let (limit, near) = (inputs.pick(&LIMITS), inputs.flag());
        tally.check(InRange { x: if near { limit } else { x }, y })?;
        tally.check(InRange { x, y: if near { limit } else { y } })?;
    }
    Ok(tally.compared)
}

fn alike(a: &Fragment, b: &Fragment) -> bool {
    (a.0, a.1) == (b.0, b.1) && a.2.alike(&b.2) && a.3.alike(&b.3)
}

/// A draw on a frame of some size, with its combiner.
struct Case {
    size: (u32, u32),
    mode: Mode,
    combiner: Combiner,
    shape: Shape,
}

impl Case {
    fn at_random(inputs: &mut Inputs, flaw: bool) -> Self {
        // every pixel of the frame is asked for, so a frame is not too large here; large ones are drawn on in compare_frame.rs
        let (width, height) = size(inputs);
        let size = if width * height > 65_536 { (width.min(256), height.min(256)) } else { (width, height) };
        let temper = inputs.temper();
        let combiner = any_combiner(inputs, temper);
        let mut shape = any_shape(inputs, size);
        if flaw {
            flawed(inputs, &mut shape);
        }
        Case { size, mode: inputs.mode(), combiner, shape }
    }

    fn original(&self) -> original::writeback::Shape {
        rust::shape(self.mode, rust::parts(self.combiner), &self.shape)
    }

    /// What it is, with both answers.
    fn difference(&self, call: &str, library: &str, original: &str) -> String {
        let (width, height) = self.size;
        format!(
            "{call}: DIFFERENT\n  width, height: {width} {height}\n  mode: {}\n  combiner: {}\n  \
             cull, scissor, geometry, lists: {}\n  library: {library}\n  Rust: {original}",
            hex(&self.mode),
            hex(&self.combiner),
            self.shape.text()
        )
    }

    /// The pixels of the frame inside the scissor, along one axis.
    fn inside(from: u32, length: u32, limit: u32) -> std::ops::Range<u32> {
        from..(from + length).min(limit)
    }

    fn library_list(&self) -> Vec<Fragment> {
        let (width, height) = self.size;
        let shape = &self.shape;
        let count = if shape.geometry.kind == RECTANGLE { 1 } else { shape.indices.len() / 3 };
        let mut list = Vec::new();
        for i in 0..count {
            for y in Self::inside(shape.scissor.top, shape.scissor.height, height) {
                for x in Self::inside(shape.scissor.left, shape.scissor.width, width) {
                    let fragment = library::pixel(self.mode, self.combiner, shape, i, y, x);
                    if fragment.mask != 0 {
                        // A mask has eight bits; a larger one must not pass for one of them.
                        let mask = u8::try_from(fragment.mask).unwrap_or_default();
                        list.push(((y * width + x) as usize, mask, fragment.rgba, fragment.shade_alpha));
                    }
                }
            }
        }
        list
    }

    fn check_list(&self, original: &original::writeback::Shape, counts: &mut Emissions) -> Result<(), String> {
        let (library, original) = (self.library_list(), rust::emitted(original, self.size));
        let pairs = library.iter().zip(&original);
        let same = pairs.take_while(|(a, b)| alike(a, b)).count();
        if same < library.len().max(original.len()) {
            let shown = |list: &[Fragment]| match list.get(same) {
                Some((pixel, mask, color, alpha)) => {
                    format!("pixel {pixel}, mask {mask:02x}, colour {}, shade alpha {}", hex(color), hex(alpha))
                }
                None => "no more".into(),
            };
            let call = format!("pixel (after {same} pixels alike)");
            return Err(self.difference(&call, &shown(&library), &shown(&original)));
        }
        counts.admitted += 1;
        counts.empty += u64::from(original.is_empty());
        counts.pixels += original.len() as u64;
        counts.partial += original.iter().filter(|emitted| emitted.1 != 0xff).count() as u64;
        Ok(())
    }

    fn check(&self, counts: &mut Emissions) -> Result<(), String> {
        let original = self.original();
        let (library, admitted) = (library::admitted(self.combiner, &self.shape), original.admitted());
        if library != admitted {
            return Err(self.difference("admitted", &library.to_string(), &admitted.to_string()));
        }
        // `Combiner::new` refuses a combiner without a colour, so that `rasterize` never sees it.
        let colored = rust::combiner_color(self.combiner, Rgba::default()).some;
        match (admitted, colored) {
            (true, true) => self.check_list(&original, counts)?,
            (true, false) => counts.colorless += 1,
            (false, _) => counts.away += 1,
        }
        Ok(())
    }
}

/// How many draws of each kind were compared, and how many pixels.
#[derive(Default)]
pub struct Emissions {
    admitted: u64,
    empty: u64,
    away: u64,
    colorless: u64,
    pixels: u64,
    partial: u64,
}

impl Sum for Emissions {
    fn sum<I: Iterator<Item = Self>>(parts: I) -> Self {
        parts.fold(Self::default(), |a, b| Emissions {
            admitted: a.admitted + b.admitted,
            empty: a.empty + b.empty,
            away: a.away + b.away,
            colorless: a.colorless + b.colorless,
            pixels: a.pixels + b.pixels,
            partial: a.partial + b.partial,
        })
    }
}

impl Emissions {
    pub fn lines(&self) -> Vec<Line> {
        let named = |name: &str, number: u64| (name.to_string(), number);
        vec![
            (
                "admitted",
                vec![
                    named("admitted", self.admitted),
                    named("turned away", self.away),
                    named("admitted without a colour", self.colorless),
                ],
            ),
            (
                "rasterize",
                vec![
                    named("draws", self.admitted),
                    named("of them empty", self.empty),
                    named("pixels", self.pixels),
                    named("of them covered in part", self.partial),
                ],
            ),
        ]
    }
}

/// Admitted draws and ones that are turned away, until there are enough of both.
pub fn rasterize(part: &Part) -> Result<Emissions, String> {
    let goal = part.tries(330_000).end;
    let mut inputs = part.inputs();
    let mut counts = Emissions::default();
    while counts.admitted < goal || counts.away < goal {
        let flaw = counts.admitted >= goal || (counts.away < goal && inputs.flag());
        Case::at_random(&mut inputs, flaw).check(&mut counts)?;
    }
    Ok(counts)
}
