//! A draw as the slow engine goes through it: the edges of each triangle, every pixel inside the scissor with its eight
//! samples, and a picture of them. docs/RASTERISER.md explains the numbers.
//!
//! The library answers masks alone. What leads to them is worked out here by docs/RULES.md (Emitted pixels), in whole numbers,
//! and what comes of it is held to what the library's slow engine emits.

use crate::script::Area;
use std::fmt;
use writeback::{Draw, Engine, Frame, Geometry, RenderMode, SAMPLES};

/// x and y in quarters of a pixel.
type Corner = [i64; 2];

/// Halves are rounded away from zero.
fn quarters(position: f32) -> i64 {
    (4.0 * f64::from(position)).round() as i64
}

/// How far x moves in a row of pixels, in 65,536ths of a pixel: its size rounded up, and the result lowered to a multiple of 8.
fn slope(a: Corner, b: Corner) -> i64 {
    let (across, down) = ((b[0] - a[0]) << 16, (b[1] - a[1]).max(1));
    let size = (across.abs() + down - 1) / down;
    (across.signum() * size) & !7
}

/// An edge: its slope, and its x on a quarter line, in 65,536ths of a pixel.
#[derive(Clone, Copy)]
pub struct Edge {
    slope: i64,
    x: i64,
    line: i64,
}

impl Edge {
    /// From the first line of the corner's row.
    fn from_row(a: Corner, b: Corner) -> Edge {
        let (slope, line) = (slope(a, b), a[1] & !3);
        Edge { slope, x: (a[0] << 14) - slope / 4 * (a[1] - line), line }
    }

    /// From the corner's own line.
    fn from_corner(a: Corner, b: Corner) -> Edge {
        Edge { slope: slope(a, b), x: a[0] << 14, line: a[1] }
    }

    /// Its x on a quarter line in eighths of a pixel. Samples stand at even ones; an odd one stands for all between two of them.
    fn crossing(self, line: i64) -> i64 {
        let x = self.x + self.slope / 4 * (line - self.line);
        (x >> 13) & !1 | i64::from(x & 0x3ffe != 0)
    }
}

pub enum Shape {
    /// With the reason.
    Nothing(&'static str),
    Triangle {
        corners: [Corner; 3],
        high: Edge,
        middle: Edge,
        low: Edge,
        left_major: bool,
    },
    /// Left, top, right and bottom.
    Rectangle([f32; 4]),
}

impl Shape {
    /// The first triangle of an accepted draw.
    fn triangle(draw: &Draw) -> Shape {
        let vertex = |i: usize| {
            let at = 6 * draw.indices[i] as usize;
            [draw.vertices.floats()[at], draw.vertices.floats()[at + 1]]
        };
        let [a, b, c] = [vertex(0), vertex(1), vertex(2)];
        if draw.cull && (b[0] - a[0]) * (c[1] - a[1]) - (b[1] - a[1]) * (c[0] - a[0]) >= 0.0 {
            return Shape::Nothing("culled");
        }
        let mut sorted = [a, b, c];
        sorted.sort_by(|a, b| a[1].total_cmp(&b[1]).then(a[0].total_cmp(&b[0])));
        let corners = sorted.map(|vertex| vertex.map(quarters));
        let [a, b, c] = corners;
        if (b[0] - a[0]) * (c[1] - a[1]) == (b[1] - a[1]) * (c[0] - a[0]) {
            return Shape::Nothing("no area in quarters of a pixel");
        }
        let (high, middle, low) = (Edge::from_row(a, c), Edge::from_row(a, b), Edge::from_corner(b, c));
        Shape::Triangle { corners, high, middle, low, left_major: high.slope <= middle.slope }
    }

    /// What is covered of a quarter line, in eighths of a pixel: from the first number on, up to the second.
    pub fn span(&self, line: i64) -> Option<[i64; 2]> {
        match *self {
            Shape::Nothing(_) => None,
            Shape::Triangle { corners: [[_, top], [_, turn], [_, bottom]], high, middle, low, left_major } => {
                let major = high.crossing(line);
                let minor = if line < turn { middle } else { low }.crossing(line);
                let span = if left_major { [major, minor] } else { [minor, major] };
                (top <= line && line < bottom).then_some(span)
            }
            Shape::Rectangle(sides) => {
                let [left, top, right, bottom] = sides.map(f64::from);
                let y = line as f64 / 4.0;
                let covered = top <= y && y < bottom && !left.is_nan() && !right.is_nan();
                covered.then(|| [left, right].map(|side| (8.0 * side).ceil() as i64))
            }
        }
    }

    /// Whether a sample is hit: on the left edge it is, and on the right one it is not.
    pub fn hit(&self, line: i64, at: i64) -> bool {
        self.span(line).is_some_and(|[left, right]| left <= at && at < right)
    }

    fn mask(&self, x: usize, y: usize) -> u8 {
        samples(x, y).fold(0, |mask, (line, at)| mask << 1 | u8::from(self.hit(line, at)))
    }
}

/// The quarter lines of a pixel's samples, and where they stand on them, in eighths of a pixel.
pub fn samples(x: usize, y: usize) -> impl Iterator<Item = (i64, i64)> {
    SAMPLES
        .into_iter()
        .map(move |[right, down]| ((4 * y) as i64 + i64::from(down / 2), (8 * x) as i64 + i64::from(right)))
}

/// One triangle, or the rectangle.
pub struct Walk {
    title: String,
    pub shape: Shape,
    area: Area,
    /// The frame's width.
    width: usize,
}

/// The pixels and masks that the library emits, and those that the rules give here.
fn compare(emitted: &[(usize, u8)], expected: &[(usize, u8)]) -> Result<(), String> {
    if emitted == expected {
        return Ok(());
    }
    let place = emitted.iter().zip(expected).take_while(|(a, b)| a == b).count();
    let told = |list: &[(usize, u8)]| match list.get(place) {
        Some((pixel, mask)) => format!("pixel {pixel} with mask {mask:02x}"),
        None => "no pixel".into(),
    };
    let (emitted, expected) = (told(emitted), told(expected));
    Err(format!("samples: at place {place} the library's slow engine emits {emitted}, and the rules give {expected}"))
}

impl Walk {
    /// The shapes of an accepted draw in turn, over the part of the frame inside its scissor.
    pub fn all(frame: &Frame, draw: &Draw, area: Area) -> Result<Vec<Walk>, String> {
        let walk = |draw: Draw, title: String, shape: Shape| {
            let walk = Walk { title, shape, area, width: frame.width() as usize };
            walk.check(frame, &draw).map(|()| walk)
        };
        match draw.geometry {
            Geometry::Nothing => Ok(vec![]),
            Geometry::Rectangle { left, top, right, bottom } => {
                let title = format!("rectangle {left} {top} {right} {bottom}");
                Ok(vec![walk(*draw, title, Shape::Rectangle([left, top, right, bottom]))?])
            }
            Geometry::Triangles => {
                let triangle = |indices: &[u32]| {
                    let draw = Draw { indices, ..*draw };
                    walk(draw, format!("triangle {} {} {}", indices[0], indices[1], indices[2]), Shape::triangle(&draw))
                };
                draw.indices.chunks(3).map(triangle).collect()
            }
        }
    }

    pub fn rows(&self) -> std::ops::Range<usize> {
        self.area.top..self.area.top + self.area.height
    }

    pub fn columns(&self) -> std::ops::Range<usize> {
        self.area.left..self.area.left + self.area.width
    }

    /// With antialias every pixel with a sample is emitted, and without it those with the first one.
    fn check(&self, frame: &Frame, draw: &Draw) -> Result<(), String> {
        let pixel = |y: usize, x: usize| (y * self.width + x, self.shape.mask(x, y));
        let visited = self.rows().flat_map(|y| self.columns().map(move |x| (y, x))).map(|(y, x)| pixel(y, x));
        let visited: Vec<(usize, u8)> = visited.collect();
        for (antialias, needed) in [(true, 0xff), (false, 0x80)] {
            let draw = Draw { mode: RenderMode { antialias, ..draw.mode }, engine: Engine::Slow, ..*draw };
            let emitted = frame.emitted_pixels(&draw).map_err(|refusal| refusal.to_string())?;
            let emitted: Vec<_> = emitted.iter().map(|emitted| (emitted.pixel, emitted.mask)).collect();
            let expected: Vec<_> = visited.iter().copied().filter(|(_, mask)| mask & needed != 0).collect();
            compare(&emitted, &expected)?;
        }
        Ok(())
    }

    fn edges(&self, f: &mut fmt::Formatter) -> fmt::Result {
        let Shape::Triangle { corners: [a, b, c], high, middle, low, left_major } = self.shape else {
            return Ok(());
        };
        let corners = [a, b, c].map(|[x, y]| format!("{x},{y}")).join("  ");
        let side = if left_major { "left" } else { "right" };
        writeln!(f, "    corners in quarters of a pixel: {corners}")?;
        writeln!(f, "    the high edge is the major one, at the {side}")?;
        for (name, Edge { slope, x, line }) in [("high", high), ("middle", middle), ("low", low)] {
            writeln!(f, "    {name} edge: slope {slope}, x {x} on line {line}")?;
        }
        Ok(())
    }

    fn row(&self, f: &mut fmt::Formatter, y: usize) -> fmt::Result {
        writeln!(f, "    row {y}")?;
        for line in 4 * y as i64..4 * y as i64 + 4 {
            match self.shape.span(line) {
                Some([left, right]) => writeln!(f, "      line {line}: from {left} up to {right}")?,
                None => writeln!(f, "      line {line}: nothing")?,
            }
        }
        for x in self.columns() {
            write!(f, "      pixel {} at {x},{y}:", y * self.width + x)?;
            for (sample, (line, at)) in samples(x, y).enumerate() {
                // Two samples of a line stand together.
                let space = if sample % 2 == 0 { "  " } else { " " };
                write!(f, "{space}{at}{}", if self.shape.hit(line, at) { '#' } else { '.' })?;
            }
            let mask = self.shape.mask(x, y);
            let emitted = match mask {
                0 => "",
                0x80.. => ", emitted",
                _ => ", emitted with antialias alone",
            };
            writeln!(f, "  = {mask:02x}{emitted}")?;
        }
        Ok(())
    }

    /// A pixel is four by four places, of which every second is a sample. Below it stands its mask.
    fn picture(&self, f: &mut fmt::Formatter) -> fmt::Result {
        let cells = |f: &mut fmt::Formatter, name: &str, cell: &dyn Fn(usize) -> String| {
            let cells: Vec<String> = self.columns().map(cell).collect();
            writeln!(f, "    {name:>4} |{}|", cells.join("|"))
        };
        let border = format!("         +{}", "----+".repeat(self.area.width));
        let columns: String = self.columns().map(|x| format!("{x:^5}")).collect();
        writeln!(f, "          {}\n{border}", columns.trim_end())?;
        for y in self.rows() {
            for line in 4 * y as i64..4 * y as i64 + 4 {
                cells(f, &line.to_string(), &|x| {
                    let place = |at: i64| match self.shape.hit(line, at) {
                        _ if (at / 2 + line) % 2 == 1 => ' ',
                        true => '#',
                        false => '.',
                    };
                    (0..4).map(|quarter| place((8 * x) as i64 + 2 * quarter)).collect()
                })?;
            }
            cells(f, "", &|x| format!(" {:02x} ", self.shape.mask(x, y)))?;
            writeln!(f, "{border}")?;
        }
        Ok(())
    }
}

impl fmt::Display for Walk {
    fn fmt(&self, f: &mut fmt::Formatter) -> fmt::Result {
        if let Shape::Nothing(why) = self.shape {
            return writeln!(f, "  {}: {why}", self.title);
        }
        writeln!(f, "  {}", self.title)?;
        self.edges(f)?;
        if self.rows().is_empty() || self.columns().is_empty() {
            return writeln!(f, "    no pixel of the frame is inside the scissor");
        }
        self.rows().try_for_each(|y| self.row(f, y))?;
        self.picture(f)
    }
}

#[cfg(test)]
mod tests {
    use super::*;

    /// Rows 2 and 3 of the worked values in docs/RULES.md.
    #[test]
    fn slopes_and_crossings() {
        assert_eq!([slope([0, 0], [1, 3]), slope([0, 0], [-1, 3])], [21_840, -21_848]);
        let crossing = |x| Edge { slope: 0, x, line: 0 }.crossing(0);
        assert_eq!([crossing(16_384), crossing(24_576), crossing(-2)], [2, 3, -1]);
        assert_eq!([0.125, -0.125, 0.3].map(quarters), [1, -1, 1]);
    }

    #[test]
    fn differences_are_told() {
        let list = [(4, 0xff), (5, 0x80)];
        assert_eq!(compare(&list, &list), Ok(()));
        let told = |emitted: &[(usize, u8)]| compare(emitted, &list).unwrap_err();
        const OPENING: &str = "samples: at place 1 the library's slow engine emits";
        assert_eq!(told(&list[..1]), format!("{OPENING} no pixel, and the rules give pixel 5 with mask 80"));
        assert_eq!(
            told(&[(4, 0xff), (5, 0x90)]),
            format!("{OPENING} pixel 5 with mask 90, and the rules give pixel 5 with mask 80")
        );
    }
}
