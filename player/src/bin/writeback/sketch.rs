//! The samples of a triangle or a rectangle as a picture: the pixels as squares, what is covered of each quarter line, a
//! triangle's sides, and each sample as a ring, filled where it is hit. Samples stand where they are tested, those of a pixel's
//! first line on its upper side.

use crate::samples::{samples, Shape, Walk};

/// Picture pixels along a side of a pixel, along a quarter of it and along an eighth.
const PIXEL: i64 = 64;
const QUARTER: i64 = PIXEL / 4;
const EIGHTH: i64 = PIXEL / 8;

/// Around the pixels, for the samples on their outer sides.
const MARGIN: i64 = 12;

const WHITE: [u8; 3] = [255, 255, 255];
const GRID: [u8; 3] = [200, 200, 200];
const COVERED: [u8; 3] = [140, 185, 240];
const SIDE: [u8; 3] = [200, 50, 40];
const BLACK: [u8; 3] = [0, 0, 0];

/// A picture of a part of the frame; places are given from the frame's upper left corner.
struct Canvas {
    left: i64,
    top: i64,
    width: i64,
    height: i64,
    rgb: Vec<u8>,
}

impl Canvas {
    /// A place outside is left out.
    fn put(&mut self, x: i64, y: i64, color: [u8; 3]) {
        let (column, row) = (x - self.left, y - self.top);
        if (0..self.width).contains(&column) && (0..self.height).contains(&row) {
            let at = 3 * (row * self.width + column) as usize;
            self.rgb[at..at + 3].copy_from_slice(&color);
        }
    }

    fn line(&mut self, [ax, ay]: [i64; 2], [bx, by]: [i64; 2], color: [u8; 3]) {
        let steps = (bx - ax).abs().max((by - ay).abs()).max(1);
        for step in 0..=steps {
            // Halves are rounded up.
            let part = |from: i64, to: i64| from + (2 * (to - from) * step + steps).div_euclid(2 * steps);
            self.put(part(ax, bx), part(ay, by), color);
        }
    }

    fn dot(&mut self, x: i64, y: i64, filled: bool) {
        for (dx, dy) in (-4..=4).flat_map(|dy| (-4..=4).map(move |dx| (dx, dy))) {
            match dx * dx + dy * dy {
                0..=9 if !filled => self.put(x + dx, y + dy, WHITE),
                0..=18 => self.put(x + dx, y + dy, BLACK),
                _ => {}
            }
        }
    }
}

/// Width, height, and red, green and blue of every place, row after row.
pub fn sketch(walk: &Walk) -> (u32, u32, Vec<u8>) {
    let pixels = |count: usize| PIXEL * count as i64;
    let (left, right) = (pixels(walk.columns().start), pixels(walk.columns().end));
    let (top, bottom) = (pixels(walk.rows().start), pixels(walk.rows().end));
    let (width, height) = (right - left + 2 * MARGIN + 1, bottom - top + 2 * MARGIN + 1);
    let rgb = vec![255; 3 * (width * height) as usize];
    let mut canvas = Canvas { left: left - MARGIN, top: top - MARGIN, width, height, rgb };
    for x in (left..=right).step_by(PIXEL as usize) {
        canvas.line([x, top], [x, bottom], GRID);
    }
    for y in (top..=bottom).step_by(PIXEL as usize) {
        canvas.line([left, y], [right, y], GRID);
    }
    for line in top / QUARTER..bottom / QUARTER {
        let [from, to] = walk.shape.span(line).unwrap_or_default();
        let (from, to) = (from.saturating_mul(EIGHTH).max(left), to.saturating_mul(EIGHTH).min(right));
        for y in QUARTER * line - 1..=QUARTER * line + 1 {
            (from..to).for_each(|x| canvas.put(x, y, COVERED));
        }
    }
    if let Shape::Triangle { corners, .. } = walk.shape {
        let [a, b, c] = corners.map(|corner| corner.map(|quarters| QUARTER * quarters));
        [[a, b], [b, c], [c, a]].into_iter().for_each(|[from, to]| canvas.line(from, to, SIDE));
    }
    for (x, y) in walk.rows().flat_map(|y| walk.columns().map(move |x| (x, y))) {
        for (line, at) in samples(x, y) {
            canvas.dot(EIGHTH * at, QUARTER * line, walk.shape.hit(line, at));
        }
    }
    (width as u32, height as u32, canvas.rgb)
}
