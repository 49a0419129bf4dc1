//! What draws cover: triangles that are thin, flat, tiny, huge or out of the frame, with shared and repeated vertices,
//! rectangles with any sides, scissors that cut, and flaws for which a draw is turned away.

use crate::draws::Shape;
use crate::inputs::{shifted, Inputs, Temper};
use crate::library::{Geometry, Scissor};

pub const NOTHING: u32 = 0;
pub const TRIANGLES: u32 = 1;
pub const RECTANGLE: u32 = 2;

/// The least and the greatest x and y of a vertex.
const X_LIMITS: [f32; 2] = [-1024.0, 1023.75];
const Y_LIMITS: [f32; 2] = [-2048.0, 2047.75];

/// Steps between vertices that are nearly one: up to a quarter unit, and halves of it.
const STEPS: [f32; 9] = [0.0, 0.125, -0.125, 0.25, -0.25, 0.0625, 0.1875, 1.0, -1.0];

/// Around zero both zeros and the smallest numbers come.
const AROUND_ZERO: [u32; 4] = [0, 0x8000_0000, 1, 0x8000_0001];

/// The float itself or a neighbour.
fn neighbour(inputs: &mut Inputs, x: f32) -> f32 {
    if x == 0.0 {
        f32::from_bits(inputs.pick(&AROUND_ZERO))
    } else {
        shifted(x, inputs.below(3) as i32 - 1)
    }
}

/// A coordinate in range; most lie in the frame, which has that size, or close to it.
fn coordinate(inputs: &mut Inputs, size: u32, limits: [f32; 2]) -> f32 {
    let near = |inputs: &mut Inputs, parts: u32| inputs.below((size + 4) * parts) as f32 / parts as f32 - 2.0;
    let value = match inputs.below(16) {
        0..=5 => near(inputs, 4),
        6..=8 => {
            let half = near(inputs, 8);
            neighbour(inputs, half)
        }
        9..=11 => inputs.unit() * (size + 4) as f32 - 2.0,
        12 => neighbour(inputs, 0.0),
        13 => inputs.pick(&limits),
        14 => {
            let limit = inputs.pick(&limits);
            neighbour(inputs, limit)
        }
        _ => limits[0] + inputs.unit() * (limits[1] - limits[0]),
    };
    value.clamp(limits[0], limits[1])
}

type Position = [f32; 2];

fn step(inputs: &mut Inputs, [x, y]: Position) -> Position {
    [x + inputs.pick(&STEPS), y + inputs.pick(&STEPS)]
}

/// Around the frame, without more ado: most triangles of such positions show.
fn inside(inputs: &mut Inputs, (width, height): (u32, u32)) -> Position {
    let parts = inputs.pick(&[4.0, 8.0, 1000.0]);
    [width, height].map(|size| (inputs.unit() * parts * (size as f32 * 1.5)).round() / parts - size as f32 / 4.0)
}

/// A position of its own, or one that makes a thin, flat or tiny triangle with positions that are there.
fn position(inputs: &mut Inputs, (width, height): (u32, u32), earlier: &[Position]) -> Position {
    let own = [coordinate(inputs, width, X_LIMITS), coordinate(inputs, height, Y_LIMITS)];
    if earlier.is_empty() || inputs.below(5) < 3 {
        return own;
    }
    let (a, b) = (inputs.pick(earlier), inputs.pick(earlier));
    let [x, y] = match inputs.below(8) {
        0 => [own[0], a[1]],
        1 => [a[0], own[1]],
        2 => step(inputs, a),
        3 => step(inputs, [(a[0] + b[0]) / 2.0, (a[1] + b[1]) / 2.0]),
        4 => step(inputs, [2.0 * a[0] - b[0], 2.0 * a[1] - b[1]]),
        5 => a.map(|x| neighbour(inputs, x)),
        6 => [own[0], neighbour(inputs, a[1])],
        _ => a,
    };
    [x.clamp(X_LIMITS[0], X_LIMITS[1]), y.clamp(Y_LIMITS[0], Y_LIMITS[1])]
}

fn finite(inputs: &mut Inputs, temper: Temper) -> f32 {
    let value = inputs.float(temper);
    if value.is_finite() {
        value
    } else {
        inputs.plain()
    }
}

/// Vertices in range with finite colours, mostly of one alpha.
fn vertices(inputs: &mut Inputs, size: (u32, u32), count: u32) -> Vec<f32> {
    let temper = inputs.temper();
    let alpha = if inputs.flag() { 1.0 } else { finite(inputs, temper) };
    let one_alpha = inputs.below(16) != 0;
    let spread = inputs.flag();
    let mut positions: Vec<Position> = Vec::new();
    let mut floats = Vec::new();
    for _ in 0..count {
        let place = if spread { inside(inputs, size) } else { position(inputs, size, &positions) };
        positions.push(place);
        floats.extend(place);
        floats.extend([(); 3].map(|()| finite(inputs, temper)));
        floats.push(if one_alpha { alpha } else { finite(inputs, temper) });
    }
    floats
}

/// A side of a rectangle: any float, most of them near the frame.
fn side(inputs: &mut Inputs, size: u32) -> f32 {
    match inputs.below(32) {
        0 => inputs.hostile(),
        1 => inputs.not_finite(),
        _ => coordinate(inputs, size, Y_LIMITS),
    }
}

/// The sides are in order, mostly.
fn sides(inputs: &mut Inputs, size: u32) -> [f32; 2] {
    let (a, b) = (side(inputs, size), side(inputs, size));
    if a > b && inputs.below(8) != 0 {
        [b, a]
    } else {
        [a, b]
    }
}

/// Start and length along a side of the frame: the whole of it, a part, or past its end.
fn cut(inputs: &mut Inputs, size: u32) -> (u32, u32) {
    match inputs.below(16) {
        0..=8 => (0, size),
        9..=10 => (inputs.below(size.div_ceil(2)), 65_535),
        11..=12 => (0, inputs.below(size + 2)),
        13 => (inputs.pick(&[0, 1, size - 1, size, size + 1, 65_535]), inputs.pick(&[0, 1, 2, size, 65_535])),
        _ => (inputs.below(size.div_ceil(2)), 1 + inputs.below(size)),
    }
}

/// Most frames are small; where both sides are large the scissor leaves a small part, mostly.
pub fn scissor(inputs: &mut Inputs, (width, height): (u32, u32)) -> Scissor {
    if width > 64 && height > 64 && inputs.below(64) != 0 {
        let (left, top) = (inputs.below(width), inputs.below(height));
        return Scissor { left, top, width: inputs.below(24), height: inputs.below(24) };
    }
    let (left, across) = cut(inputs, width);
    let (top, down) = cut(inputs, height);
    Scissor { left, top, width: across, height: down }
}

/// The triangles are of few vertices, so that they share and repeat them.
pub fn triangles(inputs: &mut Inputs, size: (u32, u32), triangles: u32) -> Shape {
    let count = 3 + inputs.below(4);
    let mut shape = Shape {
        cull: inputs.below(3) == 0,
        scissor: scissor(inputs, size),
        geometry: Geometry { kind: TRIANGLES, ..any_sides(inputs, size) },
        vertices: vertices(inputs, size, count),
        present: vec![1; count as usize],
        indices: (0..3 * triangles).map(|_| inputs.below(count)).collect(),
    };
    // Most open with a triangle of three vertices.
    if inputs.below(8) != 0 && triangles > 0 {
        let turned = inputs.flag();
        shape.indices[..3].copy_from_slice(if turned { &[2, 1, 0] } else { &[0, 1, 2] });
    }
    shape
}

fn any_sides(inputs: &mut Inputs, (width, height): (u32, u32)) -> Geometry {
    let [left, right] = sides(inputs, width);
    let [top, bottom] = sides(inputs, height);
    Geometry { kind: NOTHING, left, top, right, bottom }
}

/// A rectangle, with lists that do not count.
pub fn rectangle(inputs: &mut Inputs, size: (u32, u32)) -> Shape {
    let count = inputs.below(3);
    Shape {
        cull: inputs.flag(),
        scissor: scissor(inputs, size),
        geometry: Geometry { kind: RECTANGLE, ..any_sides(inputs, size) },
        vertices: (0..6 * count).map(|_| inputs.hostile()).collect(),
        present: (0..count).map(|_| inputs.below(2) as u8).collect(),
        indices: (0..3 * inputs.below(2)).map(|_| inputs.below(4)).collect(),
    }
}

pub fn any_shape(inputs: &mut Inputs, size: (u32, u32)) -> Shape {
    if inputs.below(4) == 0 {
        return rectangle(inputs, size);
    }
    let count = inputs.pick(&[0, 1, 1, 1, 1, 1, 1, 1, 1, 2, 2, 2, 3, 3, 4, 5]);
    triangles(inputs, size, count)
}

/// Just outside the range.
fn outside(inputs: &mut Inputs, limits: [f32; 2]) -> f32 {
    match inputs.below(4) {
        0 => shifted(limits[0], 1 + inputs.below(2) as i32),
        1 => shifted(limits[1], 1 + inputs.below(2) as i32),
        2 => inputs.pick(&[-2048.25, 2048.0, 1e9, -f32::MAX]),
        _ => inputs.not_finite(),
    }
}

/// The draw with a flaw of its triangles, which turns it away if a triangle has to do with it.
pub fn flawed(inputs: &mut Inputs, shape: &mut Shape) {
    let count = shape.present.len() as u32;
    if count == 0 {
        shape.geometry.kind = NOTHING;
        return;
    }
    let vertex = inputs.below(count) as usize;
    let floats = &mut shape.vertices[6 * vertex..6 * vertex + 6];
    match inputs.below(16) {
        0..=2 => shape.present[vertex] = 0,
        3..=4 => floats[0] = outside(inputs, X_LIMITS),
        5..=6 => floats[1] = outside(inputs, Y_LIMITS),
        7..=9 => floats[2 + inputs.below(4) as usize] = inputs.not_finite(),
        10..=11 => floats[5] = shifted(floats[5], 1 + inputs.below(2) as i32),
        12 => floats[5] = inputs.plain(),
        13..=14 if !shape.indices.is_empty() => {
            let past = inputs.pick(&[count, count + 1, 4095, 1 << 30, 0x2aaa_aaab, u32::MAX]);
            let place = inputs.below(shape.indices.len() as u32) as usize;
            shape.indices[place] = past;
        }
        _ => shape.geometry.kind = NOTHING,
    }
}

/// Most sides are short: a draw takes as long as its pixels are many.
pub fn size(inputs: &mut Inputs) -> (u32, u32) {
    let short = inputs.pick(&[4, 8, 8, 16, 24]);
    let mut side = |limit: u32| 1 + inputs.below(limit);
    match side(256) {
        1 => (side(1024), side(8)),
        2 => (side(8), side(1024)),
        3 => (side(1024), side(1024)),
        _ => (side(short), side(short)),
    }
}
