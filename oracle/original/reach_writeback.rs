//! A way to writeback.rs's private items.

use super::*;
use crate::hle::RenderMode;
use crate::render::CombinerUniform;

/// The fields of a `Combiner`, which are private to its file: so any selectors can be tried, also those that
/// `Combiner::new` refuses.
#[derive(Clone)]
pub struct Parts {
    pub selectors: CycleSel,
    pub prim: [f32; 4],
    pub env: [f32; 4],
    pub blend: [f32; 4],
    pub fog: [f32; 4],
    pub lod: f32,
}

impl Parts {
    fn whole(self) -> Combiner {
        Combiner {
            selectors: self.selectors,
            prim: self.prim,
            env: self.env,
            blend: self.blend,
            fog: self.fog,
            lod: self.lod,
        }
    }

    fn of(combiner: Combiner) -> Self {
        Parts {
            selectors: combiner.selectors,
            prim: combiner.prim,
            env: combiner.env,
            blend: combiner.blend,
            fog: combiner.fog,
            lod: combiner.lod,
        }
    }
}

pub fn combiner_new(uniform: &CombinerUniform, mode: RenderMode) -> Option<Parts> {
    Combiner::new(uniform, mode).map(Parts::of)
}

pub fn color(parts: Parts, shade: [f32; 4]) -> Option<[f32; 4]> {
    parts.whole().color(shade)
}

pub fn strict_color(parts: Parts) -> Option<u16> {
    parts.whole().strict_color()
}

pub fn destination(mode: RenderMode, count: u8, memory: u8) -> u8 {
    super::destination(mode, count, memory)
}

pub fn color_known(
    mode: RenderMode,
    alpha: f32,
    count: u8,
    coverage: Option<u8>,
    memory_rgb: bool,
) -> bool {
    super::color_known(mode, alpha, count, coverage, memory_rgb)
}

pub fn blend(
    mode: RenderMode,
    parts: Parts,
    rgba: [f32; 4],
    memory: [f32; 4],
    shade_alpha: f32,
    count: u8,
    coverage: u8,
) -> [u8; 4] {
    super::blend(
        mode,
        &parts.whole(),
        rgba,
        memory,
        shade_alpha,
        count,
        coverage,
    )
}

/// A draw and its vertices, whose own types end at their crate.
pub struct Shape {
    draw: CoverageDraw,
    vertices: Vec<Option<Vertex>>,
}

/// `CoverageGeometry`.
pub enum Geometry {
    Unknown,
    Triangles(Vec<[u32; 3]>),
    Rectangle([f32; 4]),
}

impl Shape {
    /// A vertex is x, y, red, green, blue, alpha, or missing. The scissor is left, top, width, height.
    pub fn new(
        parts: Parts,
        mode: RenderMode,
        cull: bool,
        scissor: (u32, u32, u32, u32),
        geometry: Geometry,
        vertices: impl Iterator<Item = Option<[f32; 6]>>,
    ) -> Self {
        let geometry = match geometry {
            Geometry::Unknown => CoverageGeometry::Unknown,
            Geometry::Triangles(triangles) => CoverageGeometry::Triangles(triangles),
            Geometry::Rectangle(sides) => CoverageGeometry::Rectangle(sides),
        };
        let vertex = |[x, y, r, g, b, a]: [f32; 6]| Vertex {
            position: [x, y],
            color: [r, g, b, a],
        };
        Shape {
            draw: CoverageDraw {
                literal: None,
                combiner: Some(parts.whole()),
                cull,
                mode: Some(mode),
                geometry,
                scissor,
            },
            vertices: vertices.map(|floats| floats.map(vertex)).collect(),
        }
    }

    pub fn admitted(&self) -> bool {
        super::admitted(&self.draw, &self.vertices)
    }

    /// `blend` with the draw's own mode and combiner.
    pub fn blend(
        &self,
        rgba: [f32; 4],
        memory: [f32; 4],
        shade_alpha: f32,
        count: u8,
        coverage: u8,
    ) -> [u8; 4] {
        let combiner = self.draw.combiner.as_ref().unwrap();
        super::blend(self.draw.mode.unwrap(), combiner, rgba, memory, shade_alpha, count, coverage)
    }

    pub fn rasterize(&self, extent: (usize, usize), pixel: impl FnMut(usize, u8, [f32; 4], f32)) {
        super::rasterize(&self.draw, &self.vertices, extent, pixel);
    }

    /// The same walk, with the mask of each pixel's samples in place of their number.
    pub fn rasterize_masks(&self, extent: (usize, usize), pixel: impl FnMut(usize, u8, [f32; 4], f32)) {
        super::masks::rasterize(&self.draw, &self.vertices, extent, pixel);
    }
}

pub fn in_range(position: [f32; 2]) -> bool {
    Vertex {
        position,
        color: [0.0; 4],
    }
    .in_range()
}
