//! What the Rust original answers to each call of the interface, under the interface's types.
//!
//! Number 11 (docs/RULES.md) is ours and has no counterpart in the original: `refused` below states it, and the original
//! is asked only within its domain. The roundings are expressions in the original and no functions: they stand here as
//! they stand there, cut off where the interface cuts them off.

use crate::draws::Shape;
use crate::library::{Answer, ColorAnswer, Combiner, CombinerAnswer, Mode, Rgba, Selectors, StrictAnswer, Uniform};
use crate::words::Words;
use original::combiner::{AlphaIn, ColorIn, CycleSel};
use original::writeback::{self, Parts};
use original::{coherence, CombinerUniform, FramebufferEncoding, RenderMode};
use original::{AlphaCompare, BlendClass, ZMode};

/// The Rust's enums in the order of their declarations, which gives the interface's numbers.
const COLOR_INPUTS: [ColorIn; 21] = [
    ColorIn::Combined,
    ColorIn::Texel0,
    ColorIn::Primitive,
    ColorIn::Shade,
    ColorIn::Environment,
    ColorIn::Zero,
    ColorIn::One,
    ColorIn::Texel1,
    ColorIn::KeyCenter,
    ColorIn::K4,
    ColorIn::KeyScale,
    ColorIn::CombinedAlpha,
    ColorIn::Texel0Alpha,
    ColorIn::Texel1Alpha,
    ColorIn::PrimitiveAlpha,
    ColorIn::ShadeAlpha,
    ColorIn::EnvAlpha,
    ColorIn::LodFraction,
    ColorIn::PrimLodFrac,
    ColorIn::K5,
    ColorIn::Noise,
];

const ALPHA_INPUTS: [AlphaIn; 10] = [
    AlphaIn::Combined,
    AlphaIn::Texel0,
    AlphaIn::Primitive,
    AlphaIn::Shade,
    AlphaIn::Environment,
    AlphaIn::Zero,
    AlphaIn::One,
    AlphaIn::Texel1,
    AlphaIn::LodFraction,
    AlphaIn::PrimLodFrac,
];

const BLEND_CLASSES: [BlendClass; 4] =
    [BlendClass::Replace, BlendClass::BlendColor, BlendClass::AlphaOver, BlendClass::DualSrc];

const Z_MODES: [ZMode; 4] = [ZMode::Opa, ZMode::Inter, ZMode::Xlu, ZMode::Decal];

const ALPHA_COMPARES: [AlphaCompare; 3] = [AlphaCompare::None, AlphaCompare::Threshold, AlphaCompare::Dither];

/// That an array has an enum's cases in their order.
macro_rules! in_order {
    ($($cases:ident)*) => {$(
        const _: () = {
            let mut number = 0;
            while number < $cases.len() {
                assert!($cases[number] as usize == number);
                number += 1;
            }
        };
    )*};
}

in_order! { COLOR_INPUTS ALPHA_INPUTS BLEND_CLASSES Z_MODES ALPHA_COMPARES }

// The interface's types and the original's.

fn floats(color: Rgba) -> [f32; 4] {
    [color.r, color.g, color.b, color.a]
}

pub fn rgba([r, g, b, a]: [f32; 4]) -> Rgba {
    Rgba { r, g, b, a }
}

fn cycle(numbers: [u8; 8]) -> CycleSel {
    let color = |slot: usize| COLOR_INPUTS[usize::from(numbers[slot])];
    let alpha = |slot: usize| ALPHA_INPUTS[usize::from(numbers[slot])];
    CycleSel {
        ca: color(0),
        cb: color(1),
        cc: color(2),
        cd: color(3),
        aa: alpha(4),
        ab: alpha(5),
        ac: alpha(6),
        ad: alpha(7),
    }
}

fn numbers(cycle: &CycleSel) -> [u8; 8] {
    let color = |input: ColorIn| input as u8;
    let alpha = |input: AlphaIn| input as u8;
    [
        color(cycle.ca),
        color(cycle.cb),
        color(cycle.cc),
        color(cycle.cd),
        alpha(cycle.aa),
        alpha(cycle.ab),
        alpha(cycle.ac),
        alpha(cycle.ad),
    ]
}

pub fn parts(combiner: Combiner) -> Parts {
    Parts {
        selectors: cycle(combiner.selectors),
        prim: floats(combiner.prim),
        env: floats(combiner.env),
        blend: floats(combiner.blend),
        fog: floats(combiner.fog),
        lod: combiner.lod,
    }
}

fn combiner(parts: Parts) -> Combiner {
    Combiner {
        selectors: numbers(&parts.selectors),
        prim: rgba(parts.prim),
        env: rgba(parts.env),
        blend: rgba(parts.blend),
        fog: rgba(parts.fog),
        lod: parts.lod,
    }
}

pub fn render_mode(mode: Mode) -> RenderMode {
    RenderMode {
        cycle_type: mode.cycle_type,
        rgb_dither: mode.rgb_dither,
        alpha_dither: mode.alpha_dither,
        key_enabled: mode.key_enabled,
        cvg_dst: mode.cvg_dst,
        image_read: mode.image_read,
        antialias: mode.antialias,
        alpha_cvg_select: mode.alpha_cvg_select,
        color_on_coverage: mode.color_on_coverage,
        blender_mux: mode.blender_mux,
        force_blend: mode.force_blend,
        blend_class: BLEND_CLASSES[usize::from(mode.blend_class)],
        fallback_class: BLEND_CLASSES[usize::from(mode.fallback_class)],
        non_canonical_blend: mode.non_canonical_blend,
        z_source_prim: mode.z_source_prim,
        z_test: mode.z_test,
        z_write: mode.z_write,
        z_mode: Z_MODES[usize::from(mode.z_mode)],
        fog: mode.fog,
        alpha_compare: ALPHA_COMPARES[usize::from(mode.alpha_compare)],
        cvg_x_alpha: mode.cvg_x_alpha,
    }
}

pub fn combiner_uniform(uniform: Uniform) -> CombinerUniform {
    CombinerUniform {
        combine_l: uniform.combine_l,
        combine_h: uniform.combine_h,
        cycle_type: uniform.cycle_type,
        tex_enable: uniform.tex_enable,
        blender_mux: uniform.blender_mux,
        force_blend: uniform.force_blend,
        alpha_flags: uniform.alpha_flags,
        alpha_threshold: uniform.alpha_threshold,
        prim: floats(uniform.prim),
        env: floats(uniform.env),
        blend_color: floats(uniform.blend_color),
        fog_color: floats(uniform.fog_color),
        inv_tex_size: uniform.inv_tex_size,
        inv_tex1_size: uniform.inv_tex1_size,
        lod_params: uniform.lod_params,
        inv_detail_size: uniform.inv_detail_size,
        frame: uniform.frame,
        is_rect: uniform.is_rect,
        coverage_slot: uniform.coverage_slot,
        fill_word: uniform.fill_word,
        fill_siz: uniform.fill_siz,
        primitive_depth: uniform.primitive_depth,
        native_scale: uniform.native_scale,
        raster: uniform.raster,
    }
}

/// Every third index opens a triangle, and a vertex whose flag is not 1 is missing.
pub fn shape(mode: Mode, parts: Parts, shape: &Shape) -> writeback::Shape {
    let Shape { cull, scissor, geometry, vertices, present, indices } = shape;
    let scissor = (scissor.left, scissor.top, scissor.width, scissor.height);
    let geometry = match geometry.kind {
        0 => writeback::Geometry::Unknown,
        1 => writeback::Geometry::Triangles(indices.chunks_exact(3).map(|i| [i[0], i[1], i[2]]).collect()),
        _ => writeback::Geometry::Rectangle([geometry.left, geometry.top, geometry.right, geometry.bottom]),
    };
    let floats = vertices.chunks_exact(6).map(|v| [v[0], v[1], v[2], v[3], v[4], v[5]]);
    let vertices = floats.zip(present).map(|(floats, flag)| (*flag == 1).then_some(floats));
    writeback::Shape::new(parts, render_mode(mode), *cull, scissor, geometry, vertices)
}

/// An emitted pixel: its number, the mask of its samples, its colour and its shade alpha.
pub type Fragment = (usize, u8, Rgba, f32);

/// What a draw emits, by the walk with masks: in all but the masks it must be what the unchanged `rasterize` emits, and their
/// numbers of ones the counts that it hands on.
pub fn emitted(shape: &writeback::Shape, (width, height): (u32, u32)) -> Vec<Fragment> {
    let extent = (width as usize, height as usize);
    let mut list = Vec::new();
    shape.rasterize_masks(extent, |pixel, mask, color, alpha| list.push((pixel, mask, rgba(color), alpha)));
    let mut unchanged = 0;
    shape.rasterize(extent, |pixel, count, color, alpha| {
        let same = list.get(unchanged).is_some_and(|with_mask: &Fragment| {
            (with_mask.0, with_mask.1.count_ones() as u8) == (pixel, count)
                && with_mask.2.alike(&rgba(color))
                && with_mask.3.alike(&alpha)
        });
        assert!(same, "the walk with masks departs from rasterize at its pixel {unchanged}");
        unchanged += 1;
    });
    assert_eq!(list.len(), unchanged, "the walk with masks has another length than rasterize");
    list
}

// Number 11.

/// What a single-pixel call takes of the things that number 11 limits.
#[derive(Default)]
struct Limited {
    mask: Option<u8>,
    coverage: Option<u8>,
    width: Option<u32>,
    siz: Option<u8>,
    pixel: Option<u32>,
}

impl Limited {
    fn refused(&self) -> bool {
        self.mask == Some(0)
            || self.coverage.is_some_and(|coverage| coverage > 7)
            || self.width.is_some_and(|width| !(1..=1024).contains(&width))
            || self.siz.is_some_and(|siz| siz > 3)
            || self.pixel.is_some_and(|pixel| pixel > 1_048_575)
    }

    /// The original's value, or number 11 with nothing asked of the original.
    fn or(&self, value: impl FnOnce() -> u32) -> Answer {
        if self.refused() {
            Answer { number: 11, value: 0 }
        } else {
            Answer { number: 0, value: value() }
        }
    }
}

// combiner.rs

pub fn color_a(index: u32) -> u32 {
    original::combiner::color_a(index) as u32
}

pub fn color_b(index: u32) -> u32 {
    original::combiner::color_b(index) as u32
}

pub fn color_c(index: u32) -> u32 {
    original::combiner::color_c(index) as u32
}

pub fn color_d(index: u32) -> u32 {
    original::combiner::color_d(index) as u32
}

pub fn alpha_abd(index: u32) -> u32 {
    original::combiner::alpha_abd(index) as u32
}

pub fn alpha_c(index: u32) -> u32 {
    original::combiner::alpha_c(index) as u32
}

pub fn decode_combine(w0: u32, w1: u32) -> Selectors {
    let decoded = original::combiner::decode_combine(w0, w1);
    Selectors { raw_l: decoded.raw_l, raw_h: decoded.raw_h, cyc0: numbers(&decoded.cyc0), cyc1: numbers(&decoded.cyc1) }
}

// The roundings of writeback.rs

pub fn clamp(x: f32) -> f32 {
    x.clamp(0.0, 1.0)
}

pub fn byte_of(x: f32) -> u8 {
    (x.clamp(0.0, 1.0) * 255.0).round() as u8
}

pub fn quarter(x: f32) -> i64 {
    ((f64::from(x) * 4.0).round() as i64).clamp(-65_536, 65_536)
}

pub fn floor_index(x: f32) -> u32 {
    (x.floor().max(0.0) as usize).min(131_072) as u32
}

pub fn ceil_index(x: f32) -> u32 {
    (x.ceil().max(0.0) as usize).min(131_072) as u32
}

pub fn is_finite(x: f32) -> bool {
    x.is_finite()
}

/// `total_cmp` orders NaN too; the port compares positions in range only and answers no there.
pub fn le_total(a: f32, b: f32) -> bool {
    !a.is_nan() && !b.is_nan() && a.total_cmp(&b).is_le()
}

// writeback.rs

pub fn in_range(x: f32, y: f32) -> bool {
    writeback::in_range([x, y])
}

pub fn combiner_new(uniform: Uniform, mode: Mode) -> CombinerAnswer {
    let made = writeback::combiner_new(&combiner_uniform(uniform), render_mode(mode));
    CombinerAnswer { some: made.is_some(), combiner: made.map(combiner).unwrap_or_default() }
}

pub fn combiner_color(combiner: Combiner, shade: Rgba) -> ColorAnswer {
    let color = writeback::color(parts(combiner), floats(shade));
    ColorAnswer { some: color.is_some(), rgba: color.map(rgba).unwrap_or_default() }
}

pub fn strict_color(combiner: Combiner) -> StrictAnswer {
    let word = writeback::strict_color(parts(combiner));
    StrictAnswer { some: word.is_some(), word: word.unwrap_or_default() }
}

/// What the original takes for a mask: its number of ones.
fn samples(mask: u8) -> u8 {
    mask.count_ones() as u8
}

pub fn destination(mode: Mode, mask: u8, memory: u8) -> Answer {
    let limited = Limited { mask: Some(mask), coverage: Some(memory), ..Limited::default() };
    limited.or(|| u32::from(writeback::destination(render_mode(mode), samples(mask), memory)))
}

pub fn color_known(mode: Mode, alpha: f32, mask: u8, known: bool, coverage: u8, memory_rgb: bool) -> Answer {
    let coverage = known.then_some(coverage);
    let limited = Limited { mask: Some(mask), coverage, ..Limited::default() };
    limited.or(|| {
        let mode = render_mode(mode);
        u32::from(writeback::color_known(mode, alpha, samples(mask), coverage, memory_rgb))
    })
}

pub fn blend(
    mode: Mode,
    combiner: Combiner,
    rgba: Rgba,
    memory: Rgba,
    shade_alpha: f32,
    mask: u8,
    coverage: u8,
) -> Answer {
    let limited = Limited { mask: Some(mask), coverage: Some(coverage), ..Limited::default() };
    let (rgba, memory) = (floats(rgba), floats(memory));
    limited.or(|| {
        let mode = render_mode(mode);
        let parts = parts(combiner);
        u32::from_le_bytes(writeback::blend(mode, parts, rgba, memory, shade_alpha, samples(mask), coverage))
    })
}

// coherence.rs

pub fn pack_color(rgba: u32, coverage: u8, dither: u8) -> Answer {
    let limited = Limited { coverage: Some(coverage), ..Limited::default() };
    limited.or(|| u32::from(coherence::pack_color(rgba.to_le_bytes(), coverage, dither)))
}

/// Ours: see the stand-in.
pub fn pack_depth(depth: f32) -> u32 {
    u32::from(original::pack_depth(depth))
}

pub fn supported(fmt: u8, siz: u8, width: u32, depth: bool) -> Answer {
    let limited = Limited { width: Some(width), siz: Some(siz), ..Limited::default() };
    limited.or(|| u32::from(coherence::writer(fmt, siz, width, depth).supported()))
}

pub fn pixel_bytes(fmt: u8, siz: u8, width: u32, depth: bool) -> Answer {
    let limited = Limited { width: Some(width), siz: Some(siz), ..Limited::default() };
    limited.or(|| coherence::writer(fmt, siz, width, depth).pixel_bytes() as u32)
}

#[allow(clippy::too_many_arguments)] // As many as the interface's function has.
pub fn encode(
    fmt: u8,
    siz: u8,
    width: u32,
    depth: bool,
    rgba: u32,
    coverage: u8,
    pixel: u32,
    literal: bool,
    word: u32,
    rgb_dither: u8,
    big_endian: bool,
) -> Answer {
    let limited =
        Limited { mask: None, coverage: Some(coverage), width: Some(width), siz: Some(siz), pixel: Some(pixel) };
    let encoding = if big_endian { FramebufferEncoding::BigEndian } else { FramebufferEncoding::Native };
    limited.or(|| {
        let bytes = coherence::writer(fmt, siz, width, depth).encode(
            rgba.to_le_bytes(),
            coverage,
            pixel as usize,
            literal.then_some(word),
            rgb_dither,
            encoding,
        );
        u32::from(u16::from_le_bytes(bytes))
    })
}
