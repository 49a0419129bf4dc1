//! A safe function over each function of the library's C interface (crate `writeback_sys`) that is used here, and this
//! crate's types as the interface's. The only module with unsafe code.
//!
//! Why it is sound: the functions are proved to return on every input and to read and write nothing outside the lists that
//! they are lent, to keep nothing and to write only what is lent to be written. Each list here is a slice, given by its
//! pointer and its length and borrowed for the call; every value of the structs is one that the functions take.

#![allow(unsafe_code)]

use crate::{
    CombinerUniform, Draw, EmittedPixel, EmittedRun, Encoding, Geometry, Refusal, RenderMode, Scissor, Writer,
};
use writeback_sys::{
    wb_decode_combine, wb_draw, wb_emitted_pixel, wb_emitted_pixels, wb_geometry, wb_mode, wb_read_word, wb_read_words,
    wb_rgba, wb_scissor, wb_selectors, wb_uniform,
};

fn mode(mode: &RenderMode) -> wb_mode {
    wb_mode {
        cycle_type: mode.cycle_type,
        blender_mux: mode.blender_mux,
        rgb_dither: mode.rgb_dither,
        alpha_dither: mode.alpha_dither,
        cvg_dst: mode.cvg_dst,
        // The enums' cases stand in the header's order.
        blend_class: mode.blend_class as u8,
        fallback_class: mode.fallback_class as u8,
        z_mode: mode.z_mode as u8,
        alpha_compare: mode.alpha_compare as u8,
        key_enabled: mode.key_enabled,
        image_read: mode.image_read,
        antialias: mode.antialias,
        alpha_cvg_select: mode.alpha_cvg_select,
        color_on_coverage: mode.color_on_coverage,
        force_blend: mode.force_blend,
        non_canonical_blend: mode.non_canonical_blend,
        z_source_prim: mode.z_source_prim,
        z_test: mode.z_test,
        z_write: mode.z_write,
        fog: mode.fog,
        cvg_x_alpha: mode.cvg_x_alpha,
    }
}

fn rgba([r, g, b, a]: [f32; 4]) -> wb_rgba {
    wb_rgba { r, g, b, a }
}

fn uniform(uniform: &CombinerUniform) -> wb_uniform {
    wb_uniform {
        combine_l: uniform.combine_l,
        combine_h: uniform.combine_h,
        cycle_type: uniform.cycle_type,
        tex_enable: uniform.tex_enable,
        blender_mux: uniform.blender_mux,
        force_blend: uniform.force_blend,
        alpha_flags: uniform.alpha_flags,
        alpha_threshold: uniform.alpha_threshold,
        prim: rgba(uniform.prim),
        env: rgba(uniform.env),
        blend_color: rgba(uniform.blend_color),
        fog_color: rgba(uniform.fog_color),
        inv_tex_size: uniform.inv_tex_size,
        inv_tex1_size: uniform.inv_tex1_size,
        lod_params: uniform.lod_params,
        inv_detail_size: uniform.inv_detail_size,
        frame: uniform.frame,
        is_rect: uniform.is_rect,
        coverage_slot: uniform.coverage_slot,
        fill_word: uniform.fill_word,
        fill_siz: uniform.fill_siz,
        primitive_depth: uniform.primitive_depth,
        native_scale: uniform.native_scale,
        raster: uniform.raster,
    }
}

fn scissor(Scissor { left, top, width, height }: Scissor) -> wb_scissor {
    wb_scissor { left, top, width, height }
}

fn geometry(geometry: Geometry) -> wb_geometry {
    match geometry {
        Geometry::Nothing => wb_geometry::default(),
        Geometry::Triangles => wb_geometry { kind: 1, ..wb_geometry::default() },
        Geometry::Rectangle { left, top, right, bottom } => wb_geometry { kind: 2, left, top, right, bottom },
    }
}

/// A frame lent to be read.
pub(crate) struct Frame<'a> {
    pub width: u32,
    pub height: u32,
    pub colors: &'a [u8],
    pub coverages: &'a [u8],
    pub marks: &'a [u8],
}

/// A frame lent to be written.
pub(crate) struct FrameMut<'a> {
    pub width: u32,
    pub height: u32,
    pub colors: &'a mut [u8],
    pub coverages: &'a mut [u8],
    pub marks: &'a mut [u8],
}

/// The value, unless there is a number.
fn answer<T>(number: u32, value: T) -> Result<T, Refusal> {
    match Refusal::from_number(number) {
        None => Ok(value),
        Some(refusal) => Err(refusal),
    }
}

/// Both cycles' inputs by their numbers.
pub(crate) fn decode_combine(w0: u32, w1: u32) -> [[u8; 8]; 2] {
    let wb_selectors { cyc0, cyc1, .. } = wb_decode_combine(w0, w1);
    [cyc0, cyc1]
}

pub(crate) fn draw(frame: FrameMut, draw: &Draw) -> Result<u64, Refusal> {
    let FrameMut { width, height, colors, coverages, marks } = frame;
    let (floats, present, indices) = (draw.vertices.floats(), draw.vertices.present(), draw.indices);
    // SAFETY: each pointer and length is a slice's that is borrowed for the call, the three that are written by `&mut`.
    let drawn = unsafe {
        wb_draw(
            draw.engine as u8,
            width,
            height,
            colors.as_mut_ptr(),
            colors.len(),
            coverages.as_mut_ptr(),
            coverages.len(),
            marks.as_mut_ptr(),
            marks.len(),
            mode(&draw.mode),
            uniform(&draw.uniform),
            draw.cull,
            scissor(draw.scissor),
            geometry(draw.geometry),
            floats.as_ptr(),
            floats.len(),
            present.as_ptr(),
            present.len(),
            indices.as_ptr(),
            indices.len(),
        )
    };
    answer(drawn.number, drawn.pixels)
}

/// None past the last pixel.
pub(crate) fn emitted_pixel(frame: Frame, draw: &Draw, k: u64) -> Result<Option<EmittedPixel>, Refusal> {
    let Frame { width, height, colors, coverages, marks } = frame;
    let (floats, present, indices) = (draw.vertices.floats(), draw.vertices.present(), draw.indices);
    // SAFETY: each pointer and length is a slice's that is borrowed for the call.
    let emitted = unsafe {
        wb_emitted_pixel(
            draw.engine as u8,
            width,
            height,
            colors.as_ptr(),
            colors.len(),
            coverages.as_ptr(),
            coverages.len(),
            marks.as_ptr(),
            marks.len(),
            mode(&draw.mode),
            uniform(&draw.uniform),
            draw.cull,
            scissor(draw.scissor),
            geometry(draw.geometry),
            floats.as_ptr(),
            floats.len(),
            present.as_ptr(),
            present.len(),
            indices.as_ptr(),
            indices.len(),
            k,
        )
    };
    // A mask has eight bits.
    let found = EmittedPixel { pixel: emitted.pixel as usize, mask: emitted.mask as u8 };
    answer(emitted.number, (found.mask != 0).then_some(found))
}

pub(crate) fn emitted_pixels(
    frame: Frame,
    draw: &Draw,
    first: u64,
    pixels: &mut [u32],
    masks: &mut [u8],
) -> Result<EmittedRun, Refusal> {
    let Frame { width, height, colors, coverages, marks } = frame;
    let (floats, present, indices) = (draw.vertices.floats(), draw.vertices.present(), draw.indices);
    // SAFETY: each pointer and length is a slice's that is borrowed for the call, the two that are written by `&mut`.
    let run = unsafe {
        wb_emitted_pixels(
            draw.engine as u8,
            width,
            height,
            colors.as_ptr(),
            colors.len(),
            coverages.as_ptr(),
            coverages.len(),
            marks.as_ptr(),
            marks.len(),
            mode(&draw.mode),
            uniform(&draw.uniform),
            draw.cull,
            scissor(draw.scissor),
            geometry(draw.geometry),
            floats.as_ptr(),
            floats.len(),
            present.as_ptr(),
            present.len(),
            indices.as_ptr(),
            indices.len(),
            first,
            pixels.as_mut_ptr(),
            pixels.len(),
            masks.as_mut_ptr(),
            masks.len(),
        )
    };
    answer(run.number, EmittedRun { listed: run.listed, emitted: run.emitted })
}

pub(crate) fn read_word(frame: Frame, pixel: usize, writer: &Writer) -> Result<[u8; 2], Refusal> {
    let Frame { width, height, colors, coverages, marks } = frame;
    // SAFETY: each pointer and length is a slice's that is borrowed for the call.
    let word = unsafe {
        wb_read_word(
            width,
            height,
            colors.as_ptr(),
            colors.len(),
            coverages.as_ptr(),
            coverages.len(),
            marks.as_ptr(),
            marks.len(),
            pixel,
            writer.fmt,
            writer.siz,
            writer.rgb_dither,
            writer.encoding == Encoding::BigEndian,
        )
    };
    let [first, second, ..] = word.value.to_le_bytes();
    answer(word.number, [first, second])
}

pub(crate) fn read_words(
    frame: Frame,
    first: usize,
    writer: &Writer,
    words: &mut [u8],
    numbers: &mut [u8],
) -> Result<u64, Refusal> {
    let Frame { width, height, colors, coverages, marks } = frame;
    // SAFETY: each pointer and length is a slice's that is borrowed for the call, the two that are written by `&mut`.
    let run = unsafe {
        wb_read_words(
            width,
            height,
            colors.as_ptr(),
            colors.len(),
            coverages.as_ptr(),
            coverages.len(),
            marks.as_ptr(),
            marks.len(),
            first,
            writer.fmt,
            writer.siz,
            writer.rgb_dither,
            writer.encoding == Encoding::BigEndian,
            words.as_mut_ptr(),
            words.len(),
            numbers.as_mut_ptr(),
            numbers.len(),
        )
    };
    answer(run.number, run.words)
}
