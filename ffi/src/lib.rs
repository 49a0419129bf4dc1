//! The C interface of the proved library (include/writeback.h), declared for Rust: its structs and its functions by their C
//! names, and nothing over them. c/header.sh holds the declarations to the header, which says what each of them means. The
//! build script builds and links the library; crate `writeback` (player/) is the safe interface.
//!
//! The functions are proved to return on every input, to keep nothing, to read and write nothing outside the lists that they
//! are lent, and to write only what is lent to be written. So those that take plain values alone are safe. Of the others
//! each pointer and length must be a slice's that is lent for the call, to nobody else where it is `*mut`.
#![no_std]
#![allow(non_camel_case_types)] // The structs have their C names.

use core::mem::{offset_of, size_of};

#[repr(C)]
#[derive(Clone, Copy, Debug, Default)]
pub struct wb_rgba {
    pub r: f32,
    pub g: f32,
    pub b: f32,
    pub a: f32,
}

#[repr(C)]
#[derive(Clone, Copy, Debug, Default)]
pub struct wb_mode {
    pub cycle_type: u32,
    pub blender_mux: u16,
    pub rgb_dither: u8,
    pub alpha_dither: u8,
    pub cvg_dst: u8,
    pub blend_class: u8,
    pub fallback_class: u8,
    pub z_mode: u8,
    pub alpha_compare: u8,
    pub key_enabled: bool,
    pub image_read: bool,
    pub antialias: bool,
    pub alpha_cvg_select: bool,
    pub color_on_coverage: bool,
    pub force_blend: bool,
    pub non_canonical_blend: bool,
    pub z_source_prim: bool,
    pub z_test: bool,
    pub z_write: bool,
    pub fog: bool,
    pub cvg_x_alpha: bool,
}

const _: () = assert!(size_of::<wb_mode>() == 28 && offset_of!(wb_mode, cvg_x_alpha) == 24);

#[repr(C)]
#[derive(Clone, Copy, Debug, Default)]
pub struct wb_uniform {
    pub combine_l: u32,
    pub combine_h: u32,
    pub cycle_type: u32,
    pub tex_enable: u32,
    pub blender_mux: u32,
    pub force_blend: u32,
    pub alpha_flags: u32,
    pub alpha_threshold: f32,
    pub prim: wb_rgba,
    pub env: wb_rgba,
    pub blend_color: wb_rgba,
    pub fog_color: wb_rgba,
    pub inv_tex_size: [f32; 4],
    pub inv_tex1_size: [f32; 4],
    pub lod_params: [f32; 4],
    pub inv_detail_size: [f32; 4],
    pub frame: [u32; 4],
    pub is_rect: u32,
    pub coverage_slot: u32,
    pub fill_word: u32,
    pub fill_siz: u32,
    pub primitive_depth: [u32; 4],
    pub native_scale: [f32; 4],
    pub raster: [u32; 4],
}

const _: () = assert!(size_of::<wb_uniform>() == 240 && offset_of!(wb_uniform, raster) == 224);

#[repr(C)]
#[derive(Clone, Copy, Debug, Default)]
pub struct wb_combiner {
    pub selectors: [u8; 8],
    pub prim: wb_rgba,
    pub env: wb_rgba,
    pub blend: wb_rgba,
    pub fog: wb_rgba,
    pub lod: f32,
}

#[repr(C)]
#[derive(Clone, Copy, Debug, Default)]
pub struct wb_answer {
    pub number: u32,
    pub value: u32,
}

#[repr(C)]
#[derive(Clone, Copy, Debug, Default)]
pub struct wb_selectors {
    pub raw_l: u32,
    pub raw_h: u32,
    pub cyc0: [u8; 8],
    pub cyc1: [u8; 8],
}

#[repr(C)]
#[derive(Clone, Copy, Debug, Default)]
pub struct wb_color_answer {
    pub some: bool,
    pub rgba: wb_rgba,
}

#[repr(C)]
#[derive(Clone, Copy, Debug, Default)]
pub struct wb_strict_answer {
    pub some: bool,
    pub word: u16,
}

#[repr(C)]
#[derive(Clone, Copy, Debug, Default)]
pub struct wb_combiner_answer {
    pub some: bool,
    pub combiner: wb_combiner,
}

#[repr(C)]
#[derive(Clone, Copy, Debug, Default)]
pub struct wb_geometry {
    pub kind: u32,
    pub left: f32,
    pub top: f32,
    pub right: f32,
    pub bottom: f32,
}

#[repr(C)]
#[derive(Clone, Copy, Debug, Default)]
pub struct wb_fragment {
    pub mask: u32,
    pub rgba: wb_rgba,
    pub shade_alpha: f32,
}

#[repr(C)]
#[derive(Clone, Copy, Debug, Default)]
pub struct wb_scissor {
    pub left: u32,
    pub top: u32,
    pub width: u32,
    pub height: u32,
}

#[repr(C)]
#[derive(Clone, Copy, Debug, Default)]
pub struct wb_drawn {
    pub number: u32,
    pub pixels: u64,
}

#[repr(C)]
#[derive(Clone, Copy, Debug, Default)]
pub struct wb_emitted {
    pub number: u32,
    pub pixel: u32,
    pub mask: u32,
}

#[repr(C)]
#[derive(Clone, Copy, Debug, Default)]
pub struct wb_emitted_run {
    pub number: u32,
    pub listed: u64,
    pub emitted: u64,
}

#[repr(C)]
#[derive(Clone, Copy, Debug, Default)]
pub struct wb_run {
    pub number: u32,
    pub words: u64,
}

unsafe extern "C" {
    pub safe fn wb_color_a(index: u32) -> u32;
    pub safe fn wb_color_b(index: u32) -> u32;
    pub safe fn wb_color_c(index: u32) -> u32;
    pub safe fn wb_color_d(index: u32) -> u32;
    pub safe fn wb_alpha_abd(index: u32) -> u32;
    pub safe fn wb_alpha_c(index: u32) -> u32;
    pub safe fn wb_decode_combine(w0: u32, w1: u32) -> wb_selectors;

    pub safe fn wb_clamp(x: f32) -> f32;
    pub safe fn wb_byte_of(x: f32) -> u8;
    pub safe fn wb_quarter(x: f32) -> i64;
    pub safe fn wb_floor_index(x: f32) -> u32;
    pub safe fn wb_ceil_index(x: f32) -> u32;
    pub safe fn wb_is_finite(x: f32) -> bool;
    pub safe fn wb_le_total(a: f32, b: f32) -> bool;

    pub safe fn wb_combiner_new(uniform: wb_uniform, mode: wb_mode) -> wb_combiner_answer;
    pub safe fn wb_combiner_color(combiner: wb_combiner, shade: wb_rgba) -> wb_color_answer;
    pub safe fn wb_strict_color(combiner: wb_combiner) -> wb_strict_answer;

    pub safe fn wb_destination(mode: wb_mode, mask: u8, memory: u8) -> wb_answer;
    pub safe fn wb_color_known(
        mode: wb_mode,
        alpha: f32,
        mask: u8,
        known: bool,
        coverage: u8,
        memory_rgb: bool,
    ) -> wb_answer;
    pub safe fn wb_blend(
        mode: wb_mode,
        combiner: wb_combiner,
        rgba: wb_rgba,
        memory: wb_rgba,
        shade_alpha: f32,
        mask: u8,
        coverage: u8,
    ) -> wb_answer;

    pub safe fn wb_pack_color(rgba: u32, coverage: u8, dither: u8) -> wb_answer;
    pub safe fn wb_pack_depth(depth: f32) -> u32;
    pub safe fn wb_supported(fmt: u8, siz: u8, width: u32, depth: bool) -> wb_answer;
    pub safe fn wb_pixel_bytes(fmt: u8, siz: u8, width: u32, depth: bool) -> wb_answer;
    pub safe fn wb_encode(
        fmt: u8,
        siz: u8,
        width: u32,
        depth: bool,
        rgba: u32,
        coverage: u8,
        pixel: u32,
        literal: bool,
        word: u32,
        rgb_dither: u8,
        big_endian: bool,
    ) -> wb_answer;

    pub safe fn wb_in_range(x: f32, y: f32) -> bool;
    pub unsafe fn wb_admitted(
        combiner: wb_combiner,
        geometry: wb_geometry,
        vertices: *const f32,
        vertices_len: usize,
        present: *const u8,
        present_len: usize,
        indices: *const u32,
        indices_len: usize,
    ) -> bool;
    pub unsafe fn wb_pixel(
        mode: wb_mode,
        combiner: wb_combiner,
        cull: bool,
        geometry: wb_geometry,
        vertices: *const f32,
        vertices_len: usize,
        present: *const u8,
        present_len: usize,
        indices: *const u32,
        indices_len: usize,
        i: usize,
        y: u32,
        x: u32,
    ) -> wb_fragment;

    pub unsafe fn wb_draw(
        engine: u8,
        width: u32,
        height: u32,
        colors: *mut u8,
        colors_len: usize,
        coverages: *mut u8,
        coverages_len: usize,
        marks: *mut u8,
        marks_len: usize,
        mode: wb_mode,
        uniform: wb_uniform,
        cull: bool,
        scissor: wb_scissor,
        geometry: wb_geometry,
        vertices: *const f32,
        vertices_len: usize,
        present: *const u8,
        present_len: usize,
        indices: *const u32,
        indices_len: usize,
    ) -> wb_drawn;
    pub unsafe fn wb_emitted_pixel(
        engine: u8,
        width: u32,
        height: u32,
        colors: *const u8,
        colors_len: usize,
        coverages: *const u8,
        coverages_len: usize,
        marks: *const u8,
        marks_len: usize,
        mode: wb_mode,
        uniform: wb_uniform,
        cull: bool,
        scissor: wb_scissor,
        geometry: wb_geometry,
        vertices: *const f32,
        vertices_len: usize,
        present: *const u8,
        present_len: usize,
        indices: *const u32,
        indices_len: usize,
        k: u64,
    ) -> wb_emitted;
    pub unsafe fn wb_emitted_pixels(
        engine: u8,
        width: u32,
        height: u32,
        colors: *const u8,
        colors_len: usize,
        coverages: *const u8,
        coverages_len: usize,
        marks: *const u8,
        marks_len: usize,
        mode: wb_mode,
        uniform: wb_uniform,
        cull: bool,
        scissor: wb_scissor,
        geometry: wb_geometry,
        vertices: *const f32,
        vertices_len: usize,
        present: *const u8,
        present_len: usize,
        indices: *const u32,
        indices_len: usize,
        first: u64,
        pixels: *mut u32,
        pixels_len: usize,
        masks: *mut u8,
        masks_len: usize,
    ) -> wb_emitted_run;
    pub unsafe fn wb_read_word(
        width: u32,
        height: u32,
        colors: *const u8,
        colors_len: usize,
        coverages: *const u8,
        coverages_len: usize,
        marks: *const u8,
        marks_len: usize,
        pixel: usize,
        fmt: u8,
        siz: u8,
        rgb_dither: u8,
        big_endian: bool,
    ) -> wb_answer;
    pub unsafe fn wb_read_words(
        width: u32,
        height: u32,
        colors: *const u8,
        colors_len: usize,
        coverages: *const u8,
        coverages_len: usize,
        marks: *const u8,
        marks_len: usize,
        first: usize,
        fmt: u8,
        siz: u8,
        rgb_dither: u8,
        big_endian: bool,
        words: *mut u8,
        words_len: usize,
        numbers: *mut u8,
        numbers_len: usize,
    ) -> wb_run;
}
