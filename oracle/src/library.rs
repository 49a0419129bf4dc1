//! The port's C interface (crate `writeback_sys`): its structs under shorter names and as words, and a safe function over
//! each of its functions.

use crate::draws::{Draw, Frame, Read, Shape};
use crate::words::{Sheet, Words};
use std::num::NonZeroU8;
use writeback_sys::{wb_admitted, wb_draw, wb_emitted_pixel, wb_emitted_pixels, wb_pixel, wb_read_word, wb_read_words};
pub use writeback_sys::{
    wb_answer as Answer, wb_color_answer as ColorAnswer, wb_combiner as Combiner, wb_combiner_answer as CombinerAnswer,
    wb_drawn as DrawAnswer, wb_emitted as EmittedAnswer, wb_emitted_run as EmittedRunAnswer,
    wb_fragment as FragmentAnswer, wb_geometry as Geometry, wb_mode as Mode, wb_rgba as Rgba, wb_run as RunAnswer,
    wb_scissor as Scissor, wb_selectors as Selectors, wb_strict_answer as StrictAnswer, wb_uniform as Uniform,
};

/// The words of structs: those of all their fields, in this order.
macro_rules! words {
    ($($name:ident { $($field:ident)* })*) => {$(
        impl Words for $name {
            fn words(&self, sheet: &mut Sheet) {
                let $name { $($field),* } = self;
                $($field.words(sheet);)*
            }

            fn alike(&self, other: &Self) -> bool {
                $(self.$field.alike(&other.$field))&&*
            }
        }
    )*};
}

words! {
    Rgba { r g b a }
    Mode {
        cycle_type blender_mux rgb_dither alpha_dither cvg_dst blend_class fallback_class z_mode alpha_compare
        key_enabled image_read antialias alpha_cvg_select color_on_coverage force_blend non_canonical_blend
        z_source_prim z_test z_write fog cvg_x_alpha
    }
    Uniform {
        combine_l combine_h cycle_type tex_enable blender_mux force_blend alpha_flags alpha_threshold
        prim env blend_color fog_color inv_tex_size inv_tex1_size lod_params inv_detail_size
        frame is_rect coverage_slot fill_word fill_siz primitive_depth native_scale raster
    }
    Combiner { selectors prim env blend fog lod }
    Answer { number value }
    Scissor { left top width height }
    Geometry { kind left top right bottom }
    Selectors { raw_l raw_h cyc0 cyc1 }
    ColorAnswer { some rgba }
    CombinerAnswer { some combiner }
    StrictAnswer { some word }
}

/// Every function that takes plain values: the name of its call's struct (calls.rs), its own name, its symbol and its type,
/// which the compiler holds to the declaration.
macro_rules! interface {
    ($then:ident) => {
        $then! {
            ColorA color_a = wb_color_a(index: u32) -> u32;
            ColorB color_b = wb_color_b(index: u32) -> u32;
            ColorC color_c = wb_color_c(index: u32) -> u32;
            ColorD color_d = wb_color_d(index: u32) -> u32;
            AlphaAbd alpha_abd = wb_alpha_abd(index: u32) -> u32;
            AlphaC alpha_c = wb_alpha_c(index: u32) -> u32;
            DecodeCombine decode_combine = wb_decode_combine(w0: u32, w1: u32) -> Selectors;
            Clamp clamp = wb_clamp(x: f32) -> f32;
            ByteOf byte_of = wb_byte_of(x: f32) -> u8;
            Quarter quarter = wb_quarter(x: f32) -> i64;
            FloorIndex floor_index = wb_floor_index(x: f32) -> u32;
            CeilIndex ceil_index = wb_ceil_index(x: f32) -> u32;
            IsFinite is_finite = wb_is_finite(x: f32) -> bool;
            LeTotal le_total = wb_le_total(a: f32, b: f32) -> bool;
            InRange in_range = wb_in_range(x: f32, y: f32) -> bool;
            CombinerNew combiner_new = wb_combiner_new(uniform: Uniform, mode: Mode) -> CombinerAnswer;
            CombinerColor combiner_color = wb_combiner_color(combiner: Combiner, shade: Rgba) -> ColorAnswer;
            StrictColor strict_color = wb_strict_color(combiner: Combiner) -> StrictAnswer;
            Destination destination = wb_destination(mode: Mode, mask: u8, memory: u8) -> Answer;
            ColorKnown color_known = wb_color_known(
                mode: Mode, alpha: f32, mask: u8, known: bool, coverage: u8, memory_rgb: bool
            ) -> Answer;
            Blend blend = wb_blend(
                mode: Mode, combiner: Combiner, rgba: Rgba, memory: Rgba, shade_alpha: f32, mask: u8, coverage: u8
            ) -> Answer;
            PackColor pack_color = wb_pack_color(rgba: u32, coverage: u8, dither: u8) -> Answer;
            PackDepth pack_depth = wb_pack_depth(depth: f32) -> u32;
            Supported supported = wb_supported(fmt: u8, siz: u8, width: u32, depth: bool) -> Answer;
            PixelBytes pixel_bytes = wb_pixel_bytes(fmt: u8, siz: u8, width: u32, depth: bool) -> Answer;
            Encode encode = wb_encode(
                fmt: u8, siz: u8, width: u32, depth: bool, rgba: u32, coverage: u8, pixel: u32, literal: bool, word: u32,
                rgb_dither: u8, big_endian: bool
            ) -> Answer;
        }
    };
}

pub(crate) use interface;

/// A function for each, by its own name.
macro_rules! functions {
    ($($call:ident $name:ident = $symbol:ident($($argument:ident: $kind:ty),*) -> $answer:ty;)*) => {$(
        #[allow(clippy::too_many_arguments)] // As many as the interface's function has.
        pub fn $name($($argument: $kind),*) -> $answer {
            writeback_sys::$symbol($($argument),*)
        }
    )*};
}

interface! { functions }

/// A call: the arguments before the shape's lists, the shape, and the arguments behind them.
// SAFETY: the library's functions are total; each pointer and length is that of a slice that is lent for the call, and
// what is lent to be written is lent to nobody else.
macro_rules! with_lists {
    ($symbol:ident($($before:expr),*; $shape:expr; $($behind:expr),*)) => {
        unsafe {
            $symbol(
                $($before,)*
                $shape.vertices.as_ptr(),
                $shape.vertices.len(),
                $shape.present.as_ptr(),
                $shape.present.len(),
                $shape.indices.as_ptr(),
                $shape.indices.len(),
                $($behind,)*
            )
        }
    };
}

pub fn admitted(combiner: Combiner, shape: &Shape) -> bool {
    with_lists! { wb_admitted(combiner, shape.geometry; shape;) }
}

pub fn pixel(mode: Mode, combiner: Combiner, shape: &Shape, i: usize, y: u32, x: u32) -> FragmentAnswer {
    with_lists! { wb_pixel(mode, combiner, shape.cull, shape.geometry; shape; i, y, x) }
}

/// What finds a draw's pixels.
#[derive(Clone, Copy, Debug, PartialEq)]
pub enum Engine {
    Fast,
    /// By one of its numbers, which are all but 0.
    Slow(NonZeroU8),
}

impl Engine {
    pub const SLOW: Engine = Engine::Slow(NonZeroU8::MIN);

    /// As the interface takes it.
    pub fn number(self) -> u8 {
        match self {
            Engine::Fast => 0,
            Engine::Slow(number) => number.get(),
        }
    }
}

pub fn draw(engine: Engine, frame: &mut Frame, draw: &Draw) -> DrawAnswer {
    let Frame { width, height, colors, coverages, marks } = frame;
    let shape = &draw.shape;
    with_lists! {
        wb_draw(
            engine.number(), *width, *height,
            colors.as_mut_ptr(), colors.len(), coverages.as_mut_ptr(), coverages.len(), marks.as_mut_ptr(), marks.len(),
            draw.mode, draw.uniform, shape.cull, shape.scissor, shape.geometry;
            shape;
        )
    }
}

pub fn emitted_pixel(engine: Engine, frame: &Frame, draw: &Draw, k: u64) -> EmittedAnswer {
    let Frame { width, height, colors, coverages, marks } = frame;
    let shape = &draw.shape;
    with_lists! {
        wb_emitted_pixel(
            engine.number(), *width, *height,
            colors.as_ptr(), colors.len(), coverages.as_ptr(), coverages.len(), marks.as_ptr(), marks.len(),
            draw.mode, draw.uniform, shape.cull, shape.scissor, shape.geometry;
            shape;
            k
        )
    }
}

/// The run of emitted pixels from `first` on.
pub fn emitted_pixels(
    engine: Engine,
    frame: &Frame,
    draw: &Draw,
    first: u64,
    pixels: &mut [u32],
    masks: &mut [u8],
) -> EmittedRunAnswer {
    let Frame { width, height, colors, coverages, marks } = frame;
    let shape = &draw.shape;
    with_lists! {
        wb_emitted_pixels(
            engine.number(), *width, *height,
            colors.as_ptr(), colors.len(), coverages.as_ptr(), coverages.len(), marks.as_ptr(), marks.len(),
            draw.mode, draw.uniform, shape.cull, shape.scissor, shape.geometry;
            shape;
            first, pixels.as_mut_ptr(), pixels.len(), masks.as_mut_ptr(), masks.len()
        )
    }
}

pub fn read_word(frame: &Frame, read: &Read) -> Answer {
    let Frame { width, height, colors, coverages, marks } = frame;
    // SAFETY: as above.
    unsafe {
        wb_read_word(
            *width,
            *height,
            colors.as_ptr(),
            colors.len(),
            coverages.as_ptr(),
            coverages.len(),
            marks.as_ptr(),
            marks.len(),
            read.pixel,
            read.fmt,
            read.siz,
            read.rgb_dither,
            read.big_endian,
        )
    }
}

/// The run of words from the read's pixel on.
pub fn read_words(frame: &Frame, read: &Read, words: &mut [u8], numbers: &mut [u8]) -> RunAnswer {
    let Frame { width, height, colors, coverages, marks } = frame;
    // SAFETY: as above.
    unsafe {
        wb_read_words(
            *width,
            *height,
            colors.as_ptr(),
            colors.len(),
            coverages.as_ptr(),
            coverages.len(),
            marks.as_ptr(),
            marks.len(),
            read.pixel,
            read.fmt,
            read.siz,
            read.rgb_dither,
            read.big_endian,
            words.as_mut_ptr(),
            words.len(),
            numbers.as_mut_ptr(),
            numbers.len(),
        )
    }
}
