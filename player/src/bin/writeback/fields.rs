//! The fields of the settings by their names in a file.

use crate::words::{quoted, Words};
use writeback::{
    AlphaCompare, AlphaIn, BlendAlpha, BlendClass, BlendFactor, BlendSource, Blender, ColorIn, CombinerUniform,
    CycleSel, Encoding, Engine, RenderMode, Writer, ZMode,
};

const BLEND_CLASSES: [(&str, BlendClass); 4] = [
    ("replace", BlendClass::Replace),
    ("blend_color", BlendClass::BlendColor),
    ("alpha_over", BlendClass::AlphaOver),
    ("dual_src", BlendClass::DualSrc),
];

const Z_MODES: [(&str, ZMode); 4] =
    [("opa", ZMode::Opa), ("inter", ZMode::Inter), ("xlu", ZMode::Xlu), ("decal", ZMode::Decal)];

const ALPHA_COMPARES: [(&str, AlphaCompare); 3] =
    [("none", AlphaCompare::None), ("threshold", AlphaCompare::Threshold), ("dither", AlphaCompare::Dither)];

const BLEND_SOURCES: [(&str, BlendSource); 4] = [
    ("pixel", BlendSource::Pixel),
    ("memory", BlendSource::Memory),
    ("blend", BlendSource::Blend),
    ("fog", BlendSource::Fog),
];

const BLEND_ALPHAS: [(&str, BlendAlpha); 4] = [
    ("pixel_alpha", BlendAlpha::Pixel),
    ("fog_alpha", BlendAlpha::Fog),
    ("shade_alpha", BlendAlpha::Shade),
    ("zero", BlendAlpha::Zero),
];

const BLEND_FACTORS: [(&str, BlendFactor); 4] = [
    ("one_minus_a", BlendFactor::OneMinusA),
    ("coverage", BlendFactor::Coverage),
    ("one", BlendFactor::One),
    ("zero", BlendFactor::Zero),
];

const COLOR_INPUTS: [(&str, ColorIn); 21] = [
    ("combined", ColorIn::Combined),
    ("texel0", ColorIn::Texel0),
    ("primitive", ColorIn::Primitive),
    ("shade", ColorIn::Shade),
    ("environment", ColorIn::Environment),
    ("zero", ColorIn::Zero),
    ("one", ColorIn::One),
    ("texel1", ColorIn::Texel1),
    ("key_center", ColorIn::KeyCenter),
    ("k4", ColorIn::K4),
    ("key_scale", ColorIn::KeyScale),
    ("combined_alpha", ColorIn::CombinedAlpha),
    ("texel0_alpha", ColorIn::Texel0Alpha),
    ("texel1_alpha", ColorIn::Texel1Alpha),
    ("primitive_alpha", ColorIn::PrimitiveAlpha),
    ("shade_alpha", ColorIn::ShadeAlpha),
    ("env_alpha", ColorIn::EnvAlpha),
    ("lod_fraction", ColorIn::LodFraction),
    ("prim_lod_frac", ColorIn::PrimLodFrac),
    ("k5", ColorIn::K5),
    ("noise", ColorIn::Noise),
];

const ALPHA_INPUTS: [(&str, AlphaIn); 10] = [
    ("combined", AlphaIn::Combined),
    ("texel0", AlphaIn::Texel0),
    ("primitive", AlphaIn::Primitive),
    ("shade", AlphaIn::Shade),
    ("environment", AlphaIn::Environment),
    ("zero", AlphaIn::Zero),
    ("one", AlphaIn::One),
    ("texel1", AlphaIn::Texel1),
    ("lod_fraction", AlphaIn::LodFraction),
    ("prim_lod_frac", AlphaIn::PrimLodFrac),
];

pub const ENGINES: [(&str, Engine); 2] = [("fast", Engine::Fast), ("slow", Engine::Slow)];

const ENCODINGS: [(&str, Encoding); 2] = [("native", Encoding::Native), ("big_endian", Encoding::BigEndian)];

/// A field and its value, again and again; there is one at least. `default` as the only word sets all.
fn fields<T: Default>(
    target: &mut T,
    words: &mut Words,
    set: impl Fn(&mut T, &str, &mut Words) -> Result<(), String>,
) -> Result<(), String> {
    let mut name = words.needed("a field")?;
    if name == "default" {
        *target = T::default();
        return Ok(());
    }
    loop {
        set(target, name, words)?;
        match words.next() {
            Some(next) => name = next,
            None => return Ok(()),
        }
    }
}

fn no_field(of: &str, name: &str) -> String {
    format!("{of} has no field {}", quoted(name))
}

fn mode_field(mode: &mut RenderMode, name: &str, words: &mut Words) -> Result<(), String> {
    match name {
        "cycle_type" => mode.cycle_type = words.u32(name)?,
        "rgb_dither" => mode.rgb_dither = words.u8(name)?,
        "alpha_dither" => mode.alpha_dither = words.u8(name)?,
        "key_enabled" => mode.key_enabled = words.flag(name)?,
        "cvg_dst" => mode.cvg_dst = words.u8(name)?,
        "image_read" => mode.image_read = words.flag(name)?,
        "antialias" => mode.antialias = words.flag(name)?,
        "alpha_cvg_select" => mode.alpha_cvg_select = words.flag(name)?,
        "color_on_coverage" => mode.color_on_coverage = words.flag(name)?,
        "blender_mux" => mode.blender_mux = words.u16(name)?,
        "force_blend" => mode.force_blend = words.flag(name)?,
        "blend_class" => mode.blend_class = words.one_of(name, &BLEND_CLASSES)?,
        "fallback_class" => mode.fallback_class = words.one_of(name, &BLEND_CLASSES)?,
        "non_canonical_blend" => mode.non_canonical_blend = words.flag(name)?,
        "z_source_prim" => mode.z_source_prim = words.flag(name)?,
        "z_test" => mode.z_test = words.flag(name)?,
        "z_write" => mode.z_write = words.flag(name)?,
        "z_mode" => mode.z_mode = words.one_of(name, &Z_MODES)?,
        "fog" => mode.fog = words.flag(name)?,
        "alpha_compare" => mode.alpha_compare = words.one_of(name, &ALPHA_COMPARES)?,
        "cvg_x_alpha" => mode.cvg_x_alpha = words.flag(name)?,
        _ => return Err(no_field("the mode", name)),
    }
    Ok(())
}

pub fn mode(mode: &mut RenderMode, words: &mut Words) -> Result<(), String> {
    fields(mode, words, mode_field)
}

fn uniform_field(uniform: &mut CombinerUniform, name: &str, words: &mut Words) -> Result<(), String> {
    match name {
        "combine_l" => uniform.combine_l = words.u32(name)?,
        "combine_h" => uniform.combine_h = words.u32(name)?,
        "cycle_type" => uniform.cycle_type = words.u32(name)?,
        "tex_enable" => uniform.tex_enable = words.u32(name)?,
        "blender_mux" => uniform.blender_mux = words.u32(name)?,
        "force_blend" => uniform.force_blend = words.u32(name)?,
        "alpha_flags" => uniform.alpha_flags = words.u32(name)?,
        "alpha_threshold" => uniform.alpha_threshold = words.float(name)?,
        "prim" => uniform.prim = words.floats(name)?,
        "env" => uniform.env = words.floats(name)?,
        "blend_color" => uniform.blend_color = words.floats(name)?,
        "fog_color" => uniform.fog_color = words.floats(name)?,
        "inv_tex_size" => uniform.inv_tex_size = words.floats(name)?,
        "inv_tex1_size" => uniform.inv_tex1_size = words.floats(name)?,
        "lod_params" => uniform.lod_params = words.floats(name)?,
        "inv_detail_size" => uniform.inv_detail_size = words.floats(name)?,
        "frame" => uniform.frame = words.u32s(name)?,
        "is_rect" => uniform.is_rect = words.u32(name)?,
        "coverage_slot" => uniform.coverage_slot = words.u32(name)?,
        "fill_word" => uniform.fill_word = words.u32(name)?,
        "fill_siz" => uniform.fill_siz = words.u32(name)?,
        "primitive_depth" => uniform.primitive_depth = words.u32s(name)?,
        "native_scale" => uniform.native_scale = words.floats(name)?,
        "raster" => uniform.raster = words.u32s(name)?,
        _ => return Err(no_field("the uniform", name)),
    }
    Ok(())
}

pub fn uniform(uniform: &mut CombinerUniform, words: &mut Words) -> Result<(), String> {
    fields(uniform, words, uniform_field)
}

fn writer_field(writer: &mut Writer, name: &str, words: &mut Words) -> Result<(), String> {
    match name {
        "fmt" => writer.fmt = words.u8(name)?,
        "siz" => writer.siz = words.u8(name)?,
        "rgb_dither" => writer.rgb_dither = words.u8(name)?,
        "encoding" => writer.encoding = words.one_of(name, &ENCODINGS)?,
        _ => return Err(no_field("the writer", name)),
    }
    Ok(())
}

pub fn writer(writer: &mut Writer, words: &mut Words) -> Result<(), String> {
    fields(writer, words, writer_field)
}

/// P, A, M and B.
pub fn blender(words: &mut Words) -> Result<u16, String> {
    let p = words.one_of("P", &BLEND_SOURCES)?;
    let a = words.one_of("A", &BLEND_ALPHAS)?;
    let m = words.one_of("M", &BLEND_SOURCES)?;
    let b = words.one_of("B", &BLEND_FACTORS)?;
    Ok(Blender { p, a, m, b }.mux())
}

/// The four colour inputs and the four alpha inputs.
pub fn combine(words: &mut Words) -> Result<(u32, u32), String> {
    let cycle = CycleSel {
        ca: words.one_of("ca", &COLOR_INPUTS)?,
        cb: words.one_of("cb", &COLOR_INPUTS)?,
        cc: words.one_of("cc", &COLOR_INPUTS)?,
        cd: words.one_of("cd", &COLOR_INPUTS)?,
        aa: words.one_of("aa", &ALPHA_INPUTS)?,
        ab: words.one_of("ab", &ALPHA_INPUTS)?,
        ac: words.one_of("ac", &ALPHA_INPUTS)?,
        ad: words.one_of("ad", &ALPHA_INPUTS)?,
    };
    cycle.combine_words().ok_or_else(|| "a slot of the combiner cannot name its input".into())
}
