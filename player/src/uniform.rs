//! The combiner uniform of a draw: the fields of the Rust original's `CombinerUniform`.

use crate::selectors::CycleSel;

/// The combiner's words and constants. `Default` is zeros.
///
/// Colours are red, green, blue and alpha, from 0.0 to 1.0. The fields that no draw looks at are there so that a player hands
/// over what it has.
#[derive(Clone, Copy, Debug, Default, PartialEq)]
pub struct CombinerUniform {
    /// The first combine word, w0. [`CombinerUniform::with_inputs`] sets both.
    pub combine_l: u32,
    /// The second combine word, w1.
    pub combine_h: u32,
    /// No draw looks at it: the mode's counts.
    pub cycle_type: u32,
    /// Not 0 where the draw has a texture: number 6.
    pub tex_enable: u32,
    /// No draw looks at it: the mode's counts.
    pub blender_mux: u32,
    /// No draw looks at it: the mode's counts.
    pub force_blend: u32,
    /// No draw looks at it.
    pub alpha_flags: u32,
    /// No draw looks at it.
    pub alpha_threshold: f32,
    /// The primitive colour.
    pub prim: [f32; 4],
    /// The environment colour.
    pub env: [f32; 4],
    /// The blend colour, for the blender.
    pub blend_color: [f32; 4],
    /// The fog colour, for the blender.
    pub fog_color: [f32; 4],
    /// No draw looks at it.
    pub inv_tex_size: [f32; 4],
    /// No draw looks at it.
    pub inv_tex1_size: [f32; 4],
    /// The third is the primitive's level of detail, input `PrimLodFrac`; no draw looks at the others.
    pub lod_params: [f32; 4],
    /// No draw looks at it.
    pub inv_detail_size: [f32; 4],
    /// No draw looks at it.
    pub frame: [u32; 4],
    /// No draw looks at it.
    pub is_rect: u32,
    /// No draw looks at it.
    pub coverage_slot: u32,
    /// No draw looks at it.
    pub fill_word: u32,
    /// No draw looks at it.
    pub fill_siz: u32,
    /// No draw looks at it.
    pub primitive_depth: [u32; 4],
    /// No draw looks at it.
    pub native_scale: [f32; 4],
    /// No draw looks at it.
    pub raster: [u32; 4],
}

impl CombinerUniform {
    /// The uniform with combine words for these inputs, or `None` where a slot cannot name its input.
    pub fn with_inputs(self, cycle: CycleSel) -> Option<CombinerUniform> {
        let (combine_l, combine_h) = cycle.combine_words()?;
        Some(CombinerUniform { combine_l, combine_h, ..self })
    }
}
