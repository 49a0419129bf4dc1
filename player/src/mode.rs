//! The render mode of a draw: the fields of the Rust original's `RenderMode`, and the blender's four inputs.

/// What the blender does with a fragment.
#[derive(Clone, Copy, Debug, Default, PartialEq, Eq, Hash)]
pub enum BlendClass {
    /// The fragment replaces memory.
    #[default]
    Replace,
    /// The blend colour is written.
    BlendColor,
    /// The fragment goes over memory by its alpha.
    AlphaOver,
    /// Any other mix of two sources.
    DualSrc,
}

/// How depths are compared.
#[derive(Clone, Copy, Debug, Default, PartialEq, Eq, Hash)]
pub enum ZMode {
    /// Opaque surfaces.
    #[default]
    Opa,
    /// Interpenetrating surfaces.
    Inter,
    /// Translucent surfaces.
    Xlu,
    /// Decals.
    Decal,
}

/// What alphas are compared with.
#[derive(Clone, Copy, Debug, Default, PartialEq, Eq, Hash)]
pub enum AlphaCompare {
    /// Nothing.
    #[default]
    None,
    /// The blend colour's alpha.
    Threshold,
    /// Noise.
    Dither,
}

/// The decoded render mode of a draw. `Default` is zeros, `false` and each enum's first case.
///
/// A draw whose mode needs more than is worked out here is turned away with number 6. The fields that no draw looks at are
/// there so that a player hands over what it has.
#[derive(Clone, Copy, Debug, Default, PartialEq, Eq, Hash)]
pub struct RenderMode {
    /// The pipeline: 0 one cycle, 1 two cycles, 2 copy, 3 fill. Other than 0 is number 6.
    pub cycle_type: u32,
    /// The dither of colours. No draw looks at it; a word read has its own.
    pub rgb_dither: u8,
    /// The dither of alphas. No draw looks at it.
    pub alpha_dither: u8,
    /// Chroma keying. No draw looks at it.
    pub key_enabled: bool,
    /// What becomes of a coverage: 0 added up to full or, unblended, the pixel's own; 1 added modulo 8; 2 full; else kept.
    ///
    /// One that is not known becomes known where this is one number for every coverage that it may be: with 2; with 0 where
    /// all eight samples are hit, or seven and [`force_blend`](RenderMode::force_blend) is on, or neither `force_blend` nor
    /// [`antialias`](RenderMode::antialias) is on.
    pub cvg_dst: u8,
    /// Whether colour memory is read. No draw looks at it.
    pub image_read: bool,
    /// Whether pixels covered in part are emitted, and blended where the coverages do not add up to full.
    pub antialias: bool,
    /// Alpha from the coverage: number 6.
    pub alpha_cvg_select: bool,
    /// Colour written only where the coverage overflows: number 6.
    pub color_on_coverage: bool,
    /// The blender's inputs: [`Blender::mux`] puts them together.
    pub blender_mux: u16,
    /// Whether every pixel is blended.
    pub force_blend: bool,
    /// What the mode comes to; [`BlendClass::BlendColor`] is number 6.
    pub blend_class: BlendClass,
    /// What a device without two sources does. No draw looks at it.
    pub fallback_class: BlendClass,
    /// Whether the mode blends in an unusual way. No draw looks at it.
    pub non_canonical_blend: bool,
    /// Depth from the primitive. No draw looks at it.
    pub z_source_prim: bool,
    /// Depth compared: number 6.
    pub z_test: bool,
    /// Depth written: number 6.
    pub z_write: bool,
    /// How depths are compared. No draw looks at it.
    pub z_mode: ZMode,
    /// Fog. No draw looks at it.
    pub fog: bool,
    /// Alphas compared: other than [`AlphaCompare::None`] is number 6.
    pub alpha_compare: AlphaCompare,
    /// Coverage multiplied with alpha: number 6.
    pub cvg_x_alpha: bool,
}

/// A colour that the blender takes in as P or M.
#[derive(Clone, Copy, Debug, Default, PartialEq, Eq, Hash)]
pub enum BlendSource {
    /// The fragment's.
    #[default]
    Pixel,
    /// The frame's.
    Memory,
    /// The blend colour.
    Blend,
    /// The fog colour.
    Fog,
}

/// The factor A of P.
#[derive(Clone, Copy, Debug, Default, PartialEq, Eq, Hash)]
pub enum BlendAlpha {
    /// The fragment's alpha.
    #[default]
    Pixel,
    /// The fog colour's alpha.
    Fog,
    /// The shade's alpha.
    Shade,
    /// 0.
    Zero,
}

/// The factor B of M.
#[derive(Clone, Copy, Debug, Default, PartialEq, Eq, Hash)]
pub enum BlendFactor {
    /// 1 - A.
    #[default]
    OneMinusA,
    /// The frame's coverage over 8.
    Coverage,
    /// 1.
    One,
    /// 0.
    Zero,
}

/// The blender's inputs: a blended colour is P × A + M × B, divided by A + B unless `force_blend` is on.
///
/// ```
/// use writeback::{BlendSource, Blender};
///
/// // The fragment over memory, by the fragment's alpha.
/// let over = Blender { m: BlendSource::Memory, ..Blender::default() };
/// assert_eq!(over.mux(), 0x0040);
/// ```
#[derive(Clone, Copy, Debug, Default, PartialEq, Eq, Hash)]
pub struct Blender {
    /// The first colour.
    pub p: BlendSource,
    /// Its factor.
    pub a: BlendAlpha,
    /// The second colour.
    pub m: BlendSource,
    /// Its factor.
    pub b: BlendFactor,
}

impl Blender {
    /// The word for [`RenderMode::blender_mux`]: P at bit 14, A at 10, M at 6, B at 2. The second cycle's bits, which are
    /// not looked at here, are 0.
    pub fn mux(self) -> u16 {
        (self.p as u16) << 14 | (self.a as u16) << 10 | (self.m as u16) << 6 | (self.b as u16) << 2
    }
}
