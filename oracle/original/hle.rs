//! Stand-in for hle/mod.rs and for the modules below hle that blender.rs and combiner.rs name.

include!(concat!(env!("OUT_DIR"), "/hle_modules.rs"));

pub use blender::{AlphaCompare, BlendClass, RenderMode, ZMode};

/// The names of libultra's gbi.h that the two files use.
pub mod consts {
    pub const G_FOG: u32 = 0x0001_0000;
    pub const G_CK_KEY: u32 = 1 << 8;
    pub const G_TC_FILT: u32 = 6 << 9;
    pub const G_CYC_COPY: u32 = 2;

    pub mod rdp {
        pub const AC_THRESHOLD: u32 = 1;
        pub const AC_DITHER: u32 = 3;
        pub const G_ZS_PRIM: u32 = 1 << 2;
        pub const AA_EN: u32 = 0x8;
        pub const Z_CMP: u32 = 0x10;
        pub const Z_UPD: u32 = 0x20;
        pub const IM_RD: u32 = 0x40;
        pub const CLR_ON_CVG: u32 = 0x80;
        pub const ZMODE_OPA: u32 = 0;
        pub const ZMODE_INTER: u32 = 0x400;
        pub const ZMODE_XLU: u32 = 0x800;
        pub const ZMODE_MASK: u32 = 0xc00;
        pub const CVG_X_ALPHA: u32 = 0x1000;
        pub const ALPHA_CVG_SEL: u32 = 0x2000;
        pub const FORCE_BL: u32 = 0x4000;
        pub const CLR_IN: u32 = 0;
        pub const CLR_MEM: u32 = 1;
        pub const CLR_BL: u32 = 2;
        pub const CLR_FOG: u32 = 3;
        pub const A_IN: u32 = 0;
        pub const A_0: u32 = 3;
        pub const B_1MA: u32 = 0;
        pub const B_A_MEM: u32 = 1;
        pub const B_0: u32 = 3;
    }
}

pub mod rdp {
    use crate::diag::Diagnostic;

    #[derive(Clone, Copy, Debug, PartialEq, Eq)]
    pub struct KeyChannel;

    pub struct TileDescriptor {
        pub width: u16,
        pub height: u16,
        pub cms: u8,
        pub cmt: u8,
        pub fmt: u8,
        pub siz: u8,
    }

    pub struct TmemBank;

    impl TmemBank {
        pub fn rejection(&self, _: &TileDescriptor, _: u8) -> Option<Diagnostic> {
            None
        }
    }

    pub struct Rdp {
        pub other_mode_h: u32,
        pub other_mode_l: u32,
        pub combine_l: u32,
        pub combine_h: u32,
        pub texture_conversion_set: bool,
        pub texture_loaded: bool,
        pub tmem_bank: TmemBank,
        pub tiles: [TileDescriptor; 8],
        pub prim: [u8; 4],
        pub env: [u8; 4],
        pub blend_color: [u8; 4],
        pub convert: [i16; 6],
        pub key: [KeyChannel; 3],
        pub prim_lod_frac: f32,
        pub prim_min_level: f32,
    }

    impl Rdp {
        pub fn lod_enable(&self) -> bool {
            false
        }

        pub fn text_detail(&self) -> u8 {
            0
        }
    }
}

pub mod rsp {
    pub struct TextureState {
        pub tile: u8,
        pub level: u8,
        pub on: bool,
    }

    pub struct Rsp {
        pub profiling: crate::profiling::Recorder,
        pub texture_state: TextureState,
    }
}

pub mod texture_request {
    use super::rdp::{Rdp, TileDescriptor};
    use super::tile_sampling::TileSampling;
    use crate::profiling::Recorder;

    #[derive(Clone, Debug)]
    pub struct TextureSource;

    impl From<Vec<u8>> for TextureSource {
        fn from(_: Vec<u8>) -> Self {
            TextureSource
        }
    }

    impl TextureSource {
        pub fn matches(&self, _: &Self, _: &Recorder) -> bool {
            true
        }
    }

    pub struct TextureBindingInput {
        pub source: TextureSource,
        pub sampling: TileSampling,
    }

    pub fn prepare(_: &Rdp, _: &TileDescriptor, _: u8, _: &Recorder) -> Result<TextureBindingInput, crate::DiagKind> {
        Err(crate::DiagKind::NoTextureLoaded)
    }
}

pub mod tile_sampling {
    #[derive(Clone, Copy, Debug, Default, PartialEq)]
    pub struct TileSampling {}
}
