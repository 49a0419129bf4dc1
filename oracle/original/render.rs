//! Stand-in for render/mod.rs, render/workload.rs and render/framebuffers/mod.rs.

/// Of render/mod.rs: the same fields in the same order, without bytemuck.
#[derive(Clone, Copy, Debug)]
pub struct CombinerUniform {
    pub combine_l: u32,
    pub combine_h: u32,
    pub cycle_type: u32,
    pub tex_enable: u32,
    pub blender_mux: u32,
    pub force_blend: u32,
    pub alpha_flags: u32,
    pub alpha_threshold: f32,
    pub prim: [f32; 4],
    pub env: [f32; 4],
    pub blend_color: [f32; 4],
    pub fog_color: [f32; 4],
    pub inv_tex_size: [f32; 4],
    pub inv_tex1_size: [f32; 4],
    pub lod_params: [f32; 4],
    pub inv_detail_size: [f32; 4],
    pub frame: [u32; 4],
    pub is_rect: u32,
    pub coverage_slot: u32,
    pub fill_word: u32,
    pub fill_siz: u32,
    pub primitive_depth: [u32; 4],
    pub native_scale: [f32; 4],
    pub raster: [u32; 4],
}

pub mod workload {
    pub struct UnsupportedGuestTask;
}

pub mod framebuffers {
    include!(concat!(env!("OUT_DIR"), "/framebuffers_modules.rs"));

    #[derive(Clone, Copy, Debug, PartialEq, Eq, Hash)]
    pub struct ImageLayout {
        pub fmt: u8,
        pub siz: u8,
        pub width: u32,
    }

    impl ImageLayout {
        /// Of targets.rs, for `byte_offset`, which nothing here calls.
        pub fn row_bytes(self) -> Option<u64> {
            Some((u64::from(self.width) * (4 << self.siz)).div_ceil(8))
        }
    }

    /// Ours: the depth in 18 bits, truncated, and of it the manual's word. Its three bits of exponent count the leading
    /// ones (seven at most), eleven bits of mantissa follow the zero that ends them, and two bits of 0 come last.
    pub fn pack_depth(depth: f32) -> u16 {
        // A cast takes NaN and negatives to 0.
        let z = ((depth * 262_144.0) as u32).min(0x3_ffff);
        let exponent = (z << 14).leading_ones().min(7);
        let mantissa = (z >> (6 - exponent.min(6))) & 0x7ff;
        ((exponent << 13) | (mantissa << 2)) as u16
    }
}
