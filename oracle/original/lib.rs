//! The Rust original, compiled from its own folder and unchanged.
//!
//! Whole and unchanged: hle/blender.rs, hle/combiner.rs, render/framebuffers/coherence.rs and
//! render/framebuffers/writeback.rs. The last two get a child module `reach` after their text, since what is compared in
//! them is private. writeback.rs gets another, `masks`: the text of its own `rasterize`, with the mask of a pixel's samples
//! in the two places where the original hands on their number (build.rs). It is held to the unchanged one wherever it is used.
//!
//! Everything else in this folder stands in for files that are not there, or that would bring in the GPU, and is as
//! small as the four files allow. Nothing of it takes part in an answer that is compared, but for:
//! - `pack_depth` (render.rs): its source cannot be had. It is our reading of the rules (docs/RULES.md, Packing).
//! - `ImageLayout` (render.rs) and `CombinerUniform` (render.rs): the fields alone.
//! - `FramebufferEncoding` (below): the two cases alone.
//!
//! The constants of `hle::consts` are those of libultra's gbi.h. `decode_render_mode` and `build_material`, which use
//! them, are compiled and never called.
#![forbid(unsafe_code)]
// The original's parts that nothing here calls, its `profiling` feature, and an import that its cut file leaves unused.
#![allow(dead_code, unused_imports, unexpected_cfgs)]

mod diag;
mod hle;
mod profiling;
mod render;

use diag::DiagKind;

pub use hle::blender::{AlphaCompare, BlendClass, RenderMode, ZMode};
pub use hle::combiner;
pub use render::framebuffers::coherence::reach as coherence;
pub use render::framebuffers::writeback::reach as writeback;
pub use render::framebuffers::{pack_depth, ImageLayout};
pub use render::CombinerUniform;

/// Of lib.rs: the order of a word's bytes.
#[derive(Clone, Copy, Debug, Default, PartialEq, Eq)]
pub enum FramebufferEncoding {
    #[default]
    Native,
    BigEndian,
}

/// Of lib.rs, for `Ownership::patches`.
#[derive(Clone, Debug, PartialEq, Eq)]
pub struct GuestWrite {
    pub address: u64,
    pub bytes: Vec<u8>,
}
