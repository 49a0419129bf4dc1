//! A way to coherence.rs's private items.

use super::*;

/// A writer at address 0, which no answer depends on.
pub fn writer(fmt: u8, siz: u8, width: u32, depth: bool) -> Reached {
    let layout = ImageLayout { fmt, siz, width };
    Reached(Writer {
        address: 0,
        layout,
        depth,
    })
}

/// A `Writer`, whose own name ends at its crate.
pub struct Reached(Writer);

impl Reached {
    pub fn supported(&self) -> bool {
        self.0.supported()
    }

    pub fn pixel_bytes(&self) -> usize {
        self.0.pixel_bytes()
    }

    pub fn encode(
        &self,
        rgba: [u8; 4],
        coverage: u8,
        pixel: usize,
        literal: Option<u32>,
        rgb_dither: u8,
        encoding: FramebufferEncoding,
    ) -> [u8; 2] {
        self.0
            .encode(rgba, coverage, pixel, literal, rgb_dither, encoding)
    }
}

pub fn pack_color(rgba: [u8; 4], coverage: u8, dither: u8) -> u16 {
    super::pack_color(rgba, coverage, dither)
}
