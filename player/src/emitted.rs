//! The pixels that a draw emits, by themselves: which ones, and which of their samples are hit.

/// Where a pixel's eight samples stand, in eighths of a pixel right of and below its upper left corner: four rows of two,
/// the first for the mask's highest bit and the last for its lowest.
pub const SAMPLES: [[u8; 2]; 8] = [[0, 0], [4, 0], [2, 2], [6, 2], [0, 4], [4, 4], [2, 6], [6, 6]];

/// A pixel that a draw emits.
///
/// ```
/// use writeback::EmittedPixel;
///
/// // The upper row's two samples, and the left one of the row below.
/// let emitted = EmittedPixel { pixel: 5, mask: 0b1110_0000 };
/// assert_eq!(emitted.count(), 3);
/// assert_eq!(emitted.samples().collect::<Vec<_>>(), [[0, 0], [4, 0], [2, 2]]);
/// ```
#[derive(Clone, Copy, Debug, PartialEq, Eq, Hash)]
pub struct EmittedPixel {
    /// Its number, counted from the frame's upper left corner row by row.
    pub pixel: usize,
    /// Its eight samples, one where it is hit: bit 7 is the upper row's left one, bit 6 its right one, and so on to bit 0, the
    /// lowest row's right one. It is never 0.
    pub mask: u8,
}

impl EmittedPixel {
    /// How many samples are hit, from 1 to 8.
    pub const fn count(self) -> u32 {
        self.mask.count_ones()
    }

    /// The samples that are hit, in the order of [`SAMPLES`].
    pub fn samples(self) -> impl Iterator<Item = [u8; 2]> {
        (0..8).filter(move |sample| self.mask >> (7 - sample) & 1 == 1).map(|sample| SAMPLES[sample])
    }
}

/// What a run of emitted pixels came to.
#[derive(Clone, Copy, Debug, Default, PartialEq, Eq, Hash)]
pub struct EmittedRun {
    /// How many of the slots have a pixel: the first ones.
    pub listed: u64,
    /// How many pixels the draw emits in all, counted with repeats: what [`Frame::draw`](crate::Frame::draw) would answer.
    pub emitted: u64,
}
