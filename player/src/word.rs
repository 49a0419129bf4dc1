//! How a pixel's word is written: what a word read names beside the pixel.

/// The order of a word's bytes.
#[derive(Clone, Copy, Debug, Default, PartialEq, Eq, Hash)]
pub enum Encoding {
    /// The lower byte first.
    Native,
    /// The higher byte first, as the console's memory has it.
    #[default]
    BigEndian,
}

/// The format of a word read. Supported are fmt 0 with siz 2, and fmt 2 to 4 with siz 1; others are turned away with number
/// 9. `Default` is [`Writer::RGBA16`].
#[derive(Clone, Copy, Debug, PartialEq, Eq, Hash)]
pub struct Writer {
    /// The image's format, as the RDP numbers them.
    pub fmt: u8,
    /// The size of a pixel: 4 bits times two to this power.
    pub siz: u8,
    /// The dither: 0 and 2 the magic square, 1 the Bayer matrix, anything else none. A one-byte format does not use it.
    pub rgb_dither: u8,
    /// The order of the two bytes. A one-byte format does not use it: its second byte is 0.
    pub encoding: Encoding,
}

impl Writer {
    /// Five bits each of red, green and blue, and the coverage's top bit; no dither, big-endian.
    pub const RGBA16: Writer = Writer { fmt: 0, siz: 2, rgb_dither: 3, encoding: Encoding::BigEndian };
}

impl Default for Writer {
    fn default() -> Writer {
        Writer::RGBA16
    }
}
