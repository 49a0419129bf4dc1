//! A picture as a PNG file: 8 bits each of red, green and blue, compressed by a deflate block with fixed codes (RFC 1951), in
//! a zlib stream (RFC 1950), in PNG chunks.

/// The bits of a deflate stream, the lowest of a byte first.
#[derive(Default)]
struct Bits {
    bytes: Vec<u8>,
    held: u64,
    count: u32,
}

impl Bits {
    /// A number, its lowest bit first.
    fn number(&mut self, value: u32, count: u32) {
        self.held |= u64::from(value) << self.count;
        self.count += count;
        while self.count >= 8 {
            self.bytes.push(self.held as u8);
            self.held >>= 8;
            self.count -= 8;
        }
    }

    /// A code, its highest bit first.
    fn code(&mut self, code: u32, count: u32) {
        self.number(code.reverse_bits() >> (32 - count), count);
    }

    /// A literal byte, a length or the end of the block, by the fixed code.
    fn symbol(&mut self, symbol: u32) {
        match symbol {
            0..=143 => self.code(0x30 + symbol, 8),
            144..=255 => self.code(0x190 + symbol - 144, 9),
            256..=279 => self.code(symbol - 256, 7),
            _ => self.code(0xc0 + symbol - 280, 8),
        }
    }

    fn end(mut self) -> Vec<u8> {
        if self.count > 0 {
            self.bytes.push(self.held as u8);
        }
        self.bytes
    }
}

const SHORTEST: usize = 3;
const LONGEST: usize = 258;
const WINDOW: usize = 32_768;

/// The first length of each code from 257 on, and of each distance code.
const LENGTHS: [usize; 29] =
    [3, 4, 5, 6, 7, 8, 9, 10, 11, 13, 15, 17, 19, 23, 27, 31, 35, 43, 51, 59, 67, 83, 99, 115, 131, 163, 195, 227, 258];
const DISTANCES: [usize; 30] = [
    1, 2, 3, 4, 5, 7, 9, 13, 17, 25, 33, 49, 65, 97, 129, 193, 257, 385, 513, 769, 1025, 1537, 2049, 3073, 4097, 6145,
    8193, 12289, 16385, 24577,
];

fn length_bits(code: usize) -> u32 {
    match code {
        0..=7 | 28 => 0,
        _ => (code as u32 - 4) / 4,
    }
}

fn distance_bits(code: usize) -> u32 {
    (code as u32 / 2).saturating_sub(1)
}

/// The code of the greatest first value that is not above the value.
fn code_of(firsts: &[usize], value: usize) -> usize {
    firsts.partition_point(|first| *first <= value) - 1
}

fn repeat(bits: &mut Bits, length: usize, distance: usize) {
    let code = code_of(&LENGTHS, length);
    bits.symbol(257 + code as u32);
    bits.number((length - LENGTHS[code]) as u32, length_bits(code));
    let code = code_of(&DISTANCES, distance);
    bits.code(code as u32, 5);
    bits.number((distance - DISTANCES[code]) as u32, distance_bits(code));
}

/// A place in the table of where three bytes stood last.
fn slot(bytes: &[u8]) -> usize {
    let three = u32::from_le_bytes([bytes[0], bytes[1], bytes[2], 0]);
    (three.wrapping_mul(0x9e37_79b1) >> 17) as usize
}

fn common(a: &[u8], b: &[u8]) -> usize {
    a.iter().zip(b).take(LONGEST).take_while(|(a, b)| a == b).count()
}

/// One block. Where the next three bytes stood before, as long a stretch as possible is taken from there.
fn deflate(bytes: &[u8]) -> Vec<u8> {
    let mut bits = Bits::default();
    let mut last_at = vec![usize::MAX; WINDOW];
    // The last block, with fixed codes.
    bits.number(1, 1);
    bits.number(1, 2);
    let mut at = 0;
    while at < bytes.len() {
        let mut length = 0;
        if bytes.len() - at >= SHORTEST {
            let slot = slot(&bytes[at..]);
            let before = std::mem::replace(&mut last_at[slot], at);
            if before < at && at - before <= WINDOW {
                length = common(&bytes[before..], &bytes[at..]);
                if length >= SHORTEST {
                    repeat(&mut bits, length, at - before);
                }
            }
        }
        if length < SHORTEST {
            bits.symbol(bytes[at].into());
            length = 1;
        }
        at += length;
    }
    bits.symbol(256);
    bits.end()
}

fn adler(bytes: &[u8]) -> u32 {
    let (mut a, mut b) = (1u32, 0u32);
    // So many sums stay below 2^32.
    for stretch in bytes.chunks(5552) {
        for byte in stretch {
            a += u32::from(*byte);
            b += a;
        }
        a %= 65_521;
        b %= 65_521;
    }
    b << 16 | a
}

fn crc(parts: &[&[u8]]) -> u32 {
    let table: [u32; 256] = std::array::from_fn(|byte| {
        (0..8).fold(byte as u32, |crc, _| if crc & 1 == 1 { crc >> 1 ^ 0xedb8_8320 } else { crc >> 1 })
    });
    let step = |crc: u32, byte: &u8| table[usize::from(crc as u8 ^ byte)] ^ crc >> 8;
    !parts.iter().flat_map(|part| part.iter()).fold(u32::MAX, step)
}

fn chunk(file: &mut Vec<u8>, name: &[u8; 4], data: &[u8]) {
    file.extend((data.len() as u32).to_be_bytes());
    file.extend(name);
    file.extend(data);
    file.extend(crc(&[name, data]).to_be_bytes());
}

/// The file of a picture, given by its rows of red, green and blue, with a comment in plain ASCII.
pub fn png(width: u32, height: u32, rgb: &[u8], comment: &str) -> Vec<u8> {
    let row = 3 * width as usize;
    let mut filtered = Vec::with_capacity(rgb.len() + height as usize);
    for row in rgb.chunks(row.max(1)) {
        // No filter.
        filtered.push(0);
        filtered.extend(row);
    }
    let mut stream = vec![0x78, 0x01];
    stream.extend(deflate(&filtered));
    stream.extend(adler(&filtered).to_be_bytes());

    let mut header = [width.to_be_bytes(), height.to_be_bytes()].concat();
    // Eight bits a channel, three channels, and the only compression, filtering and order that there is.
    header.extend([8, 2, 0, 0, 0]);
    let mut file = b"\x89PNG\r\n\x1a\n".to_vec();
    chunk(&mut file, b"IHDR", &header);
    chunk(&mut file, b"tEXt", &[b"Comment\0", comment.as_bytes()].concat());
    chunk(&mut file, b"IDAT", &stream);
    chunk(&mut file, b"IEND", &[]);
    file
}

#[cfg(test)]
#[path = "../../../tests/png/mod.rs"]
mod reader;

#[cfg(test)]
mod tests {
    use super::*;

    /// Bytes at random, and a stretch of the first of them again, so far behind.
    fn with_repeat(distance: usize, length: usize) -> Vec<u8> {
        let mut state = 1u32;
        let mut bytes: Vec<u8> = std::iter::repeat_with(|| {
            state = state.wrapping_mul(1_664_525).wrapping_add(1_013_904_223);
            (state >> 24) as u8
        })
        .take(3 * 12_000)
        .collect();
        bytes.copy_within(..length, distance);
        bytes
    }

    /// Distances and lengths up to the limits and beyond, read back.
    #[test]
    fn pictures_are_read_back() {
        for distance in [300, 32_767, 32_768, 32_769] {
            for length in [2, 3, 4, 257, 258, 259, 300] {
                let rgb = with_repeat(distance, length);
                // One row: no filter byte comes between.
                let picture = reader::read(&png(12_000, 1, &rgb, "x"));
                assert_eq!((picture.width, picture.height), (12_000, 1));
                assert!(picture.rgb == rgb, "distance {distance}, length {length}");
            }
        }
        for rgb in [vec![0; 3 * 10_000], vec![255; 3 * 10_000], (0..30_000).map(|i| i as u8).collect()] {
            let file = png(100, 100, &rgb, "x");
            assert!(reader::read(&file).rgb == rgb);
            assert!(file.len() < 2000);
        }
    }

    /// Of RFC 1950, PNG's specification and common references.
    #[test]
    fn sums() {
        assert_eq!(adler(b"Wikipedia"), 0x11e6_0398);
        // zlib's answer.
        assert_eq!(adler(&[255; 100_000]), 0x149a_302c);
        assert_eq!(crc(&[b"1234", b"56789"]), 0xcbf4_3926);
        assert_eq!(crc(&[b"IEND"]), 0xae42_6082);
    }

    #[test]
    fn codes() {
        assert_eq!((code_of(&LENGTHS, 3), code_of(&LENGTHS, 257), code_of(&LENGTHS, 258)), (0, 27, 28));
        assert_eq!((code_of(&DISTANCES, 1), code_of(&DISTANCES, 32_768)), (0, 29));
        // A code's values end where the next one's begin.
        for code in 0..27 {
            assert_eq!(LENGTHS[code] + (1 << length_bits(code)), LENGTHS[code + 1]);
        }
        for code in 0..29 {
            assert_eq!(DISTANCES[code] + (1 << distance_bits(code)), DISTANCES[code + 1]);
        }
    }
}
