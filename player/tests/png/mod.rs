//! A small PNG reader: the chunks with their sums, a zlib stream of stored blocks and blocks with fixed codes, rows without a
//! filter. Anything else panics.

/// A picture's width, height and bytes of red, green and blue.
pub struct Picture {
    pub width: usize,
    pub height: usize,
    pub rgb: Vec<u8>,
}

fn word(bytes: &[u8]) -> u32 {
    u32::from_be_bytes(bytes[..4].try_into().unwrap())
}

/// Bit by bit, as the specification defines it.
fn crc(bytes: &[u8]) -> u32 {
    let mut crc = u32::MAX;
    for byte in bytes {
        crc ^= u32::from(*byte);
        for _ in 0..8 {
            crc = crc >> 1 ^ if crc & 1 == 1 { 0xedb8_8320 } else { 0 };
        }
    }
    !crc
}

fn adler(bytes: &[u8]) -> u32 {
    let step = |(a, b): (u32, u32), byte: &u8| ((a + u32::from(*byte)) % 65_521, (a + b + u32::from(*byte)) % 65_521);
    let (a, b) = bytes.iter().fold((1, 0), step);
    b << 16 | a
}

struct Bits<'a> {
    bytes: &'a [u8],
    at: usize,
}

impl Bits<'_> {
    fn bit(&mut self) -> usize {
        let bit = self.bytes[self.at / 8] >> (self.at % 8) & 1;
        self.at += 1;
        bit.into()
    }

    fn number(&mut self, count: usize) -> usize {
        (0..count).map(|i| self.bit() << i).sum()
    }

    fn code(&mut self, count: usize) -> usize {
        (0..count).fold(0, |code, _| code << 1 | self.bit())
    }

    /// A symbol of the fixed code.
    fn symbol(&mut self) -> usize {
        let seven = self.code(7);
        if seven < 0x18 {
            return 256 + seven;
        }
        let eight = seven << 1 | self.bit();
        match eight {
            0x30..=0xbf => eight - 0x30,
            0xc0..=0xc7 => 280 + eight - 0xc0,
            _ => 144 + (eight << 1 | self.bit()) - 0x190,
        }
    }

    fn length(&mut self, symbol: usize) -> usize {
        let code = symbol - 257;
        match code {
            0..=7 => 3 + code,
            28 => 258,
            _ => {
                let extra = code / 4 - 1;
                3 + ((4 + code % 4) << extra) + self.number(extra)
            }
        }
    }

    fn distance(&mut self) -> usize {
        let code = self.code(5);
        match code {
            0..=1 => 1 + code,
            _ => {
                let extra = code / 2 - 1;
                1 + ((2 + code % 2) << extra) + self.number(extra)
            }
        }
    }

    fn fixed(&mut self, out: &mut Vec<u8>) {
        loop {
            match self.symbol() {
                256 => return,
                byte @ 0..=255 => out.push(byte as u8),
                symbol => {
                    let (length, distance) = (self.length(symbol), self.distance());
                    for _ in 0..length {
                        out.push(out[out.len() - distance]);
                    }
                }
            }
        }
    }

    fn stored(&mut self, out: &mut Vec<u8>) {
        self.at = self.at.div_ceil(8) * 8;
        let length = self.number(16);
        assert_eq!(self.number(16), !length & 0xffff);
        out.extend((0..length).map(|_| self.number(8) as u8));
    }
}

fn inflate(bytes: &[u8]) -> Vec<u8> {
    let mut bits = Bits { bytes, at: 0 };
    let mut out = Vec::new();
    loop {
        let last = bits.bit() == 1;
        match bits.number(2) {
            0 => bits.stored(&mut out),
            1 => bits.fixed(&mut out),
            kind => panic!("block of kind {kind}"),
        }
        if last {
            assert_eq!(bits.at.div_ceil(8), bytes.len());
            return out;
        }
    }
}

/// The chunks' names and data.
fn chunks(file: &[u8]) -> Vec<(&[u8], &[u8])> {
    let mut rest = file.strip_prefix(b"\x89PNG\r\n\x1a\n").expect("a PNG");
    let mut chunks = Vec::new();
    while !rest.is_empty() {
        let (chunk, behind) = rest[4..].split_at(4 + word(rest) as usize);
        assert_eq!(word(behind), crc(chunk));
        chunks.push(chunk.split_at(4));
        rest = &behind[4..];
    }
    chunks
}

pub fn read(file: &[u8]) -> Picture {
    let chunks = chunks(file);
    let names: Vec<&[u8]> = chunks.iter().map(|(name, _)| *name).collect();
    assert_eq!(names, [b"IHDR", b"tEXt", b"IDAT", b"IEND"]);
    let (header, stream) = (chunks[0].1, chunks[2].1);
    let (width, height) = (word(header) as usize, word(&header[4..]) as usize);
    assert_eq!(header[8..], [8, 2, 0, 0, 0]);
    assert!(stream[0] & 15 == 8 && (usize::from(stream[0]) << 8 | usize::from(stream[1])) % 31 == 0);
    let (data, sum) = stream[2..].split_at(stream.len() - 6);
    let rows = inflate(data);
    assert_eq!(word(sum), adler(&rows));
    assert_eq!(rows.len(), height * (1 + 3 * width));
    let mut rgb = Vec::new();
    for row in rows.chunks(1 + 3 * width) {
        assert_eq!(row[0], 0);
        rgb.extend(&row[1..]);
    }
    Picture { width, height, rgb }
}
