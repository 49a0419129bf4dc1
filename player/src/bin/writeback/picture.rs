//! The frame as a picture. Each pixel is a block of 4 by 4: of one colour where the colour is known, and of two, a diagonal
//! line on its ground, where it is not. So no pixel that is not known looks like one of any colour, however far one zooms in;
//! and because line and ground change places in broad stripes, a picture made small does not show a plain colour either.

use writeback::Frame;

/// Picture pixels along a side of a block.
pub const SCALE: usize = 4;

const BLACK: [u8; 3] = [0, 0, 0];
const MAGENTA: [u8; 3] = [255, 0, 255];

/// Frame pixels along a stripe's step.
const STRIPE: usize = 4;

/// What is shown at a place of the picture.
fn shown(frame: &Frame, x: usize, y: usize) -> [u8; 3] {
    let (column, row) = (x / SCALE, y / SCALE);
    let hatched = || {
        let line = (x + y) % SCALE == SCALE - 1;
        let turned = (column + row) / STRIPE % 2 == 1;
        if line == turned {
            MAGENTA
        } else {
            BLACK
        }
    };
    frame.color(row * frame.width() as usize + column).unwrap_or_else(hatched)
}

/// Width, height, and red, green and blue of every place, row after row.
pub fn picture(frame: &Frame) -> (u32, u32, Vec<u8>) {
    let (width, height) = (frame.width() as usize * SCALE, frame.height() as usize * SCALE);
    let mut bytes = Vec::with_capacity(3 * width * height);
    for y in 0..height {
        for x in 0..width {
            bytes.extend(shown(frame, x, y));
        }
    }
    (width as u32, height as u32, bytes)
}

#[cfg(test)]
mod tests {
    use super::*;
    use std::collections::BTreeSet;

    /// The colours of a frame pixel's block.
    fn block((width, _, bytes): &(u32, u32, Vec<u8>), column: usize, row: usize) -> BTreeSet<[u8; 3]> {
        let at = |x: usize, y: usize| 3 * (y * *width as usize + x);
        let places = (0..SCALE * SCALE).map(|i| at(column * SCALE + i % SCALE, row * SCALE + i / SCALE));
        places.map(|at| [bytes[at], bytes[at + 1], bytes[at + 2]]).collect()
    }

    #[test]
    fn a_known_pixel_is_of_one_colour_and_any_other_of_two() {
        let mut frame = Frame::new(20, 20).unwrap();
        frame.set(3, Some(MAGENTA), None).unwrap();
        frame.set(20, Some([1, 2, 3]), Some(7)).unwrap();
        frame.set(21, None, Some(7)).unwrap();
        let picture = picture(&frame);
        for pixel in 0..400 {
            let colors = block(&picture, pixel % 20, pixel / 20);
            match frame.color(pixel) {
                Some(color) => assert_eq!(colors, BTreeSet::from([color])),
                None => assert_eq!(colors, BTreeSet::from([BLACK, MAGENTA])),
            }
        }
    }
}
