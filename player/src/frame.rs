//! The frame: which colours and coverages are known, and the calls on it.

use crate::{ffi, Draw, EmittedPixel, EmittedRun, Refusal, Writer};

/// Set where a pixel's colour is known.
const COLOR: u8 = 1;
/// Set where a pixel's coverage is known.
const COVERAGE: u8 = 2;

/// Width times height pixels. Each has three colour bytes, a coverage and a mark, which says whether the colour (1) and the
/// coverage (2) are known. A byte that is not marked known takes part in no answer.
#[derive(Clone, Debug, PartialEq, Eq)]
pub struct Frame {
    width: u32,
    height: u32,
    colors: Vec<u8>,
    coverages: Vec<u8>,
    marks: Vec<u8>,
}

impl Frame {
    /// A frame of which nothing is known. It is turned away with number 1 where a size lies outside 1 to 1,024.
    pub fn new(width: u32, height: u32) -> Result<Frame, Refusal> {
        if ![width, height].iter().all(|size| (1..=1024).contains(size)) {
            return Err(Refusal::SIZES);
        }
        let pixels = (width * height) as usize;
        Ok(Frame::from_parts(width, height, vec![0; 3 * pixels], vec![0; pixels], vec![0; pixels]))
    }

    /// A frame of any parts. The library looks at them on every call, and turns wrong ones away with numbers 1 to 3.
    pub fn from_parts(width: u32, height: u32, colors: Vec<u8>, coverages: Vec<u8>, marks: Vec<u8>) -> Frame {
        Frame { width, height, colors, coverages, marks }
    }

    /// The colour bytes, the coverages and the marks by themselves.
    pub fn into_parts(self) -> (Vec<u8>, Vec<u8>, Vec<u8>) {
        (self.colors, self.coverages, self.marks)
    }

    /// In pixels.
    pub fn width(&self) -> u32 {
        self.width
    }

    /// In pixels.
    pub fn height(&self) -> u32 {
        self.height
    }

    /// Three bytes for each pixel.
    pub fn colors(&self) -> &[u8] {
        &self.colors
    }

    /// One byte for each pixel.
    pub fn coverages(&self) -> &[u8] {
        &self.coverages
    }

    /// One byte for each pixel.
    pub fn marks(&self) -> &[u8] {
        &self.marks
    }

    /// The colour bytes, the coverages and the marks, to be written by others than the draws.
    pub fn parts_mut(&mut self) -> (&mut [u8], &mut [u8], &mut [u8]) {
        (&mut self.colors, &mut self.coverages, &mut self.marks)
    }

    fn marked(&self, pixel: usize, bit: u8) -> bool {
        self.marks.get(pixel).is_some_and(|mark| mark & bit != 0)
    }

    /// Red, green and blue of a pixel, if they are known.
    pub fn color(&self, pixel: usize) -> Option<[u8; 3]> {
        let known = self.marked(pixel, COLOR);
        let bytes = self.colors.chunks_exact(3).nth(pixel).filter(|_| known)?;
        Some([bytes[0], bytes[1], bytes[2]])
    }

    /// The coverage of a pixel, 0 to 7 for one to eight samples, if it is known.
    pub fn coverage(&self, pixel: usize) -> Option<u8> {
        let known = self.marked(pixel, COVERAGE);
        self.coverages.get(pixel).copied().filter(|_| known)
    }

    /// Sets what is known of a pixel, as where the game wrote to it. It is turned away with number 8 where there is no such
    /// pixel, and with number 3 where the coverage is above 7.
    pub fn set(&mut self, pixel: usize, color: Option<[u8; 3]>, coverage: Option<u8>) -> Result<(), Refusal> {
        let bytes = self.colors.chunks_exact_mut(3).nth(pixel);
        let parts = (bytes, self.coverages.get_mut(pixel), self.marks.get_mut(pixel));
        let (Some(bytes), Some(covered), Some(mark)) = parts else {
            return Err(Refusal::PIXEL);
        };
        if coverage.is_some_and(|coverage| coverage > 7) {
            return Err(Refusal::MARKS);
        }
        *mark = 0;
        if let Some(color) = color {
            bytes.copy_from_slice(&color);
            *mark |= COLOR;
        }
        if let Some(coverage) = coverage {
            *covered = coverage;
            *mark |= COVERAGE;
        }
        Ok(())
    }

    /// Draws every triangle, or the rectangle, and answers how many pixels were emitted, counted with repeats. It is turned
    /// away with numbers 1 to 7, and then changes nothing.
    pub fn draw(&mut self, draw: &Draw) -> Result<u64, Refusal> {
        let Frame { width, height, colors, coverages, marks } = self;
        ffi::draw(ffi::FrameMut { width: *width, height: *height, colors, coverages, marks }, draw)
    }

    fn lent(&self) -> ffi::Frame<'_> {
        let Frame { width, height, colors, coverages, marks } = self;
        ffi::Frame { width: *width, height: *height, colors, coverages, marks }
    }

    /// The pixel that [`Frame::draw`] would emit at place `k`, counted from 0 and with repeats; `None` where it emits no more
    /// than `k`. Nothing is drawn. It is turned away with numbers 1 to 7, as the draw would be.
    ///
    /// Every call goes through the draw's pixels up to that place: [`Frame::emitted_pixels_from`] lists many in one such walk,
    /// and [`Frame::emitted_pixels`] all of them in two.
    pub fn emitted_pixel(&self, draw: &Draw, k: u64) -> Result<Option<EmittedPixel>, Refusal> {
        ffi::emitted_pixel(self.lent(), draw, k)
    }

    /// The pixels that [`Frame::draw`] would emit at the places `first`, `first + 1`, .. in turn, as many as there are slots in
    /// `pixels` and `masks`: their numbers, and the masks of their samples (see [`EmittedPixel`]). Slots past the last pixel
    /// are 0 in both; the mask of a pixel never is. It answers how many slots have a pixel, and how many pixels the draw emits
    /// in all. Nothing is drawn.
    ///
    /// It is turned away with numbers 1 to 7, as the draw would be, and after these with number 20 where the two slices have
    /// not the same length. Turned away, it writes nothing.
    pub fn emitted_pixels_from(
        &self,
        draw: &Draw,
        first: u64,
        pixels: &mut [u32],
        masks: &mut [u8],
    ) -> Result<EmittedRun, Refusal> {
        ffi::emitted_pixels(self.lent(), draw, first, pixels, masks)
    }

    /// Every pixel that [`Frame::draw`] would emit, in order and with repeats, and which of its samples are hit. Nothing is
    /// drawn. It is turned away with numbers 1 to 7, as the draw would be.
    ///
    /// The list takes 16 bytes a pixel, and 5 more while it is made. A draw emits at most as many pixels as the frame has for
    /// each of its triangles, which may come to 2^32 of them: [`Frame::emitted_pixels_from`] lists them in parts.
    ///
    /// ```
    /// use writeback::{Draw, EmittedPixel, Frame, Geometry, RenderMode};
    ///
    /// // Three quarters of a pixel, of which the left samples of two rows are not hit.
    /// let frame = Frame::new(4, 4)?;
    /// let draw = Draw {
    ///     mode: RenderMode { antialias: true, ..RenderMode::default() },
    ///     geometry: Geometry::Rectangle { left: 0.25, top: 0.0, right: 1.0, bottom: 1.0 },
    ///     ..Draw::default()
    /// };
    /// assert_eq!(frame.emitted_pixels(&draw)?, [EmittedPixel { pixel: 0, mask: 0x77 }]);
    /// # Ok::<(), writeback::Refusal>(())
    /// ```
    pub fn emitted_pixels(&self, draw: &Draw) -> Result<Vec<EmittedPixel>, Refusal> {
        let EmittedRun { emitted, .. } = self.emitted_pixels_from(draw, 0, &mut [], &mut [])?;
        let (mut pixels, mut masks) = (vec![0; emitted as usize], vec![0; emitted as usize]);
        self.emitted_pixels_from(draw, 0, &mut pixels, &mut masks)?;
        let pixel = |(pixel, mask): (u32, u8)| EmittedPixel { pixel: pixel as usize, mask };
        Ok(pixels.into_iter().zip(masks).map(pixel).collect())
    }

    /// The two bytes of a pixel's word, as the console's memory would hold them: where what the frame marks as known was right
    /// before its draws, a word that is answered is right, whatever was not known. It is turned away with numbers 1 to 3 and
    /// 8 to 10.
    ///
    /// A 16-bit word holds a bit of the coverage, and is turned away with number 10 where the colour alone is known. A draw makes
    /// a coverage known where it ends at one number whatever it was ([`RenderMode::cvg_dst`](crate::RenderMode::cvg_dst)): so
    /// does a solid panel with `cvg_dst` 0 or 2 at every pixel that it covers whole.
    ///
    /// ```
    /// use writeback::{AlphaIn, ColorIn, CombinerUniform, CycleSel, Draw, Frame, Geometry, Refusal, RenderMode, Writer};
    ///
    /// // A blue panel over a frame of which nothing is known. It covers the first column by half.
    /// let mut frame = Frame::new(8, 4)?;
    /// let blue = CombinerUniform { prim: [0.0, 0.0, 1.0, 1.0], ..CombinerUniform::default() };
    /// let panel = Draw {
    ///     mode: RenderMode { antialias: true, ..RenderMode::default() },
    ///     uniform: blue.with_inputs(CycleSel::only(ColorIn::Primitive, AlphaIn::One)).unwrap(),
    ///     geometry: Geometry::Rectangle { left: 0.5, top: 0.0, right: 8.0, bottom: 4.0 },
    ///     ..Draw::default()
    /// };
    /// frame.draw(&panel)?;
    /// assert_eq!(frame.coverage(1), Some(7));
    /// assert_eq!(frame.read_word(1, &Writer::RGBA16), Ok([0x00, 0x3f]));
    ///
    /// // Of the first pixel the colour is known: a byte of it can be read, and a 16-bit word cannot.
    /// assert_eq!((frame.color(0), frame.coverage(0)), (Some([0, 0, 255]), None));
    /// assert_eq!(frame.read_word(0, &Writer::RGBA16), Err(Refusal::UNKNOWN));
    /// assert_eq!(frame.read_word(0, &Writer { fmt: 4, siz: 1, ..Writer::RGBA16 }), Ok([0, 0]));
    /// # Ok::<(), Refusal>(())
    /// ```
    ///
    /// Every call looks at the whole frame for number 3: [`Frame::read_words`] reads many pixels for that price.
    pub fn read_word(&self, pixel: usize, writer: &Writer) -> Result<[u8; 2], Refusal> {
        ffi::read_word(self.lent(), pixel, writer)
    }

    /// The words of the pixels `first`, `first + 1`, .. in turn, as many as there are `numbers`, and answers how many could be
    /// read. A pixel that [`Frame::read_word`] turns away has its number in `numbers` (see [`Refusal::from_number`]) and a word
    /// of zeros; the others have number 0.
    ///
    /// It is turned away itself with number 19 where there are not as many words as numbers, and then changes nothing.
    pub fn read_words(
        &self,
        first: usize,
        writer: &Writer,
        words: &mut [[u8; 2]],
        numbers: &mut [u8],
    ) -> Result<u64, Refusal> {
        ffi::read_words(self.lent(), first, writer, words.as_flattened_mut(), numbers)
    }

    /// What [`Frame::read_word`] answers for every pixel that has a mark, in turn.
    pub fn snapshot(&self, writer: &Writer) -> Vec<Result<[u8; 2], Refusal>> {
        let mut words = vec![[0; 2]; self.marks.len()];
        let mut numbers = vec![0; self.marks.len()];
        if let Err(refusal) = self.read_words(0, writer, &mut words, &mut numbers) {
            return vec![Err(refusal); words.len()];
        }
        let answer = |(word, number): ([u8; 2], u8)| Refusal::from_number(number.into()).map_or(Ok(word), Err);
        words.into_iter().zip(numbers).map(answer).collect()
    }
}
