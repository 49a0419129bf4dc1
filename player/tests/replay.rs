//! The recorded lists of draws, emitted pixels and word reads (crates/replay_lists; oracle/README.md has their format), asked of
//! this crate, by both engines. They need no Rust original. The comparison with the original itself is oracle/tests/player.rs.

use std::str::SplitWhitespace;
use writeback::{
    AlphaCompare, BlendClass, CombinerUniform, Draw, EmittedPixel, EmittedRun, Encoding, Engine, Frame, Geometry,
    Refusal, RenderMode, Scissor, Vertices, Writer, ZMode,
};

/// A line's words in turn, and the engine that its draw is asked of.
struct Line<'a>(SplitWhitespace<'a>, Engine);

impl Line<'_> {
    fn word(&mut self) -> u32 {
        u32::from_str_radix(self.0.next().unwrap(), 16).unwrap()
    }

    fn byte(&mut self) -> u8 {
        self.word().try_into().unwrap()
    }

    fn flag(&mut self) -> bool {
        [false, true][self.word() as usize]
    }

    fn float(&mut self) -> f32 {
        f32::from_bits(self.word())
    }

    fn floats(&mut self) -> [f32; 4] {
        std::array::from_fn(|_| self.float())
    }

    fn words(&mut self) -> [u32; 4] {
        std::array::from_fn(|_| self.word())
    }

    /// A length, and two digits for each byte if there are any.
    fn bytes(&mut self) -> Vec<u8> {
        let length = self.word() as usize;
        let digits = if length == 0 { "" } else { self.0.next().unwrap() };
        assert_eq!(digits.len(), 2 * length);
        (0..length).map(|i| u8::from_str_radix(&digits[2 * i..2 * i + 2], 16).unwrap()).collect()
    }

    fn list<T>(&mut self, element: impl Fn(&mut Self) -> T) -> Vec<T> {
        (0..self.word()).map(|_| element(self)).collect()
    }

    fn equals(&mut self) {
        assert_eq!(self.0.next(), Some("="));
    }

    fn blend_class(&mut self) -> BlendClass {
        [BlendClass::Replace, BlendClass::BlendColor, BlendClass::AlphaOver, BlendClass::DualSrc][self.word() as usize]
    }

    fn z_mode(&mut self) -> ZMode {
        [ZMode::Opa, ZMode::Inter, ZMode::Xlu, ZMode::Decal][self.word() as usize]
    }

    fn alpha_compare(&mut self) -> AlphaCompare {
        [AlphaCompare::None, AlphaCompare::Threshold, AlphaCompare::Dither][self.word() as usize]
    }

    /// Fields are read in the order in which they stand here, which is that of the C interface.
    fn mode(&mut self) -> RenderMode {
        RenderMode {
            cycle_type: self.word(),
            blender_mux: self.word().try_into().unwrap(),
            rgb_dither: self.byte(),
            alpha_dither: self.byte(),
            cvg_dst: self.byte(),
            blend_class: self.blend_class(),
            fallback_class: self.blend_class(),
            z_mode: self.z_mode(),
            alpha_compare: self.alpha_compare(),
            key_enabled: self.flag(),
            image_read: self.flag(),
            antialias: self.flag(),
            alpha_cvg_select: self.flag(),
            color_on_coverage: self.flag(),
            force_blend: self.flag(),
            non_canonical_blend: self.flag(),
            z_source_prim: self.flag(),
            z_test: self.flag(),
            z_write: self.flag(),
            fog: self.flag(),
            cvg_x_alpha: self.flag(),
        }
    }

    fn uniform(&mut self) -> CombinerUniform {
        CombinerUniform {
            combine_l: self.word(),
            combine_h: self.word(),
            cycle_type: self.word(),
            tex_enable: self.word(),
            blender_mux: self.word(),
            force_blend: self.word(),
            alpha_flags: self.word(),
            alpha_threshold: self.float(),
            prim: self.floats(),
            env: self.floats(),
            blend_color: self.floats(),
            fog_color: self.floats(),
            inv_tex_size: self.floats(),
            inv_tex1_size: self.floats(),
            lod_params: self.floats(),
            inv_detail_size: self.floats(),
            frame: self.words(),
            is_rect: self.word(),
            coverage_slot: self.word(),
            fill_word: self.word(),
            fill_siz: self.word(),
            primitive_depth: self.words(),
            native_scale: self.floats(),
            raster: self.words(),
        }
    }

    fn geometry(&mut self) -> Geometry {
        let kind = self.word();
        let [left, top, right, bottom] = self.floats();
        match kind {
            0 => Geometry::Nothing,
            1 => Geometry::Triangles,
            2 => Geometry::Rectangle { left, top, right, bottom },
            _ => panic!("kind {kind}"),
        }
    }

    /// A draw's arguments, handed on with the draw that they make.
    fn with_draw<T>(&mut self, call: impl FnOnce(&mut Self, &Draw) -> T) -> T {
        let (mode, uniform, cull) = (self.mode(), self.uniform(), self.flag());
        let [left, top, width, height] = self.words();
        let scissor = Scissor { left, top, width, height };
        let geometry = self.geometry();
        let vertices = Vertices::from_parts(self.list(Line::float), self.bytes());
        let indices = self.list(Line::word);
        let engine = self.1;
        call(self, &Draw { mode, uniform, cull, scissor, geometry, vertices: &vertices, indices: &indices, engine })
    }

    /// What the call answers, and what stands behind the equals sign.
    fn draw(&mut self, frame: &mut Frame) -> [(u32, u64); 2] {
        self.with_draw(|line, draw| {
            line.equals();
            let answers = [answered(frame.draw(draw)), (line.word(), line.word().into())];
            assert_eq!((frame.colors(), frame.coverages()), (&line.bytes()[..], &line.bytes()[..]));
            assert_eq!(frame.marks(), line.bytes());
            answers
        })
    }

    /// Upper half first.
    fn place(&mut self) -> u64 {
        u64::from(self.word()) << 32 | u64::from(self.word())
    }

    /// The pixel and the mask as one number.
    fn mask(&mut self, frame: &Frame) -> [(u32, u64); 2] {
        self.with_draw(|line, draw| {
            let k = line.place();
            line.equals();
            let together = |pixel: u64, mask: u64| pixel << 8 | mask;
            let emitted =
                frame.emitted_pixel(draw, k).map(|emitted| emitted.unwrap_or(EmittedPixel { pixel: 0, mask: 0 }));
            let ours = emitted.map(|emitted| together(emitted.pixel as u64, emitted.mask.into()));
            [answered(ours), (line.word(), together(line.word().into(), line.word().into()))]
        })
    }

    /// The two counts as one number.
    fn masks(&mut self, frame: &Frame) -> [(u32, u64); 2] {
        self.with_draw(|line, draw| {
            let first = line.place();
            let (mut pixels, mut masks) = (line.list(Line::word), line.bytes());
            line.equals();
            let together = |listed: u64, emitted: u64| listed << 32 | emitted;
            let run = frame.emitted_pixels_from(draw, first, &mut pixels, &mut masks);
            let ours = run.map(|EmittedRun { listed, emitted }| together(listed, emitted));
            let answers = [answered(ours), (line.word(), together(line.word().into(), line.word().into()))];
            assert_eq!((pixels, masks), (line.list(Line::word), line.bytes()));
            answers
        })
    }

    fn read(&mut self, frame: &Frame) -> [(u32, u64); 2] {
        let pixel = self.word() as usize;
        let (fmt, siz, rgb_dither) = (self.byte(), self.byte(), self.byte());
        let encoding = if self.flag() { Encoding::BigEndian } else { Encoding::Native };
        self.equals();
        let word = frame.read_word(pixel, &Writer { fmt, siz, rgb_dither, encoding });
        [answered(word.map(|word| u16::from_le_bytes(word).into())), (self.word(), self.word().into())]
    }
}

fn answered(answer: Result<u64, Refusal>) -> (u32, u64) {
    answer.map_or_else(|refusal| (refusal.number(), 0), |value| (0, value))
}

fn recorded_lists(engine: Engine) {
    let recorded = concat!(env!("CARGO_MANIFEST_DIR"), "/../crates/replay_lists/stdin");
    let recorded = std::fs::read_to_string(recorded).unwrap();
    let mut frame = Frame::new(1, 1).unwrap();
    let mut counts = [0; 21];
    for (number, line) in recorded.lines().enumerate() {
        let mut words = Line(line.split_whitespace(), engine);
        let answers = match words.0.next().unwrap() {
            "frame" => {
                let (width, height) = (words.word(), words.word());
                frame = Frame::from_parts(width, height, words.bytes(), words.bytes(), words.bytes());
                None
            }
            "draw" => Some(words.draw(&mut frame)),
            "read" => Some(words.read(&frame)),
            "mask" => Some(words.mask(&frame)),
            "masks" => Some(words.masks(&frame)),
            other => panic!("{other}"),
        };
        if let Some([ours, expected]) = answers {
            assert_eq!(ours, expected, "line {}", number + 1);
            counts[expected.0 as usize] += 1;
        }
        assert_eq!(words.0.next(), None);
    }
    assert_eq!(counts.iter().sum::<i32>(), 501);
    assert!((0..=10).chain([20]).all(|number| counts[number] > 0), "{counts:?}");
}

#[test]
fn recorded_lists_by_the_fast_engine() {
    recorded_lists(Engine::Fast);
}

#[test]
fn recorded_lists_by_the_slow_engine() {
    recorded_lists(Engine::Slow);
}
