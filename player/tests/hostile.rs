//! Every reason to turn a call away, at its limits, and values that no player should hand over. Nothing may crash, a call that
//! is turned away changes nothing, and both engines do the same.

use writeback::{
    AlphaCompare, AlphaIn, BlendClass, ColorIn, CombinerUniform, CycleSel, Draw, EmittedPixel, EmittedRun, Encoding,
    Engine, Frame, Geometry, Refusal, RenderMode, Scissor, Vertex, Vertices, Writer, ZMode, SAMPLES,
};

fn flat() -> CombinerUniform {
    let cycle = CycleSel::only(ColorIn::Primitive, AlphaIn::One);
    CombinerUniform { prim: [1.0, 0.5, 0.0, 1.0], ..CombinerUniform::default() }.with_inputs(cycle).unwrap()
}

const WHOLE: Geometry = Geometry::Rectangle { left: 0.0, top: 0.0, right: 1024.0, bottom: 1024.0 };

/// A rectangle over any frame.
fn whole() -> Draw<'static> {
    Draw {
        mode: RenderMode { cvg_dst: 2, ..RenderMode::default() },
        uniform: flat(),
        geometry: WHOLE,
        ..Draw::default()
    }
}

/// Three vertices and the triangle of them.
fn corners() -> Vertices {
    [[0.0, 0.0], [8.0, 0.0], [0.0, 8.0]].into_iter().map(|position| Vertex { position, color: [1.0; 4] }).collect()
}

/// The draw's answer. Both engines must answer the same and leave the same frame.
fn answer(frame: &mut Frame, draw: &Draw) -> Result<u64, u32> {
    let mut other = frame.clone();
    let by_slow = answer_by(Engine::Slow, &mut other, draw);
    let by_fast = answer_by(Engine::Fast, frame, draw);
    assert_eq!(by_slow, by_fast);
    assert!(other == *frame, "the engines leave different frames");
    by_fast
}

/// An engine's answer; turned away, it must leave the frame as it was. Asked for its pixels before, it must be answered alike,
/// in every way in which they can be asked for.
fn answer_by(engine: Engine, frame: &mut Frame, draw: &Draw) -> Result<u64, u32> {
    let draw = &Draw { engine, ..*draw };
    let before = frame.clone();
    let listed = listed(frame, draw).map_err(Refusal::number);
    assert!(*frame == before, "asked for pixels, and changed something");
    let answer = frame.draw(draw).map_err(Refusal::number);
    assert!(answer.is_ok() || *frame == before, "turned away, and changed something");
    assert_eq!(listed, answer);
    answer
}

/// What a slice holds before it is lent.
const BEFORE: (u32, u8) = (0xa5a5_a5a5, 0xa5);

/// The run over so many slots, and the slots behind it.
fn slots(frame: &Frame, draw: &Draw, first: u64, count: usize) -> (Result<EmittedRun, Refusal>, Vec<(u32, u8)>) {
    let (mut pixels, mut masks) = (vec![BEFORE.0; count], vec![BEFORE.1; count]);
    let run = frame.emitted_pixels_from(draw, first, &mut pixels, &mut masks);
    (run, pixels.into_iter().zip(masks).collect())
}

/// How many pixels the draw emits, or its number: the list, single pixels and runs must agree, and behind the last pixel there
/// is none.
fn listed(frame: &Frame, draw: &Draw) -> Result<u64, Refusal> {
    let list = frame.emitted_pixels(draw);
    let (run, slot) = slots(frame, draw, 0, 1);
    let unequal = frame.emitted_pixels_from(draw, 0, &mut [BEFORE.0], &mut []);
    let list = match list {
        Ok(list) => list,
        Err(refusal) => {
            assert_eq!((run, unequal), (Err(refusal), Err(refusal)));
            assert_eq!(slot, [BEFORE]);
            assert!([0, 1, u64::MAX].iter().all(|k| frame.emitted_pixel(draw, *k) == Err(refusal)));
            return Err(refusal);
        }
    };
    assert_eq!(unequal, Err(Refusal::SLOTS));
    let count = list.len() as u64;
    let at = |k: u64| list.get(usize::try_from(k).unwrap()).copied();
    let slot_of = |emitted: Option<EmittedPixel>| emitted.map_or((0, 0), |of| (of.pixel as u32, of.mask));
    for k in [0, 1, count / 2, count.saturating_sub(1), count, count + 1, 1 << 32, u64::MAX - 1, u64::MAX] {
        assert_eq!(frame.emitted_pixel(draw, k), Ok(at(k)), "place {k} of {count}");
        let (run, slots) = slots(frame, draw, k, 3);
        let left = count.saturating_sub(k);
        assert_eq!(run, Ok(EmittedRun { listed: left.min(3), emitted: count }), "from {k} of {count}");
        assert_eq!(slots, [0, 1, 2].map(|i| slot_of(k.checked_add(i).and_then(at))), "from {k} of {count}");
    }
    for emitted in &list {
        assert!(emitted.pixel < frame.marks().len() && (1..=8).contains(&emitted.count()));
        assert_eq!(emitted.samples().count() as u32, emitted.count());
    }
    Ok(count)
}

#[track_caller]
fn refused(frame: &mut Frame, draw: &Draw, number: u32) {
    assert_eq!(answer(frame, draw), Err(number));
}

#[test]
fn sizes() {
    for (width, height) in [(0, 1), (1, 0), (1025, 1), (1, 1025), (u32::MAX, u32::MAX), (0, 0)] {
        assert_eq!(Frame::new(width, height), Err(Refusal::SIZES));
        let mut frame = Frame::from_parts(width, height, vec![0; 3], vec![0; 1], vec![0; 1]);
        refused(&mut frame, &whole(), 1);
        assert_eq!(frame.read_word(0, &Writer::RGBA16), Err(Refusal::SIZES));
        assert_eq!(frame.snapshot(&Writer::RGBA16), [Err(Refusal::SIZES)]);
    }
    assert_eq!(answer(&mut Frame::new(1024, 1024).unwrap(), &whole()), Ok(1 << 20));
    assert_eq!(answer(&mut Frame::new(1, 1).unwrap(), &whole()), Ok(1));
}

#[test]
fn lengths() {
    let parts = |colors, coverages, marks| Frame::from_parts(2, 2, vec![0; colors], vec![0; coverages], vec![0; marks]);
    for (colors, coverages, marks) in
        [(0, 0, 0), (11, 4, 4), (13, 4, 4), (12, 3, 4), (12, 5, 4), (12, 4, 3), (12, 4, 5)]
    {
        let mut frame = parts(colors, coverages, marks);
        refused(&mut frame, &whole(), 2);
        assert_eq!(frame.read_word(0, &Writer::RGBA16), Err(Refusal::LENGTHS));
        assert_eq!(frame.snapshot(&Writer::RGBA16), vec![Err(Refusal::LENGTHS); marks]);
    }
    assert_eq!(answer(&mut parts(12, 4, 4), &whole()), Ok(4));
    refused(&mut Frame::from_parts(1024, 1024, vec![], vec![], vec![]), &whole(), 2);
}

#[test]
fn marks() {
    for mark in 0..=255 {
        for coverage in [0, 7, 8, 255] {
            let mut frame = Frame::from_parts(2, 1, vec![9; 6], vec![0, coverage], vec![0, mark]);
            let wrong = mark > 3 || (mark >= 2 && coverage > 7);
            assert_eq!(answer(&mut frame, &whole()), if wrong { Err(3) } else { Ok(2) });
        }
    }
}

#[test]
fn accessors_of_any_parts() {
    let frame = Frame::from_parts(1, 1, vec![1, 2, 3, 4], vec![5], vec![3, 3, 255]);
    assert_eq!((frame.color(0), frame.coverage(0)), (Some([1, 2, 3]), Some(5)));
    assert_eq!((frame.color(1), frame.coverage(1)), (None, None));
    assert_eq!((frame.color(usize::MAX), frame.coverage(usize::MAX)), (None, None));
    let unmarked = Frame::from_parts(1, 1, vec![1, 2, 3], vec![5], vec![4]);
    assert_eq!((unmarked.color(0), unmarked.coverage(0)), (None, None));
}

#[test]
fn setting_pixels() {
    let mut frame = Frame::new(2, 2).unwrap();
    assert_eq!(frame.set(4, None, None), Err(Refusal::PIXEL));
    assert_eq!(frame.set(usize::MAX, None, None), Err(Refusal::PIXEL));
    assert_eq!(frame.set(0, Some([1, 2, 3]), Some(8)), Err(Refusal::MARKS));
    assert_eq!((frame.color(0), frame.coverage(0)), (None, None));
    assert_eq!(frame.set(3, Some([1, 2, 3]), Some(7)), Ok(()));
    assert_eq!((frame.color(3), frame.coverage(3)), (Some([1, 2, 3]), Some(7)));
    assert_eq!(frame.set(3, None, Some(0)), Ok(()));
    assert_eq!((frame.color(3), frame.coverage(3)), (None, Some(0)));
    assert_eq!(Frame::from_parts(2, 2, vec![], vec![0; 4], vec![0; 4]).set(0, None, None), Err(Refusal::PIXEL));
}

#[test]
fn scissors() {
    let mut frame = Frame::new(4, 4).unwrap();
    for wrong in [65_536, 1 << 31, u32::MAX] {
        for field in 0..4 {
            let number = |of| if of == field { wrong } else { 1 };
            let scissor = Scissor { left: number(0), top: number(1), width: number(2), height: number(3) };
            refused(&mut frame, &Draw { scissor, ..whole() }, 4);
        }
    }
    let scissor = Scissor { left: 65_535, top: 65_535, width: 65_535, height: 65_535 };
    assert_eq!(answer(&mut frame, &Draw { scissor, ..whole() }), Ok(0));
    let scissor = Scissor { left: 1, top: 2, width: 2, height: 65_535 };
    assert_eq!(answer(&mut frame, &Draw { scissor, ..whole() }), Ok(4));
}

/// For a rectangle too, which needs no lists.
#[test]
fn lists() {
    let mut frame = Frame::new(4, 4).unwrap();
    let of = |floats: usize, present: Vec<u8>| Vertices::from_parts(vec![0.5; floats], present);
    let wrong = [of(1, vec![]), of(0, vec![0]), of(5, vec![1]), of(7, vec![1]), of(6, vec![2]), of(6, vec![255])];
    for vertices in wrong.iter().chain([&of(6 * 4097, vec![1; 4097])]) {
        refused(&mut frame, &Draw { vertices, ..whole() }, 5);
    }
    let most = of(6 * 4096, vec![1; 4096]);
    let triangles = Draw { vertices: &most, geometry: Geometry::Triangles, ..whole() };
    for count in [1, 2, 4, 12_287, 12_289, 12_291] {
        refused(&mut frame, &Draw { indices: &vec![0; count], ..whole() }, 5);
        refused(&mut frame, &Draw { indices: &vec![0; count], ..triangles }, 5);
    }
    assert_eq!(answer(&mut frame, &Draw { indices: &[4095; 12_288], ..triangles }), Ok(0));
    assert_eq!(answer(&mut frame, &triangles), Ok(0));
}

#[test]
fn combiners() {
    let mut frame = Frame::new(4, 4).unwrap();
    let mode = whole().mode;
    let modes = [
        RenderMode { cycle_type: 1, ..mode },
        RenderMode { z_test: true, ..mode },
        RenderMode { z_write: true, ..mode },
        RenderMode { cvg_x_alpha: true, ..mode },
        RenderMode { alpha_compare: AlphaCompare::Threshold, ..mode },
        RenderMode { alpha_compare: AlphaCompare::Dither, ..mode },
        RenderMode { alpha_cvg_select: true, ..mode },
        RenderMode { blend_class: BlendClass::BlendColor, ..mode },
        RenderMode { color_on_coverage: true, ..mode },
    ];
    for mode in modes {
        refused(&mut frame, &Draw { mode, ..whole() }, 6);
    }
    refused(&mut frame, &Draw { uniform: CombinerUniform { tex_enable: 1 << 31, ..flat() }, ..whole() }, 6);
    for color in [ColorIn::Texel0, ColorIn::Texel1] {
        let uniform = flat().with_inputs(CycleSel::only(color, AlphaIn::One)).unwrap();
        refused(&mut frame, &Draw { uniform, ..whole() }, 6);
    }
    let others = RenderMode {
        rgb_dither: 255,
        alpha_dither: 255,
        key_enabled: true,
        image_read: true,
        fallback_class: BlendClass::BlendColor,
        non_canonical_blend: true,
        z_source_prim: true,
        z_mode: ZMode::Decal,
        fog: true,
        ..mode
    };
    assert_eq!(answer(&mut frame, &Draw { mode: others, ..whole() }), Ok(16));
}

#[test]
fn geometry() {
    let mut frame = Frame::new(4, 4).unwrap();
    let mut vertices = corners();
    vertices.push(None);
    for x in [1024.0, -1024.25, f32::NAN, f32::INFINITY] {
        vertices.push(Some(Vertex { position: [x, 0.0], color: [1.0; 4] }));
    }
    for y in [2048.0, -2048.25, f32::NEG_INFINITY] {
        vertices.push(Some(Vertex { position: [0.0, y], color: [1.0; 4] }));
    }
    for channel in 0..4 {
        let color = std::array::from_fn(|i| if i == channel { f32::NAN } else { 1.0 });
        vertices.push(Some(Vertex { position: [0.0, 0.0], color }));
    }
    let count = vertices.len() as u32;
    let triangles = Draw { geometry: Geometry::Triangles, vertices: &vertices, ..whole() };
    refused(&mut frame, &Draw { geometry: Geometry::Nothing, ..triangles }, 7);
    for wrong in (3..count + 2).chain([0x2aaa_aaab, u32::MAX]) {
        for place in 0..3 {
            let indices: [u32; 3] = std::array::from_fn(|i| if i == place { wrong } else { i as u32 });
            refused(&mut frame, &Draw { indices: &indices, ..triangles }, 7);
        }
    }
    assert_eq!(answer(&mut frame, &Draw { indices: &[0, 1, 2], ..triangles }), Ok(16));
}

/// A side of any bits is accepted.
#[test]
fn rectangles_of_any_floats() {
    let mut frame = Frame::new(4, 4).unwrap();
    let sides = [f32::NAN, f32::INFINITY, f32::NEG_INFINITY, f32::MAX, f32::MIN, -0.0, 1e-45, 2.5];
    let mut pixels = 0;
    for left in sides {
        for top in sides {
            for right in sides {
                for bottom in sides {
                    let geometry = Geometry::Rectangle { left, top, right, bottom };
                    let drawn = answer(&mut frame, &Draw { geometry, ..whole() }).unwrap();
                    let nan = [left, top, right, bottom].iter().any(|side| side.is_nan());
                    assert!(drawn <= if nan { 0 } else { 16 });
                    pixels += drawn;
                }
            }
        }
    }
    assert!(pixels > 1000);
}

#[test]
fn word_reads() {
    let mut frame = Frame::new(2, 2).unwrap();
    frame.set(0, Some([255, 0, 8]), Some(7)).unwrap();
    frame.set(1, Some([255, 0, 8]), None).unwrap();
    frame.set(2, None, Some(7)).unwrap();
    let word = |pixel, writer: Writer| frame.read_word(pixel, &writer).map_err(Refusal::number);
    assert_eq!(word(0, Writer::RGBA16), Ok([0xf8, 0x03]));
    assert_eq!(word(0, Writer { encoding: Encoding::Native, ..Writer::RGBA16 }), Ok([0x03, 0xf8]));
    assert_eq!([1, 2, 3].map(|pixel| word(pixel, Writer::RGBA16)), [Err(10); 3]);
    for pixel in [4, 5, 1 << 20, u32::MAX as usize, usize::MAX] {
        assert_eq!(word(pixel, Writer::RGBA16), Err(8));
    }
    let mut supported = Vec::new();
    for fmt in 0..=255 {
        for siz in 0..=255 {
            match word(0, Writer { fmt, siz, ..Writer::RGBA16 }) {
                Ok(_) => supported.push((fmt, siz)),
                refused => assert_eq!(refused, Err(9)),
            }
        }
    }
    assert_eq!(supported, [(0, 2), (2, 1), (3, 1), (4, 1)]);
    let byte = Writer { fmt: 4, siz: 1, ..Writer::RGBA16 };
    assert_eq!([0, 1].map(|pixel| word(pixel, byte)), [Ok([255, 0]), Ok([0, 0])]);
}

#[test]
fn runs_of_words() {
    let mut frame = Frame::new(2, 2).unwrap();
    frame.set(1, Some([255, 0, 8]), Some(7)).unwrap();
    let run = |first, count| {
        let (mut words, mut numbers) = (vec![[0xa5; 2]; count], vec![0xa5; count]);
        let read = frame.read_words(first, &Writer::RGBA16, &mut words, &mut numbers).unwrap();
        (read, words, numbers)
    };
    let (zero, word) = ([0; 2], [0xf8, 0x03]);
    assert_eq!(run(0, 6), (1, vec![zero, word, zero, zero, zero, zero], vec![10, 0, 10, 10, 8, 8]));
    assert_eq!(run(1, 1), (1, vec![word], vec![0]));
    assert_eq!(run(0, 0), (0, vec![], vec![]));
    for first in [4, usize::MAX - 1, usize::MAX] {
        assert_eq!(run(first, 3), (0, vec![zero; 3], vec![8; 3]));
    }
    for (words, numbers) in [(0, 1), (1, 0), (3, 2), (2, 4)] {
        let (mut words, mut numbers) = (vec![[0xa5; 2]; words], vec![0xa5; numbers]);
        assert_eq!(frame.read_words(0, &Writer::RGBA16, &mut words, &mut numbers), Err(Refusal::WORDS));
        assert!(words.iter().flatten().chain(&numbers).all(|byte| *byte == 0xa5));
    }
    assert_eq!(
        frame.snapshot(&Writer::RGBA16),
        [10, 0, 10, 10].map(|number| { Refusal::from_number(number).map_or(Ok(word), Err) })
    );
}

/// The worked values of docs/RULES.md that are about masks, and the order of a mask's bits.
#[test]
fn masks() {
    let frame = Frame::new(4, 4).unwrap();
    let smooth = RenderMode { antialias: true, ..whole().mode };
    let masks = |draw: Draw| -> Vec<(usize, u8)> {
        let list = frame.emitted_pixels(&draw).unwrap();
        assert_eq!(frame.emitted_pixels(&Draw { engine: Engine::Slow, ..draw }).unwrap(), list);
        list.iter().map(|emitted| (emitted.pixel, emitted.mask)).collect()
    };
    let sides = |left, top, right, bottom| Draw {
        mode: smooth,
        geometry: Geometry::Rectangle { left, top, right, bottom },
        ..whole()
    };
    assert_eq!(masks(sides(0.25, 0.0, 1.0, 1.0)), [(0, 0x77)]);
    assert_eq!(masks(Draw { mode: whole().mode, ..sides(0.25, 0.0, 1.0, 1.0) }), []);
    assert_eq!(masks(sides(1.5, 1.0, 3.0, 2.0)), [(5, 0x55), (6, 0xff)]);
    // A rectangle of an eighth around each sample hits that one alone.
    for (bit, [x, y]) in SAMPLES.into_iter().enumerate() {
        let [x, y] = [x, y].map(|eighths| f32::from(eighths) / 8.0);
        assert_eq!(masks(sides(2.0 + x, 3.0 + y, 2.125 + x, 3.125 + y)), [(14, 0x80 >> bit)]);
        let emitted = EmittedPixel { pixel: 14, mask: 0x80 >> bit };
        assert_eq!(emitted.samples().collect::<Vec<_>>(), [SAMPLES[bit]]);
    }
    let vertices: Vertices = [[0.0, 0.0], [0.125, 0.25], [1.0, 2.0]]
        .into_iter()
        .map(|position| Vertex { position, color: [1.0; 4] })
        .collect();
    let thin = Draw { geometry: Geometry::Triangles, vertices: &vertices, indices: &[0, 1, 2], ..whole() };
    assert_eq!(masks(Draw { mode: smooth, ..thin }), [(4, 0x40)]);
    assert_eq!(masks(thin), []);
}

/// Number 20 comes behind the others, and the slices stay as they were.
#[test]
fn slices_for_masks() {
    let frame = Frame::new(2, 2).unwrap();
    for engine in [Engine::Fast, Engine::Slow] {
        let whole = Draw { engine, ..whole() };
        for (pixels, masks) in [(0, 1), (1, 0), (3, 4), (4, 3), (100, 0)] {
            let (mut pixels, mut masks) = (vec![BEFORE.0; pixels], vec![BEFORE.1; masks]);
            for first in [0, 4, u64::MAX] {
                let run = frame.emitted_pixels_from(&whole, first, &mut pixels, &mut masks);
                assert_eq!(run, Err(Refusal::SLOTS));
                let nothing = Draw { geometry: Geometry::Nothing, ..whole };
                let run = frame.emitted_pixels_from(&nothing, first, &mut pixels, &mut masks);
                assert_eq!(run, Err(Refusal::GEOMETRY));
            }
            assert!(pixels.iter().all(|pixel| *pixel == BEFORE.0) && masks.iter().all(|mask| *mask == BEFORE.1));
        }
        let (run, slots) = slots(&frame, &whole, 3, 3);
        assert_eq!(run, Ok(EmittedRun { listed: 1, emitted: 4 }));
        assert_eq!(slots, [(3, 0xff), (0, 0), (0, 0)]);
    }
}

/// The largest frame, filled by as many triangles as number 5 lets through: 2^32 pixels, of which the last one's place has 32 bits
/// and the count 33. Two of the last pixel's samples lie on the triangle's right side.
#[test]
fn the_most_pixels() {
    let frame = Frame::new(1024, 1024).unwrap();
    let vertices: Vertices = [[-1024.0, 0.0], [1023.75, -2048.0], [1023.75, 2047.75]]
        .into_iter()
        .map(|position| Vertex { position, color: [1.0; 4] })
        .collect();
    let draw = Draw { geometry: Geometry::Triangles, vertices: &vertices, indices: &[0, 1, 2].repeat(4096), ..whole() };
    let last = EmittedPixel { pixel: 1_048_575, mask: 0xee };
    assert_eq!(frame.emitted_pixel(&draw, (1 << 32) - 1), Ok(Some(last)));
    assert_eq!(frame.emitted_pixel(&draw, 1 << 32), Ok(None));
    let (run, ends) = slots(&frame, &draw, (1 << 32) - 2, 3);
    assert_eq!(run, Ok(EmittedRun { listed: 2, emitted: 1 << 32 }));
    assert_eq!(ends, [(1_048_574, 0xff), (1_048_575, 0xee), (0, 0)]);
    // From one triangle into the next.
    let (run, between) = slots(&frame, &draw, (1 << 31) - 1, 2);
    assert_eq!(run, Ok(EmittedRun { listed: 2, emitted: 1 << 32 }));
    assert_eq!(between, [(1_048_575, 0xee), (0, 0xff)]);
    // The slow engine would test 2^35 samples of all these triangles, and gets two.
    let two = Draw { engine: Engine::Slow, indices: &draw.indices[..6], ..draw };
    let (run, between) = slots(&frame, &two, (1 << 20) - 1, 2);
    assert_eq!(run, Ok(EmittedRun { listed: 2, emitted: 1 << 21 }));
    assert_eq!(between, [(1_048_575, 0xee), (0, 0xff)]);
}

/// Splitmix64.
struct Numbers(u64);

impl Numbers {
    fn bits(&mut self) -> u64 {
        self.0 = self.0.wrapping_add(0x9e37_79b9_7f4a_7c15);
        let z = (self.0 ^ self.0 >> 30).wrapping_mul(0xbf58_476d_1ce4_e5b9);
        let z = (z ^ z >> 27).wrapping_mul(0x94d0_49bb_1331_11eb);
        z ^ z >> 31
    }

    fn below(&mut self, limit: u64) -> u64 {
        self.bits() % limit
    }

    fn flag(&mut self) -> bool {
        self.below(2) == 1
    }

    /// Any bits, or a number near the frame.
    fn float(&mut self) -> f32 {
        match self.below(16) {
            0 => f32::from_bits(self.bits() as u32),
            _ => self.below(40) as f32 / 4.0 - 1.0,
        }
    }

    fn floats(&mut self) -> [f32; 4] {
        std::array::from_fn(|_| self.float())
    }
}

/// Draws of any bits: no number but those of a draw, nothing changed where one is turned away, and a frame that passes the next
/// call's checks where one is accepted.
#[test]
fn draws_of_any_bits() {
    let mut numbers = Numbers(0x64);
    let mut frame = Frame::new(9, 7).unwrap();
    let mut seen = [0u64; 8];
    let mut pixels = 0;
    for _ in 0..40_000 {
        let count = numbers.below(5) as usize;
        let floats = (0..6 * count).map(|_| numbers.float()).collect();
        let vertices = Vertices::from_parts(floats, (0..count).map(|_| numbers.below(16).min(1) as u8).collect());
        let indices: Vec<u32> = (0..numbers.below(3) * 3).map(|_| numbers.below(5) as u32).collect();
        let [left, top, right, bottom] = numbers.floats();
        let bits = numbers.bits();
        let draw = Draw {
            mode: RenderMode {
                blender_mux: numbers.bits() as u16,
                cvg_dst: numbers.below(6) as u8,
                antialias: bits & 1 != 0,
                force_blend: bits & 2 != 0,
                ..RenderMode::default()
            },
            uniform: CombinerUniform {
                combine_l: if bits & 4 == 0 { numbers.bits() as u32 } else { flat().combine_l },
                combine_h: if bits & 4 == 0 { numbers.bits() as u32 } else { flat().combine_h },
                prim: numbers.floats(),
                env: numbers.floats(),
                blend_color: numbers.floats(),
                fog_color: numbers.floats(),
                lod_params: numbers.floats(),
                ..CombinerUniform::default()
            },
            cull: numbers.flag(),
            scissor: Scissor::ALL,
            geometry: match bits >> 8 & 3 {
                0 => Geometry::Nothing,
                1 => Geometry::Rectangle { left, top, right, bottom },
                _ => Geometry::Triangles,
            },
            vertices: &vertices,
            indices: &indices,
            engine: Engine::Fast,
        };
        let answer = answer(&mut frame, &draw);
        seen[answer.map_or_else(|number| number, |_| 0) as usize] += 1;
        pixels += answer.unwrap_or(0);
        assert!(frame.marks().iter().all(|mark| *mark <= 3));
        assert!((0..63).all(|pixel| frame.coverage(pixel).is_none_or(|coverage| coverage <= 7)));
    }
    assert!([0, 6, 7].iter().all(|number| seen[*number] > 1000), "{seen:?}");
    assert_eq!(seen.iter().sum::<u64>(), seen[0] + seen[6] + seen[7], "{seen:?}");
    assert!(pixels > 10_000, "{pixels}");
}
