//! Coverages that are not known: which draws make them known (rule F5 of docs/RULES.md), and the words that can then be read. Both
//! engines do the same.

use writeback::{
    AlphaIn, BlendAlpha, BlendFactor, BlendSource, Blender, ColorIn, CombinerUniform, CycleSel, Draw, Engine, Frame,
    Geometry, Refusal, RenderMode, Vertex, Vertices, Writer,
};

/// Bytes that stand where nothing is known: no coverage is that high.
const HOSTILE: u8 = 0xee;

/// One byte a pixel: the coverage has no part in it.
const BYTE: Writer = Writer { fmt: 4, siz: 1, ..Writer::RGBA16 };

fn unknown(width: u32, height: u32) -> Frame {
    let pixels = (width * height) as usize;
    Frame::from_parts(width, height, vec![HOSTILE; 3 * pixels], vec![HOSTILE; pixels], vec![0; pixels])
}

/// By both engines: the same answer and the same frame.
#[track_caller]
fn drawn(frame: &mut Frame, draw: &Draw) -> u64 {
    let mut other = frame.clone();
    let by_slow = other.draw(&Draw { engine: Engine::Slow, ..*draw });
    let by_fast = frame.draw(&Draw { engine: Engine::Fast, ..*draw });
    assert_eq!(by_slow, by_fast);
    assert!(other == *frame, "the engines leave different frames");
    by_fast.unwrap()
}

fn red(color: ColorIn) -> CombinerUniform {
    let uniform = CombinerUniform { prim: [1.0, 0.0, 0.0, 1.0], ..CombinerUniform::default() };
    uniform.with_inputs(CycleSel::only(color, AlphaIn::One)).unwrap()
}

fn rectangle(mode: RenderMode, left: f32, top: f32, right: f32, bottom: f32) -> Draw<'static> {
    let geometry = Geometry::Rectangle { left, top, right, bottom };
    Draw { mode, uniform: red(ColorIn::Primitive), geometry, ..Draw::default() }
}

/// As titles draw solid panels: forced, and nothing of memory goes in.
fn solid() -> RenderMode {
    let own = Blender { a: BlendAlpha::Zero, b: BlendFactor::One, ..Blender::default() };
    RenderMode { force_blend: true, blender_mux: own.mux(), ..RenderMode::default() }
}

const RED: Result<[u8; 2], Refusal> = Ok([0xf8, 0x01]);
const TEN: Result<[u8; 2], Refusal> = Err(Refusal::UNKNOWN);

#[test]
fn a_panel_over_an_unknown_frame_can_be_read_at_once() {
    for mode in
        [solid(), RenderMode { antialias: true, ..solid() }, RenderMode { antialias: true, ..RenderMode::default() }]
    {
        let mut frame = unknown(40, 3);
        assert_eq!(frame.snapshot(&Writer::RGBA16), [TEN; 120]);
        assert_eq!(drawn(&mut frame, &rectangle(mode, 0.0, 0.0, 40.0, 3.0)), 120);
        assert_eq!(frame.snapshot(&Writer::RGBA16), [RED; 120]);
        assert!((0..120).all(|pixel| frame.coverage(pixel) == Some(7)));
    }
}

#[test]
fn a_half_covered_edge_cannot() {
    for mode in [RenderMode { antialias: true, ..solid() }, RenderMode { antialias: true, ..RenderMode::default() }] {
        let mut frame = unknown(40, 3);
        assert_eq!(drawn(&mut frame, &rectangle(mode, 0.5, 0.0, 39.5, 3.0)), 120);
        for pixel in 0..120 {
            let edge = [0, 39].contains(&(pixel % 40));
            assert_eq!(frame.color(pixel), Some([255, 0, 0]));
            assert_eq!(frame.read_word(pixel, &Writer::RGBA16), if edge { TEN } else { RED }, "{pixel}");
            assert!(frame.read_word(pixel, &BYTE).is_ok());
            assert_eq!(frame.coverage(pixel), if edge { None } else { Some(7) });
            assert_eq!(frame.coverages()[pixel], if edge { HOSTILE } else { 7 });
        }
    }
}

/// With antialias it is the coverage that says whether memory goes in: a first panel makes it known, and the second one's colour
/// is known then. So it is with two triangles of one draw.
#[test]
fn a_colour_follows() {
    let over = Blender { m: BlendSource::Memory, b: BlendFactor::Coverage, ..Blender::default() };
    let mode = RenderMode { antialias: true, blender_mux: over.mux(), ..RenderMode::default() };
    let panel = rectangle(mode, 0.0, 0.0, 8.0, 4.0);
    let mut frame = unknown(8, 4);
    drawn(&mut frame, &panel);
    assert!((0..32).all(|pixel| (frame.color(pixel), frame.coverage(pixel)) == (None, Some(7))));
    assert_eq!(frame.snapshot(&Writer::RGBA16), [TEN; 32]);
    drawn(&mut frame, &panel);
    assert_eq!(frame.snapshot(&Writer::RGBA16), [RED; 32]);

    let corner = |x, y| Vertex { position: [x, y], color: [1.0; 4] };
    let vertices: Vertices = [corner(-8.0, -8.0), corner(40.0, -8.0), corner(-8.0, 40.0)].into_iter().collect();
    let twice = Draw { geometry: Geometry::Triangles, vertices: &vertices, indices: &[0, 1, 2, 0, 1, 2], ..panel };
    let mut frame = unknown(8, 4);
    assert_eq!(drawn(&mut frame, &twice), 64);
    assert_eq!(frame.snapshot(&Writer::RGBA16), [RED; 32]);
}

/// Every cvg_dst and both flags, with one to eight samples: known in the cases of F5, and the byte as it was in all others.
#[test]
fn cases() {
    // One pixel, the first sample among those that are hit, so that it is emitted without antialias too. No rectangle has seven: of
    // the triangle the last sample lies on the side that is left out.
    let sides = [(0.5, 0.25), (1.0, 0.25), (0.75, 0.5), (1.0, 0.5), (0.75, 0.75), (1.0, 0.75), (1.5, 1.5), (1.0, 1.0)];
    for (count, (right, bottom)) in (1..=8).zip(sides) {
        let corner = |x, y| Vertex { position: [x, y], color: [1.0, 0.0, 0.0, 1.0] };
        let vertices: Vertices = [corner(0.0, 0.0), corner(right, 0.0), corner(0.0, bottom)].into_iter().collect();
        let geometry = match count {
            7 => Geometry::Triangles,
            _ => Geometry::Rectangle { left: 0.0, top: 0.0, right, bottom },
        };
        for (cvg_dst, flags, color) in (0..=255)
            .flat_map(|cvg_dst| (0..4).map(move |flags| (cvg_dst, flags)))
            .flat_map(|(cvg_dst, flags)| [ColorIn::Primitive, ColorIn::Shade].map(|color| (cvg_dst, flags, color)))
        {
            let (force_blend, antialias) = (flags & 1 != 0, flags & 2 != 0);
            let mode = RenderMode { cvg_dst, force_blend, antialias, ..RenderMode::default() };
            let draw = Draw {
                mode,
                uniform: red(color),
                geometry,
                vertices: &vertices,
                indices: &[0, 1, 2],
                ..Draw::default()
            };
            let mut frame = unknown(1, 1);
            assert_eq!(frame.emitted_pixel(&draw, 0).unwrap().unwrap().count(), count);
            assert_eq!(drawn(&mut frame, &draw), 1);
            let expected = match (cvg_dst, force_blend, antialias, count) {
                (2, ..) => Some(7),
                (0, false, false, _) => Some(count as u8 - 1),
                (0, _, _, 8) | (0, true, _, 7) => Some(7),
                _ => None,
            };
            assert_eq!(frame.coverage(0), expected, "{mode:?} with {count} samples");
            assert_eq!(frame.coverages(), [expected.unwrap_or(HOSTILE)]);
            assert!(frame.color(0).is_some());
            assert_eq!(frame.read_word(0, &Writer::RGBA16).err(), expected.is_none().then_some(Refusal::UNKNOWN));
        }
    }
}
