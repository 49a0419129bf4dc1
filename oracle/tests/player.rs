//! The player's crate (player/) beside the frame of frame.rs: lists at random, mostly accepted, with every reason to turn a
//! call away, each with the fast engine and with the slow one. After each call the answer and every byte must be the same.

use oracle::draws::{self, Read, Step};
use oracle::frame::{self, Branches, EmittedList};
use oracle::inputs::Inputs;
use oracle::library::{Mode, Rgba, Uniform};
use oracle::lists::{Class, List};
use oracle::sides::{on_frame, Answered};
use writeback::{
    AlphaCompare, BlendClass, CombinerUniform, Draw, EmittedPixel, Encoding, Engine, Frame, Geometry, Refusal,
    RenderMode, Scissor, Vertices, Writer, ZMode,
};

const LISTS: u64 = 20_000;
const SEED: u64 = 0x0064_0064;

const ENGINES: [Engine; 2] = [Engine::Fast, Engine::Slow];

const BLEND_CLASSES: [BlendClass; 4] =
    [BlendClass::Replace, BlendClass::BlendColor, BlendClass::AlphaOver, BlendClass::DualSrc];
const Z_MODES: [ZMode; 4] = [ZMode::Opa, ZMode::Inter, ZMode::Xlu, ZMode::Decal];
const ALPHA_COMPARES: [AlphaCompare; 3] = [AlphaCompare::None, AlphaCompare::Threshold, AlphaCompare::Dither];

fn render_mode(mode: Mode) -> RenderMode {
    RenderMode {
        cycle_type: mode.cycle_type,
        rgb_dither: mode.rgb_dither,
        alpha_dither: mode.alpha_dither,
        key_enabled: mode.key_enabled,
        cvg_dst: mode.cvg_dst,
        image_read: mode.image_read,
        antialias: mode.antialias,
        alpha_cvg_select: mode.alpha_cvg_select,
        color_on_coverage: mode.color_on_coverage,
        blender_mux: mode.blender_mux,
        force_blend: mode.force_blend,
        blend_class: BLEND_CLASSES[usize::from(mode.blend_class)],
        fallback_class: BLEND_CLASSES[usize::from(mode.fallback_class)],
        non_canonical_blend: mode.non_canonical_blend,
        z_source_prim: mode.z_source_prim,
        z_test: mode.z_test,
        z_write: mode.z_write,
        z_mode: Z_MODES[usize::from(mode.z_mode)],
        fog: mode.fog,
        alpha_compare: ALPHA_COMPARES[usize::from(mode.alpha_compare)],
        cvg_x_alpha: mode.cvg_x_alpha,
    }
}

fn combiner_uniform(uniform: Uniform) -> CombinerUniform {
    let floats = |color: Rgba| [color.r, color.g, color.b, color.a];
    CombinerUniform {
        combine_l: uniform.combine_l,
        combine_h: uniform.combine_h,
        cycle_type: uniform.cycle_type,
        tex_enable: uniform.tex_enable,
        blender_mux: uniform.blender_mux,
        force_blend: uniform.force_blend,
        alpha_flags: uniform.alpha_flags,
        alpha_threshold: uniform.alpha_threshold,
        prim: floats(uniform.prim),
        env: floats(uniform.env),
        blend_color: floats(uniform.blend_color),
        fog_color: floats(uniform.fog_color),
        inv_tex_size: uniform.inv_tex_size,
        inv_tex1_size: uniform.inv_tex1_size,
        lod_params: uniform.lod_params,
        inv_detail_size: uniform.inv_detail_size,
        frame: uniform.frame,
        is_rect: uniform.is_rect,
        coverage_slot: uniform.coverage_slot,
        fill_word: uniform.fill_word,
        fill_siz: uniform.fill_siz,
        primitive_depth: uniform.primitive_depth,
        native_scale: uniform.native_scale,
        raster: uniform.raster,
    }
}

fn geometry(geometry: oracle::library::Geometry) -> Geometry {
    let oracle::library::Geometry { kind, left, top, right, bottom } = geometry;
    match kind {
        0 => Geometry::Nothing,
        1 => Geometry::Triangles,
        _ => Geometry::Rectangle { left, top, right, bottom },
    }
}

fn vertices(draw: &draws::Draw) -> Vertices {
    Vertices::from_parts(draw.shape.vertices.clone(), draw.shape.present.clone())
}

fn player_draw<'a>(engine: Engine, draw: &'a draws::Draw, vertices: &'a Vertices) -> Draw<'a> {
    let shape = &draw.shape;
    let oracle::library::Scissor { left, top, width, height } = shape.scissor;
    Draw {
        mode: render_mode(draw.mode),
        uniform: combiner_uniform(draw.uniform),
        cull: shape.cull,
        scissor: Scissor { left, top, width, height },
        geometry: geometry(shape.geometry),
        vertices,
        indices: &shape.indices,
        engine,
    }
}

fn writer(read: &Read) -> Writer {
    let encoding = if read.big_endian { Encoding::BigEndian } else { Encoding::Native };
    Writer { fmt: read.fmt, siz: read.siz, rgb_dither: read.rgb_dither, encoding }
}

/// The values, or zeros beside a number.
fn answered<const N: usize>(answer: Result<[u64; N], Refusal>) -> Answered {
    let number = answer.map_or_else(Refusal::number, |_| 0);
    Answered { number, values: answer.unwrap_or([0; N]).to_vec(), slots: None }
}

fn on_player(engine: Engine, frame: &mut Frame, step: &Step) -> Answered {
    match step {
        Step::Draw(draw) => answered(frame.draw(&player_draw(engine, draw, &vertices(draw))).map(|pixels| [pixels])),
        Step::Read(read) => {
            let word = frame.read_word(read.pixel, &writer(read));
            answered(word.map(|word| [u16::from_le_bytes(word).into()]))
        }
        Step::EmittedPixel(one) => {
            let emitted = frame.emitted_pixel(&player_draw(engine, &one.draw, &vertices(&one.draw)), one.k);
            let pixel = |EmittedPixel { pixel, mask }| [pixel as u64, mask.into()];
            answered(emitted.map(|emitted| emitted.map_or([0; 2], pixel)))
        }
        Step::EmittedPixels(run) => {
            let (mut pixels, mut masks) = (run.pixels.clone(), run.masks.clone());
            let vertices = vertices(&run.draw);
            let draw = player_draw(engine, &run.draw, &vertices);
            let ran = frame.emitted_pixels_from(&draw, run.first, &mut pixels, &mut masks);
            let answer = answered(ran.map(|ran| [ran.listed, ran.emitted]));
            Answered { slots: Some((pixels, masks)), ..answer }
        }
    }
}

fn on_original(frame: &mut draws::Frame, step: &Step) -> Answered {
    on_frame(frame, step, |pen, frame, pixel, emitted| pen.put(frame, pixel, emitted, &mut Branches::default()))
}

fn player_frame(frame: &draws::Frame) -> Frame {
    let draws::Frame { width, height, colors, coverages, marks } = frame.clone();
    Frame::from_parts(width, height, colors, coverages, marks)
}

fn same(player: &Frame, original: &draws::Frame) -> bool {
    player.colors() == original.colors && player.coverages() == original.coverages && player.marks() == original.marks
}

/// The run of words from `first` on beside single reads of the original. No pixel past usize's end is in a frame: its number
/// is that of the last pixel number.
fn check_run(inputs: &mut Inputs, player: &Frame, original: &draws::Frame, read: &Read) -> u64 {
    let count = inputs.below(40) as usize;
    let near = original.marks.len() - (inputs.below(24) as usize).min(original.marks.len());
    let first = inputs.pick(&[0, read.pixel, near, usize::MAX, usize::MAX - 7]);
    let mut words = vec![[0xa5; 2]; count];
    let mut numbers = vec![0xa5; count];
    let run = player.read_words(first, &writer(read), &mut words, &mut numbers);
    let expected: Vec<_> = (0..count)
        .map(|i| frame::read_word(original, &Read { pixel: first.saturating_add(i), ..*read }))
        .map(|answer| (answer.number, answer.value))
        .collect();
    let ours = words.iter().zip(&numbers).map(|(word, number)| (*number, u16::from_le_bytes(*word)));
    let ours: Vec<_> = ours.map(|(number, word)| (u32::from(number), u32::from(word))).collect();
    assert_eq!(ours, expected, "run from {first}");
    let read = expected.iter().filter(|(number, _)| *number == 0).count() as u64;
    assert_eq!(run, Ok(read));
    read
}

/// The whole list of a draw's pixels. Answers how many there are.
fn check_list(engine: Engine, player: &Frame, original: &draws::Frame, draw: &draws::Draw) -> u64 {
    let expected = EmittedList::of(original, draw);
    let list = player.emitted_pixels(&player_draw(engine, draw, &vertices(draw)));
    assert_eq!(list.as_ref().map_or_else(|refusal| refusal.number(), |_| 0), expected.number());
    let pairs: Vec<_> = list.iter().flatten().map(|emitted| (emitted.pixel as u32, emitted.mask)).collect();
    assert_eq!(pairs, expected.pixels());
    pairs.len() as u64
}

/// How often each number came.
#[derive(Default)]
struct Counts {
    draws: [u64; 8],
    reads: [u64; 11],
    words: u64,
    emitted: [u64; 21],
    /// By the engine.
    listed: [u64; 2],
}

fn check(inputs: &mut Inputs, list: &List, counts: &mut Counts) {
    let mut original = list.frame.clone();
    let mut players = ENGINES.map(|engine| (engine, player_frame(&original)));
    for step in &list.steps {
        let before = original.text();
        let answer = on_original(&mut original, step);
        for (engine, player) in &mut players {
            let called = format!("{engine:?}, {} on {before}", step.text());
            assert_eq!(on_player(*engine, player, step), answer, "player and Rust differ: {called}");
            assert!(same(player, &original), "the frames differ: {called}");
        }
        let [(_, player), _] = &players;
        let number = answer.number as usize;
        match step {
            Step::Draw(_) => counts.draws[number] += 1,
            Step::Read(read) => {
                counts.reads[number] += 1;
                counts.words += check_run(inputs, player, &original, read);
            }
            Step::EmittedPixel(one) => {
                counts.emitted[number] += 1;
                for (listed, (engine, player)) in counts.listed.iter_mut().zip(&players) {
                    *listed += check_list(*engine, player, &original, &one.draw);
                }
            }
            Step::EmittedPixels(_) => counts.emitted[number] += 1,
        }
    }
}

#[test]
fn lists_at_random() {
    let mut inputs = Inputs::new(SEED);
    let mut counts = Counts::default();
    for number in 0..LISTS {
        let class = if number % 4 == 0 { Class::Any } else { Class::Small };
        let list = List::at_random(&mut inputs, class);
        check(&mut inputs, &list, &mut counts);
    }
    let Counts { draws, reads, words, emitted, listed } = counts;
    println!("{LISTS} lists, each with {ENGINES:?}; draws by number {draws:?}, reads by number {reads:?}, {words} words in runs");
    println!("emitted pixels by number {emitted:?}, {listed:?} in whole lists");
    assert!(draws.iter().all(|count| *count > 100), "{draws:?}");
    assert!((0..8).chain([20]).all(|number| emitted[number] > 100), "{emitted:?}");
    assert!(listed.iter().all(|listed| *listed > 10_000), "{listed:?}");
    assert!([0, 1, 2, 3, 8, 9, 10].iter().all(|number| reads[*number] > 100), "{reads:?}");
    assert!(words > 10_000, "{words}");
}
