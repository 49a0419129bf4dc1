//! F5 over a coverage that is not known, for everything that it turns on: where the original's `destination` gives one
//! number for all eight coverages that memory may have, and that the library marks a coverage exactly there, as that
//! number.

use oracle::compare_frame::on_original;
use oracle::draws::{Draw, Frame, Shape};
use oracle::frame::{
    covered, unmarked, Branches, EmittedList, FULL, PARTIAL, RUN, UNMARKED, UNMARKED_FULL, UNMARKED_PARTIAL,
};
use oracle::inputs::{Inputs, SEED};
use oracle::library::{self, Engine, Geometry, Mode, Rgba, Scissor};
use oracle::lists::{of_one_color, Class, List, OVER_MEMORY};
use oracle::rust::render_mode;
use oracle::shapes::{RECTANGLE, TRIANGLES};
use original::writeback::destination;

/// Every cvg_dst with both flags; the other fields are those of `rest`.
fn modes(rest: Mode) -> impl Iterator<Item = Mode> {
    let flags = [(false, false), (false, true), (true, false), (true, true)];
    let with = move |cvg_dst| flags.map(|(antialias, force_blend)| Mode { cvg_dst, antialias, force_blend, ..rest });
    (0..=255).flat_map(with)
}

/// The cases of the closed form are exactly where `destination` gives one number, and have that number.
#[test]
fn where_destination_gives_one_number() {
    let mut inputs = Inputs::new(SEED);
    // What the other fields are makes no difference.
    for rest in [Mode::default(), inputs.mode(), inputs.mode(), inputs.mode()] {
        for mode in modes(rest) {
            for count in 1..=8 {
                let original = render_mode(mode);
                let answers = [0, 1, 2, 3, 4, 5, 6, 7].map(|memory| destination(original, count, memory));
                let one = answers.iter().all(|answer| *answer == answers[0]).then_some(answers[0]);
                let (_, closed) = unmarked(original, count);
                assert_eq!(closed, one, "{mode:?}, {count} samples: {answers:?}");
                assert_eq!(covered(original, count, None), one, "{mode:?}, {count} samples: {answers:?}");
            }
        }
    }
}

/// Any byte may stand where a coverage is not known: two that no coverage is, and one that is.
const HOSTILE: [u8; 3] = [255, 9, 3];

fn rectangle(left: f32, top: f32, right: f32, bottom: f32) -> Shape {
    Shape { geometry: Geometry { kind: RECTANGLE, left, top, right, bottom }, ..Shape::default() }
}

/// The half of a square at its upper left corner, which is the frame's.
fn half_square(side: f32) -> Shape {
    let corners = [[0.0, 0.0], [side, 0.0], [0.0, side]];
    Shape {
        geometry: Geometry { kind: TRIANGLES, ..Geometry::default() },
        vertices: corners.iter().flat_map(|[x, y]| [*x, *y, 0.5, 0.5, 0.5, 1.0]).collect(),
        present: vec![1; 3],
        indices: vec![0, 1, 2],
        ..Shape::default()
    }
}

/// How many samples each pixel of the frame has, 0 where it is not emitted. No shape here emits a pixel twice.
fn samples(frame: &Frame, draw: &Draw) -> Vec<u8> {
    let mut samples = vec![0; frame.marks.len()];
    for (pixel, mask) in EmittedList::of(frame, draw).pixels() {
        samples[*pixel as usize] = mask.count_ones() as u8;
    }
    samples
}

/// Draws the shape in every mode and in two alphas over every hostile byte, with the colours known and not, by both
/// engines, and holds each coverage and its mark to the eight questions. Answers each pixel's samples with antialias
/// on.
fn hold(size: (u32, u32), shape: &Shape) -> Vec<u8> {
    let (width, height) = size;
    let n = (width * height) as usize;
    let shape = Shape { scissor: Scissor { left: 0, top: 0, width, height }, ..shape.clone() };
    let frame = |coverage, mark| Frame {
        width,
        height,
        colors: (0..3 * n).map(|i| (29 * i) as u8).collect(),
        coverages: vec![coverage; n],
        marks: vec![mark; n],
    };
    let mut antialiased = vec![];
    for mode in modes(Mode { blender_mux: OVER_MEMORY, ..Mode::default() }) {
        for a in [1.0, 0.5] {
            let uniform = of_one_color(Rgba { r: 0.25, g: 0.5, b: 0.75, a });
            let draw = Draw { mode, uniform, shape: shape.clone() };
            let samples = samples(&frame(0, 0), &draw);
            for (coverage, mark) in HOSTILE.iter().flat_map(|byte| [(*byte, 0), (*byte, 1)]) {
                for engine in [Engine::Fast, Engine::SLOW] {
                    let mut drawn = frame(coverage, mark);
                    let answer = library::draw(engine, &mut drawn, &draw);
                    let pixels = samples.iter().filter(|count| **count > 0).count() as u64;
                    assert_eq!((answer.number, answer.pixels), (0, pixels), "{mode:?}");
                    for (pixel, count) in samples.iter().enumerate() {
                        let after = if *count == 0 { None } else { covered(render_mode(mode), *count, None) };
                        let expected = (after.is_some(), after.unwrap_or(coverage));
                        let found = (drawn.marks[pixel] & 2 != 0, drawn.coverages[pixel]);
                        assert_eq!(found, expected, "{engine:?}, {mode:?}, pixel {pixel}, {count} samples");
                    }
                }
            }
            if mode.antialias {
                antialiased = samples;
            }
        }
    }
    antialiased
}

/// Every shape has the upper left sample, so that its pixel is emitted without antialias, too.
#[test]
fn one_pixel_of_the_library() {
    let quarters = |last: u8| (1..=last).map(|quarter| f32::from(quarter) / 4.0);
    let rectangles = quarters(4).flat_map(|right| quarters(4).map(move |bottom| rectangle(0.0, 0.0, right, bottom)));
    let shapes = rectangles.chain(quarters(8).map(half_square));
    let mut counts: Vec<u8> = shapes.flat_map(|shape| hold((1, 1), &shape)).collect();
    counts.sort();
    counts.dedup();
    assert_eq!(counts, [1, 2, 3, 4, 5, 6, 7, 8]);
}

/// Full pixels beside each other, which the fast engine paints in one go where one colour serves them all.
#[test]
fn panels_of_the_library() {
    for shape in [rectangle(0.0, 0.0, 9.0, 3.0), rectangle(0.75, 0.5, 8.5, 2.75), half_square(11.25)] {
        let counts = hold((9, 3), &shape);
        assert!(counts[9..18].windows(5).any(|counts| counts == [8; 5]), "{counts:?}");
    }
}

/// Lists at random bring every case, on pixels that have not all samples and in runs of full ones.
#[test]
fn lists_bring_every_case() {
    let mut inputs = Inputs::new(SEED);
    let mut branches = Branches::default();
    for _ in 0..5_000 {
        let List { mut frame, steps } = List::at_random(&mut inputs, Class::Small);
        for step in &steps {
            on_original(&mut frame, step, &mut branches);
        }
    }
    for (case, name) in UNMARKED.iter().enumerate() {
        let came = [PARTIAL, FULL, RUN].map(|fullness| branches.unmarked[fullness][case] > 0);
        let (partial, full) = (UNMARKED_PARTIAL.contains(&case), UNMARKED_FULL.contains(&case));
        assert_eq!(came, [partial, full, full], "{name}");
    }
}
