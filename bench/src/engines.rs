//! The library's two engines beside each other, on draws that are short enough for the slow one: for each triangle, or for the
//! rectangle, it tests the eight samples of every pixel inside the scissor, and what it takes is what these samples take.

use crate::emitted::{least, seconds};
use crate::scenes::Scene;
use oracle::draws::Frame;
use oracle::library::{self, Engine};

/// The scenes, and how many triangles of their first draw. Those of mixed size come in six sizes that take turns.
const SCENES: [(&str, usize); 3] =
    [("shaded triangles of mixed size", 120), ("tiny shaded triangles", 120), ("large rectangles", 1)];

/// How many triangles of a scene's first draw, or rectangles, are drawn; none where it is not among the scenes.
pub fn first(scene: &Scene) -> Option<usize> {
    SCENES.iter().find(|(name, _)| *name == scene.name).map(|(_, count)| *count)
}

/// Million pixels a second of the fast engine and of the slow one, the first by the second, and the nanoseconds that the slow one
/// takes for a sample. The two must leave the same frame and the same count.
pub fn both(scene: &Scene, runs: usize) -> [f64; 4] {
    let count = first(scene).expect("one of the scenes");
    let mut draw = scene.draws[0].clone();
    draw.shape.indices.truncate(3 * count);
    // The scissor is the whole frame.
    let samples = 8 * count * scene.frame.marks.len();
    let mut frames = [scene.frame.clone(), scene.frame.clone()];
    let mut counts = [0; 2];
    let [fast_frame, slow_frame] = &mut frames;
    let [fast_count, slow_count] = &mut counts;
    let drawn = |engine: Engine, frame: &mut Frame, count: &mut u64| {
        frame.clone_from(&scene.frame);
        seconds(|| {
            let answer = library::draw(engine, frame, &draw);
            assert_eq!(answer.number, 0);
            *count = answer.pixels;
        })
    };
    let mut fast = || drawn(Engine::Fast, fast_frame, fast_count);
    let mut slow = || drawn(Engine::SLOW, slow_frame, slow_count);
    let [fast, slow] = least(runs, [&mut fast, &mut slow]);
    assert!(frames[0] == frames[1] && counts[0] == counts[1], "{}: the two engines differ", scene.name);
    let rates = [fast, slow].map(|seconds| counts[0] as f64 / seconds / 1e6);
    [rates[0], rates[1], slow / fast, slow * 1e9 / samples as f64]
}
