//! The pixels of a scene's draws by themselves. Every one listed: the library's runs beside the original's `rasterize` with a
//! closure that pushes pixel and count. The last one by its place: the library's call beside its own draw of all of them.

use crate::plain::Prepared;
use crate::scenes::Scene;
use oracle::library::{self, Engine};
use std::time::Instant;

/// The scenes whose draws are listed.
const SCENES: [&str; 5] = [
    "shaded triangles of mixed size",
    "flat triangles",
    "large rectangles",
    "tiny shaded triangles",
    "tiny flat triangles, 1024 x 1024",
];

pub fn is_listed(scene: &Scene) -> bool {
    SCENES.contains(&scene.name)
}

/// The pixels of a draw, and of each its count or its mask.
#[derive(Clone, Default)]
pub struct List {
    pub pixels: Vec<u32>,
    pub samples: Vec<u8>,
}

/// The least times of two sides that take turns, in seconds. What a side does before the time that it answers is not timed.
pub fn least(runs: usize, mut sides: [&mut dyn FnMut() -> f64; 2]) -> [f64; 2] {
    let mut least = [f64::INFINITY; 2];
    for _ in 0..runs {
        for (least, side) in least.iter_mut().zip(&mut sides) {
            *least = least.min(side());
        }
    }
    least
}

pub fn seconds(run: impl FnOnce()) -> f64 {
    let start = Instant::now();
    run();
    start.elapsed().as_secs_f64()
}

/// Million pixels a second of the original and of the library.
pub fn every_pixel(scene: &Scene, prepared: &Prepared, runs: usize) -> [f64; 2] {
    let none = || vec![List::default(); scene.draws.len()];
    let (mut rust, mut library) = (none(), none());
    for (list, draw) in library.iter_mut().zip(&scene.draws) {
        let count = library::emitted_pixels(Engine::Fast, &scene.frame, draw, 0, &mut [], &mut []).emitted as usize;
        *list = List { pixels: vec![0; count], samples: vec![0; count] };
    }
    let mut original = || {
        for list in &mut rust {
            list.pixels.clear();
            list.samples.clear();
        }
        seconds(|| prepared.list(&scene.frame, &mut rust))
    };
    let mut ours = || {
        seconds(|| {
            for (List { pixels, samples }, draw) in library.iter_mut().zip(&scene.draws) {
                let run = library::emitted_pixels(Engine::Fast, &scene.frame, draw, 0, pixels, samples);
                assert_eq!((run.number, run.listed), (0, pixels.len() as u64));
            }
        })
    };
    let times = least(runs, [&mut original, &mut ours]);
    for (rust, library) in rust.iter().zip(&library) {
        let counts = library.samples.iter().map(|mask| mask.count_ones() as u8);
        assert!(
            rust.pixels == library.pixels && counts.eq(rust.samples.iter().copied()),
            "{}: the two differ",
            scene.name
        );
    }
    let pixels: usize = library.iter().map(|list| list.pixels.len()).sum();
    times.map(|seconds| pixels as f64 / seconds / 1e6)
}

/// Million pixels a second of the library's draw of a scene's first draw, and of its call for the last pixel of it.
pub fn last_pixel(scene: &Scene, runs: usize) -> [f64; 2] {
    let draw = &scene.draws[0];
    let mut frame = scene.frame.clone();
    let count = library::draw(Engine::Fast, &mut frame, draw).pixels;
    let mut drawn = || {
        frame.clone_from(&scene.frame);
        seconds(|| assert_eq!(library::draw(Engine::Fast, &mut frame, draw).pixels, count))
    };
    let mut asked =
        || seconds(|| assert_ne!(library::emitted_pixel(Engine::Fast, &scene.frame, draw, count - 1).mask, 0));
    least(runs, [&mut drawn, &mut asked]).map(|seconds| count as f64 / seconds / 1e6)
}
