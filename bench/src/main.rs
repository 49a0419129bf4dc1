//! The library and the Rust original side by side: the same frames, draws, emitted pixels and word reads in one process, timed in
//! turns; beside a draw of the library the last of its pixels by its place; and beside its fast engine, which is timed in all of
//! these, the slow one.
//!
//!     bench [PART]   every scene, or those with PART in their name
#![forbid(unsafe_code)]

mod emitted;
mod engines;
mod plain;
mod scenes;

use oracle::draws::Frame;
use scenes::{Scene, Words};
use std::process::ExitCode;
use std::time::Instant;

/// How often a scene is run on each side; the best run counts.
const RUNS: usize = 15;

/// Fewer where the slow engine is run.
const SLOW_RUNS: usize = 5;

/// One side's frame and words after a run, and its least time.
struct Side {
    frame: Frame,
    words: Words,
    pixels: u64,
    seconds: f64,
}

impl Side {
    fn new(scene: &Scene) -> Self {
        Side { frame: scene.frame.clone(), words: Words::none(scene), pixels: 0, seconds: f64::INFINITY }
    }

    /// One run from the scene's frame on. The copy of the frame is not timed.
    fn time(&mut self, scene: &Scene, run: impl FnOnce(&mut Frame, &mut Words) -> u64) {
        self.frame.clone_from(&scene.frame);
        self.words.clear();
        let start = Instant::now();
        self.pixels = run(&mut self.frame, &mut self.words);
        self.seconds = self.seconds.min(start.elapsed().as_secs_f64());
    }

    /// Million pixels emitted and words read in a second.
    fn rate(&self) -> f64 {
        (self.pixels as f64 + self.words.read as f64) / self.seconds / 1e6
    }
}

/// With three digits that count, or all before the point.
fn shown(number: f64) -> String {
    let decimals = (2.0 - number.log10().floor()).clamp(0.0, 6.0) as usize;
    format!("{number:.decimals$}")
}

fn report(scene: &Scene) {
    let prepared = plain::prepare(scene);
    let mut rust = Side::new(scene);
    let mut library = Side::new(scene);
    for _ in 0..RUNS {
        rust.time(scene, |frame, words| plain::run(&prepared, frame, words));
        library.time(scene, |frame, words| scenes::run(scene, frame, words));
    }
    let same = rust.frame == library.frame && rust.pixels == library.pixels && rust.words.agrees(&library.words, scene);
    assert!(same, "{}: the two differ", scene.name);
    rates(scene.name, [rust.rate(), library.rate()]);
}

fn row(name: &str, cells: &[impl AsRef<str>]) {
    let cells: String = cells.iter().map(|cell| format!(" {:>9}", cell.as_ref())).collect();
    println!("{name:<56}{cells}");
}

/// The two rates, and the second by the first.
fn rates(name: &str, [first, second]: [f64; 2]) {
    row(name, &[first, second, second / first].map(shown));
}

fn main() -> ExitCode {
    let part = std::env::args().nth(1).unwrap_or_default();
    let all = scenes::all();
    // The scenes of a table, with what stands before their names there.
    let with = |before: fn(&Scene) -> Option<String>| {
        let named = all.iter().filter_map(|scene| before(scene).map(|before| (before + scene.name, scene)));
        named.filter(|(name, _)| name.contains(&part)).collect::<Vec<_>>()
    };
    let drawn = with(|_| Some(String::new()));
    let every = with(|scene| emitted::is_listed(scene).then(|| "every pixel listed: ".into()));
    let last = with(|scene| emitted::is_listed(scene).then(|| "the last pixel: ".into()));
    let both = with(|scene| engines::first(scene).map(|count| format!("both engines, first {count}: ")));
    if drawn.is_empty() && every.is_empty() && last.is_empty() && both.is_empty() {
        eprintln!("bench: no scene has \"{part}\" in its name");
        return ExitCode::from(2);
    }
    if !drawn.is_empty() || !every.is_empty() {
        row("million pixels a second", &["Rust", "library", "ratio"]);
    }
    drawn.iter().for_each(|(_, scene)| report(scene));
    every.iter().for_each(|(name, scene)| rates(name, emitted::every_pixel(scene, &plain::prepare(scene), RUNS)));
    if !last.is_empty() {
        row("million pixels a second", &["drawn", "by place", "ratio"]);
    }
    last.iter().for_each(|(name, scene)| rates(name, emitted::last_pixel(scene, RUNS)));
    if !both.is_empty() {
        row("million pixels a second; slow: nanoseconds a sample", &["fast", "slow", "fast/slow", "ns/sample"]);
    }
    both.iter().for_each(|(name, scene)| row(name, &engines::both(scene, SLOW_RUNS).map(shown)));
    ExitCode::SUCCESS
}
