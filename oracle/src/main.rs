//! Compares the port's library with the Rust original, call by call, on many and hostile inputs.
//!
//!     oracle [SCALE [SEED [NAME]]]   SCALE multiplies the tries at random; NAME compares that call alone
#![deny(unsafe_code)]

use oracle::calls::*;
use oracle::compare::{run, Line, Outcome, Part};
use oracle::compare_numbers::one_float;
use oracle::compare_selectors::table;
use oracle::inputs::SEED;
use oracle::{
    compare_combiner, compare_emitted, compare_frame, compare_numbers, compare_pack, compare_pixel, compare_raster,
    compare_runs, compare_selectors,
};
use std::process::ExitCode;

// The native order of bytes is the little-endian one (docs/RULES.md, Packing).
const _: () = assert!(cfg!(target_endian = "little"));

type Comparison = fn(&Part) -> Outcome;

/// Every call, from bottom to top.
const COMPARISONS: [(&str, Comparison); 26] = [
    (ColorA::NAME, |part| table(part, |index| ColorA { index })),
    (ColorB::NAME, |part| table(part, |index| ColorB { index })),
    (ColorC::NAME, |part| table(part, |index| ColorC { index })),
    (ColorD::NAME, |part| table(part, |index| ColorD { index })),
    (AlphaAbd::NAME, |part| table(part, |index| AlphaAbd { index })),
    (AlphaC::NAME, |part| table(part, |index| AlphaC { index })),
    (DecodeCombine::NAME, compare_selectors::decode_combine),
    (Clamp::NAME, |part| one_float(part, |x| Clamp { x })),
    (ByteOf::NAME, |part| one_float(part, |x| ByteOf { x })),
    (Quarter::NAME, |part| one_float(part, |x| Quarter { x })),
    (FloorIndex::NAME, |part| one_float(part, |x| FloorIndex { x })),
    (CeilIndex::NAME, |part| one_float(part, |x| CeilIndex { x })),
    (IsFinite::NAME, |part| one_float(part, |x| IsFinite { x })),
    (LeTotal::NAME, compare_numbers::le_total),
    (CombinerNew::NAME, compare_combiner::new),
    (CombinerColor::NAME, compare_combiner::color),
    (StrictColor::NAME, compare_combiner::strict_color),
    (Destination::NAME, compare_pixel::destination),
    (ColorKnown::NAME, compare_pixel::color_known),
    (Blend::NAME, compare_pixel::blend),
    (PackColor::NAME, compare_pack::pack_color),
    (PackDepth::NAME, |part| one_float(part, |depth| PackDepth { depth })),
    (Supported::NAME, compare_pack::supported),
    (PixelBytes::NAME, compare_pack::pixel_bytes),
    (Encode::NAME, compare_pack::encode),
    (InRange::NAME, compare_raster::in_range),
];

/// What is compared in draws and lists of them, with lines of its own.
type Counted = fn(u64, f64) -> Result<Vec<Line>, String>;

const COUNTED: [(&str, Counted); 4] = [
    ("rasterize", |seed, scale| Ok(run(seed, scale, compare_raster::rasterize)?.lines())),
    ("emitted", |seed, scale| Ok(run(seed, scale, compare_emitted::emitted)?.lines())),
    ("draw", |seed, scale| Ok(run(seed, scale, compare_frame::lists)?.lines())),
    ("read_words", |seed, scale| Ok(run(seed, scale, compare_runs::runs)?.lines())),
];

/// With a comma before every three digits.
fn grouped(number: u64) -> String {
    if number < 1000 {
        number.to_string()
    } else {
        format!("{},{:03}", grouped(number / 1000), number % 1000)
    }
}

fn line((name, counts): &Line) -> String {
    let counts: Vec<String> = counts.iter().map(|(what, number)| format!("{} {what}", grouped(*number))).collect();
    format!("{name}: {}", counts.join(", "))
}

fn compare_all(scale: f64, seed: u64, only: Option<&String>) -> Result<(), String> {
    println!("seed {seed:x}, scale {scale}");
    let wanted = |name: &str| only.is_none_or(|only| only == name);
    for (name, comparison) in COMPARISONS.into_iter().filter(|(name, _)| wanted(name)) {
        let compared = run(seed, scale, comparison)?;
        println!("{name}: {} compared", grouped(compared));
    }
    for (_, comparison) in COUNTED.into_iter().filter(|(name, _)| wanted(name)) {
        comparison(seed, scale)?.iter().for_each(|counts| println!("{}", line(counts)));
    }
    Ok(())
}

fn usage() -> ExitCode {
    eprintln!("oracle [SCALE [SEED [NAME]]]   (the seed in hexadecimal)");
    ExitCode::from(2)
}

fn main() -> ExitCode {
    let words: Vec<String> = std::env::args().skip(1).collect();
    let scale = match words.first() {
        Some(word) => word.parse::<f64>().ok().filter(|scale| *scale > 0.0),
        None => Some(1.0),
    };
    let seed = match words.get(1) {
        Some(word) => u64::from_str_radix(word, 16).ok(),
        None => Some(SEED),
    };
    let (Some(scale), Some(seed), 0..=3) = (scale, seed, words.len()) else {
        return usage();
    };
    match compare_all(scale, seed, words.get(2)) {
        Ok(()) => ExitCode::SUCCESS,
        Err(difference) => {
            println!("{difference}");
            ExitCode::FAILURE
        }
    }
}
