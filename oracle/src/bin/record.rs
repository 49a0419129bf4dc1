//! Writes a sample for a program that replays it. It asks the library nothing: built alone and with an empty `LIBRARY`, it
//! needs none.
//!
//!     record answers [SEED]   of the original's answers
//!     record lists [SEED]     of lists of draws and word reads, and what they come to on the frame of frame.rs
#![deny(unsafe_code)]

use oracle::inputs::SEED;
use oracle::{record, record_lists};
use std::process::ExitCode;

fn main() -> ExitCode {
    let words: Vec<String> = std::env::args().skip(1).collect();
    let (kind, seed) = match words.as_slice() {
        [kind] => (kind.as_str(), Ok(SEED)),
        [kind, seed] => (kind.as_str(), u64::from_str_radix(seed, 16)),
        _ => ("", Ok(SEED)),
    };
    let lines = match (kind, seed) {
        ("answers", Ok(seed)) => record::lines(seed),
        ("lists", Ok(seed)) => record_lists::lines(seed),
        _ => {
            eprintln!("record answers [SEED] | record lists [SEED]   (seeds in hexadecimal)");
            return ExitCode::from(2);
        }
    };
    lines.iter().for_each(|line| println!("{line}"));
    ExitCode::SUCCESS
}
