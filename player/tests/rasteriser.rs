//! docs/RASTERISER.md beside the program and the code: its blocks are the sample's file and what the program prints for it, its
//! picture is the program's, and the functions that it leads through are there.

use std::fs;
use std::path::Path;
use std::process::Command;

const PAGE: &str = include_str!("../../docs/RASTERISER.md");
const FILE: &str = include_str!("../samples/triangle.txt");
const CODE: &str = include_str!("../../crates/rasterize_slow/src/lib.rt");

/// What stands between the fences of a block of text.
fn blocks() -> impl Iterator<Item = &'static str> {
    PAGE.split("```text\n").skip(1).map(|behind| behind.split_once("```\n").unwrap().0)
}

#[test]
fn blocks_and_picture() {
    let room = Path::new(env!("CARGO_TARGET_TMPDIR"));
    let output = Command::new(env!("CARGO_BIN_EXE_writeback"))
        .arg(concat!(env!("CARGO_MANIFEST_DIR"), "/samples/triangle.txt"))
        .args([room.join("frame.png"), room.join("samples.png")])
        .output()
        .unwrap();
    assert_eq!((output.status.code(), output.stderr.len()), (Some(0), 0));
    assert_eq!(blocks().next(), Some(FILE));
    let printed: String = blocks().skip(1).collect();
    assert_eq!(printed + "calls 1, log lines 0\n", String::from_utf8(output.stdout).unwrap());
    let picture = concat!(env!("CARGO_MANIFEST_DIR"), "/../docs/rasteriser.png");
    assert!(fs::read(picture).unwrap() == fs::read(room.join("samples.png")).unwrap(), "{picture} is another picture");
}

#[test]
fn functions() {
    let rows = PAGE.lines().filter_map(|line| line.strip_prefix("| `"));
    let names: Vec<&str> = rows.map(|row| row.split_once('`').unwrap().0).collect();
    let code = CODE.lines().filter_map(|line| line.trim_start_matches("pub ").strip_prefix("fn "));
    let functions: Vec<&str> = code.map(|line| line.split_once(['(', '<']).unwrap().0).collect();
    assert_eq!(names, functions);
}
