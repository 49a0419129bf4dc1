//! The samples that crates replay and replay_lists ask of the port are what is recorded today: the original's answers, and
//! what lists come to on the frame of frame.rs, and on the library under each choice of its engine.

use oracle::compare_frame::beside_original;
use oracle::engines::Library;
use oracle::inputs::{Inputs, SEED};
use oracle::{record, record_lists};

/// Holds a sample to its file; `command` records it.
fn held(sample: &str, command: &str, recorded: Vec<String>) {
    let path = format!("{}/../crates/{sample}/stdin", env!("CARGO_MANIFEST_DIR"));
    let text = std::fs::read_to_string(&path).unwrap_or_else(|error| panic!("{path}: {error}"));
    for (i, (line, recorded)) in text.lines().zip(&recorded).enumerate() {
        assert_eq!(line, recorded, "{path}, line {}: `record {command}` writes another", i + 1);
    }
    assert_eq!(text.lines().count(), recorded.len(), "{path}: `record {command}` writes another number of lines");
}

#[test]
fn answers() {
    held("replay", "answers", record::lines(SEED));
}

#[test]
fn lists() {
    held("replay_lists", "lists", record_lists::lines(SEED));
}

#[test]
fn lists_under_each_choice_of_the_engine() {
    let sample = record_lists::sample(SEED);
    for library in Library::each(&Inputs::new(SEED)) {
        for list in &sample {
            beside_original(&library, list).unwrap_or_else(|difference| panic!("{}", library.said(difference)));
        }
    }
}
