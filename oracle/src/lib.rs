//! The comparison of the port's library with the Rust original: the interface, the original behind it, the frame of
//! docs/RULES.md over the original, the generators, and what is compared. The program is main.rs.
#![deny(unsafe_code)]

pub mod calls;
pub mod compare;
pub mod compare_combiner;
pub mod compare_emitted;
pub mod compare_frame;
pub mod compare_known;
pub mod compare_numbers;
pub mod compare_pack;
pub mod compare_pixel;
pub mod compare_raster;
pub mod compare_runs;
pub mod compare_selectors;
pub mod draws;
pub mod engines;
pub mod frame;
pub mod given_up;
pub mod inputs;
#[allow(unsafe_code)]
pub mod library;
pub mod lists;
pub mod record;
pub mod record_lists;
pub mod rust;
pub mod shapes;
pub mod sides;
pub mod words;
