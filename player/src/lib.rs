//! The pixel write-back for a player: what a console's draws leave in screen memory, worked out on the processor by a
//! library that is proved to do what its rules say.
//!
//! A [`Frame`] holds colours and coverages, with marks that say which are known. [`Frame::draw`] carries out a [`Draw`] on
//! it, and [`Frame::emitted_pixels`] lists the pixels that a draw would emit, each with the samples that it hits;
//! [`Frame::read_word`] answers a pixel as the game would read it from memory, and [`Frame::read_words`] many pixels at
//! once. A call either succeeds or is turned away with a [`Refusal`], whose `Display` is one line for a log; then it changes
//! nothing. No call panics, whatever it is given. docs/RULES.md of the repository has the rules: which pixels a draw emits,
//! what each does to colours, coverages and marks (F1 to F5), how words are made, and the numbers of the refusals.
//!
//! A draw's pixels are found by one of two engines ([`Draw::engine`]): a fast one, and a slow one that is there to be read
//! beside the console's papers. Nothing that a call answers or writes turns on which.
//!
//! ```
//! use writeback::{AlphaIn, ColorIn, CombinerUniform, CycleSel, Draw, Frame, Geometry, Refusal, RenderMode, Writer};
//!
//! // A red rectangle, over a frame of which nothing is known.
//! let mut frame = Frame::new(320, 240)?;
//! let flat = CycleSel::only(ColorIn::Primitive, AlphaIn::One);
//! let uniform = CombinerUniform { prim: [1.0, 0.0, 0.0, 1.0], ..CombinerUniform::default() };
//! let draw = Draw {
//!     mode: RenderMode { cvg_dst: 2, ..RenderMode::default() },
//!     uniform: uniform.with_inputs(flat).unwrap(),
//!     geometry: Geometry::Rectangle { left: 10.0, top: 10.0, right: 50.0, bottom: 30.0 },
//!     ..Draw::default()
//! };
//! assert_eq!(frame.draw(&draw), Ok(40 * 20));
//!
//! let inside = 15 * 320 + 20;
//! assert_eq!(frame.color(inside), Some([255, 0, 0]));
//! assert_eq!(frame.read_word(inside, &Writer::RGBA16), Ok([0xf8, 0x01]));
//!
//! // Nobody knows what the game would find outside the rectangle.
//! assert_eq!(frame.read_word(0, &Writer::RGBA16), Err(Refusal::UNKNOWN));
//! # Ok::<(), Refusal>(())
//! ```
//!
//! # Building
//!
//! Crate `writeback-sys` (ffi/ of the repository) declares the library's C interface; its build script makes the library by
//! `rt lib` in crates/exports at the repository's root and links it. Where the environment variable `LIBRARY` names a folder that
//! holds `libexports.a`, that one is linked and the Rattle toolchain is not needed.
//!
//! # What is proved, and what is not
//!
//! What the library's calls answer and write is proved on every input, refused ones too; docs/THEOREMS.md of the repository
//! says of each what. Of whole lists of draws and word reads it is proved that what is not known shows in no answer, and that
//! each word which is answered is the one of every frame that has the same known bytes and knows the rest. This crate, which
//! hands values over to the calls (module `ffi`) and back, is tested and not proved.
#![deny(missing_docs, unsafe_code)]

mod draw;
mod emitted;
mod ffi;
mod frame;
mod mode;
mod refusal;
mod selectors;
mod uniform;
mod word;

pub use draw::{Draw, Engine, Geometry, Scissor, Vertex, Vertices};
pub use emitted::{EmittedPixel, EmittedRun, SAMPLES};
pub use frame::Frame;
pub use mode::{AlphaCompare, BlendAlpha, BlendClass, BlendFactor, BlendSource, Blender, RenderMode, ZMode};
pub use refusal::Refusal;
pub use selectors::{decode_combine, AlphaIn, ColorIn, CycleSel};
pub use uniform::CombinerUniform;
pub use word::{Encoding, Writer};
