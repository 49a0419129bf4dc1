//! The sample of the player's program (player/samples/album.txt) on the frame of frame.rs: the lines that are recorded for it
//! (player/samples/album.out) must be those that the original's functions come to.
#![allow(dead_code)] // The program's own reader of files is taken in whole.

#[path = "../../player/src/bin/writeback/fields.rs"]
mod fields;
#[path = "../../player/src/bin/writeback/script.rs"]
mod script;
#[path = "../../player/src/bin/writeback/words.rs"]
mod words;

use oracle::draws::{Draw, Frame, Read, Shape};
use oracle::frame::{self, Branches, EmittedList};
use oracle::library::{Geometry, Mode, Scissor, Uniform};
use oracle::rust::rgba;
use script::{Area, Bytes, Script, Step};
use writeback::{CombinerUniform, Encoding, RenderMode, Writer};

const SAMPLE: &str = include_str!("../../player/samples/album.txt");
const RECORDED: &str = include_str!("../../player/samples/album.out");

fn mode(mode: RenderMode) -> Mode {
    Mode {
        cycle_type: mode.cycle_type,
        blender_mux: mode.blender_mux,
        rgb_dither: mode.rgb_dither,
        alpha_dither: mode.alpha_dither,
        cvg_dst: mode.cvg_dst,
        blend_class: mode.blend_class as u8,
        fallback_class: mode.fallback_class as u8,
        z_mode: mode.z_mode as u8,
        alpha_compare: mode.alpha_compare as u8,
        key_enabled: mode.key_enabled,
        image_read: mode.image_read,
        antialias: mode.antialias,
        alpha_cvg_select: mode.alpha_cvg_select,
        color_on_coverage: mode.color_on_coverage,
        force_blend: mode.force_blend,
        non_canonical_blend: mode.non_canonical_blend,
        z_source_prim: mode.z_source_prim,
        z_test: mode.z_test,
        z_write: mode.z_write,
        fog: mode.fog,
        cvg_x_alpha: mode.cvg_x_alpha,
    }
}

/// What takes part in a draw.
fn uniform(uniform: CombinerUniform) -> Uniform {
    Uniform {
        combine_l: uniform.combine_l,
        combine_h: uniform.combine_h,
        tex_enable: uniform.tex_enable,
        prim: rgba(uniform.prim),
        env: rgba(uniform.env),
        blend_color: rgba(uniform.blend_color),
        fog_color: rgba(uniform.fog_color),
        lod_params: uniform.lod_params,
        ..Uniform::default()
    }
}

fn draw(draw: writeback::Draw) -> Draw {
    let writeback::Scissor { left, top, width, height } = draw.scissor;
    let geometry = match draw.geometry {
        writeback::Geometry::Nothing => Geometry::default(),
        writeback::Geometry::Triangles => Geometry { kind: 1, ..Geometry::default() },
        writeback::Geometry::Rectangle { left, top, right, bottom } => Geometry { kind: 2, left, top, right, bottom },
    };
    let shape = Shape {
        cull: draw.cull,
        scissor: Scissor { left, top, width, height },
        geometry,
        vertices: draw.vertices.floats().to_vec(),
        present: draw.vertices.present().to_vec(),
        indices: draw.indices.to_vec(),
    };
    Draw { mode: mode(draw.mode), uniform: uniform(draw.uniform), shape }
}

/// A word's four digits, or its number.
fn word(frame: &Frame, pixel: usize, writer: Writer) -> Result<String, u32> {
    let Writer { fmt, siz, rgb_dither, encoding } = writer;
    let big_endian = encoding == Encoding::BigEndian;
    let answer = frame::read_word(frame, &Read { pixel, fmt, siz, rgb_dither, big_endian });
    match answer.number {
        0 => Ok(format!("{:04x}", (answer.value as u16).swap_bytes())),
        number => Err(number),
    }
}

fn write(frame: &mut Frame, area: Area, bytes: Bytes) {
    for row in area.top..area.top + area.height {
        for column in area.left..area.left + area.width {
            let pixel = row * frame.width as usize + column;
            match bytes {
                Bytes::Color([r, g, b]) => {
                    frame.colors.splice(3 * pixel..3 * pixel + 3, [r, g, b]);
                    frame.marks[pixel] |= 1;
                }
                Bytes::Coverage(coverage) => {
                    frame.coverages[pixel] = coverage;
                    frame.marks[pixel] |= 2;
                }
                Bytes::Unknown => frame.marks[pixel] = 0,
                Bytes::Mark(mark) => frame.marks[pixel] = mark,
            }
        }
    }
}

fn answer(result: Result<String, u32>) -> String {
    result.unwrap_or_else(|number| format!("turned away, number {number}"))
}

/// How many pixels, or the number.
fn pixels(number: u32, pixels: u64) -> String {
    let counted = format!("{pixels} pixel{}", if pixels == 1 { "" } else { "s" });
    answer(if number == 0 { Ok(counted) } else { Err(number) })
}

/// The lines of emitted pixels, neighbours with one mask in one.
fn stretches(list: &EmittedList) -> Vec<String> {
    let stretches = list.pixels().chunk_by(|a, b| a.1 == b.1 && a.0 + 1 == b.0);
    let line = |stretch: &[(u32, u8)]| match (stretch[0], stretch[stretch.len() - 1].0) {
        ((first, mask), last) if first == last => format!("  pixel {first}: {mask:02x}"),
        ((first, mask), last) => format!("  pixels {first} to {last}: {mask:02x}"),
    };
    stretches.map(line).collect()
}

/// The call's lines, if the step is a call.
fn lines(frame: &mut Frame, step: Step) -> Vec<String> {
    match step {
        Step::Write(area, bytes) => {
            write(frame, area, bytes);
            vec![]
        }
        Step::Draw(name, found) => {
            let drawn = frame::draw(frame, &draw(found), &mut Branches::default());
            vec![format!("{name}: {}", pixels(drawn.number, drawn.pixels))]
        }
        Step::Masks(name, found) => {
            let list = EmittedList::of(frame, &draw(found));
            let call = format!("masks {name}: {}", pixels(list.number(), list.pixels().len() as u64));
            std::iter::once(call).chain(stretches(&list)).collect()
        }
        Step::Samples(name, ..) => panic!("samples {name}: album.txt has no such statement"),
        Step::Word { pixel, writer } => vec![format!("word {pixel}: {}", answer(word(frame, pixel, writer)))],
        Step::Words { first, count, writer } => {
            let word = |i| word(frame, first + i, writer).unwrap_or_else(|_| "----".into());
            let words: String = (0..count).map(|i| format!(" {}", word(i))).collect();
            vec![format!("words {first} {count}:{words}")]
        }
    }
}

#[test]
fn recorded_lines() {
    let mut script = Script::default();
    let n = 320 * 240;
    let mut frame = Frame { width: 320, height: 240, colors: vec![0; 3 * n], coverages: vec![0; n], marks: vec![0; n] };
    let mut recorded = RECORDED.lines();
    let mut calls = 0;
    for (index, text) in SAMPLE.lines().enumerate() {
        let Some(step) = script.line(text).unwrap() else {
            continue;
        };
        for (i, line) in lines(&mut frame, step).iter().enumerate() {
            // The first is the call's, and the others are the pixels'.
            let line = if i == 0 { format!("line {}: {line}", index + 1) } else { line.clone() };
            assert_eq!(recorded.next(), Some(&*line));
            calls += u64::from(i == 0);
        }
    }
    assert_eq!(script.size(), Ok((frame.width, frame.height)));
    assert!(calls > 50);
    assert!(recorded.next().unwrap().starts_with(&format!("calls {calls}, ")));
    assert_eq!(recorded.next(), None);
}
