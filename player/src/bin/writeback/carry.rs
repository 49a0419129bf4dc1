//! Carries out a file: a line on standard output for each call, with the pixels of a draw's masks or its samples behind it, and
//! on standard error a log line for each refusal.

use crate::progress::Progress;
use crate::samples::Walk;
use crate::script::{Area, Bytes, Script, Step};
use std::fmt::Write as _;
use std::io::{self, Write};
use writeback::{Draw, Engine, Frame, Geometry, Refusal};

/// A file's name, as messages and the log have it, and its bytes.
pub struct Source {
    pub name: String,
    pub text: Vec<u8>,
}

/// A line by its number, and how many bytes it and the lines before it have.
struct Line<'a> {
    number: usize,
    end: usize,
    bytes: &'a [u8],
}

impl Source {
    /// A line may end with CRLF, and a byte order mark may open the file.
    fn lines(&self) -> impl Iterator<Item = Line<'_>> {
        let start = if self.text.starts_with(b"\xef\xbb\xbf") { 3 } else { 0 };
        let mut end = start;
        self.text[start..].split_inclusive(|byte| *byte == b'\n').enumerate().map(move |(index, bytes)| {
            end += bytes.len();
            Line { number: index + 1, end, bytes }
        })
    }

    fn wrong(&self, number: usize, wrong: String) -> String {
        format!("{}:{number}: {wrong}", self.name)
    }

    fn step<'s>(&self, script: &'s mut Script, line: &Line) -> Result<Option<Step<'s>>, String> {
        let text = std::str::from_utf8(line.bytes).map_err(|error| {
            let at = error.valid_up_to();
            format!("byte {} of the line, 0x{:02x}, is not UTF-8", at + 1, line.bytes[at])
        });
        text.and_then(|text| script.line(text)).map_err(|wrong| self.wrong(line.number, wrong))
    }

    /// The frame's size, if every line has the format. Nothing is carried out.
    pub fn check(&self, progress: &mut Progress) -> Result<(u32, u32), String> {
        let mut script = Script::default();
        let mut last = 1;
        for line in self.lines() {
            self.step(&mut script, &line)?;
            progress.at("reading", line.end, self.text.len());
            last = line.number;
        }
        script.size().map_err(|wrong| self.wrong(last, wrong))
    }
}

/// Where things are said.
pub struct Out<'a> {
    pub lines: &'a mut dyn Write,
    pub log: &'a mut dyn Write,
    pub progress: Progress<'a>,
}

/// A file in the course of being carried out.
pub struct Carried<'a> {
    source: &'a Source,
    out: Out<'a>,
    pub frame: Frame,
    pub calls: u64,
    pub refusals: u64,
    /// The last shape that a statement went through sample by sample.
    pub walk: Option<Walk>,
}

fn write(frame: &mut Frame, area: Area, bytes: Bytes) {
    let width = frame.width() as usize;
    let (colors, coverages, marks) = frame.parts_mut();
    for row in area.top..area.top + area.height {
        let first = row * width + area.left;
        for pixel in first..first + area.width {
            match bytes {
                Bytes::Color(color) => {
                    colors[3 * pixel..3 * pixel + 3].copy_from_slice(&color);
                    marks[pixel] |= 1;
                }
                Bytes::Coverage(coverage) => {
                    coverages[pixel] = coverage;
                    marks[pixel] |= 2;
                }
                Bytes::Unknown => marks[pixel] = 0,
                Bytes::Mark(mark) => marks[pixel] = mark,
            }
        }
    }
}

fn counted(number: u64, what: &str) -> String {
    format!("{number} {what}{}", if number == 1 { "" } else { "s" })
}

/// A pixel, or all from one to another.
fn range(first: usize, last: usize) -> String {
    if first == last {
        format!("pixel {first}")
    } else {
        format!("pixels {first} to {last}")
    }
}

/// The pixels of each stretch of one number that is not 0, and its refusal.
fn stretches(first: usize, numbers: &[u8]) -> Vec<(String, Refusal)> {
    let mut pixel = first;
    let mut found = Vec::new();
    for stretch in numbers.chunk_by(|a, b| a == b) {
        let last = pixel.saturating_add(stretch.len() - 1);
        if let Some(refusal) = Refusal::from_number(stretch[0].into()) {
            found.push((range(pixel, last), refusal));
        }
        pixel = last.saturating_add(1);
    }
    found
}

/// The most pixels that are listed at a time: no triangle and no rectangle has more.
const LISTED: usize = 1024 * 1024;

/// A draw that emits so many pixels, in parts that emit no more than [`LISTED`]: whole, or triangle by triangle, as they are
/// emitted one after the other. Each part is gone through once.
fn parts<'a>(draw: &Draw<'a>, emitted: u64) -> impl Iterator<Item = Draw<'a>> {
    let draw = *draw;
    let by_triangles = draw.geometry == Geometry::Triangles && emitted > LISTED as u64;
    let triangles = if by_triangles { draw.indices } else { &[] };
    let whole = (!by_triangles).then_some(draw);
    whole.into_iter().chain(triangles.chunks(3).map(move |indices| Draw { indices, ..draw }))
}

/// Emitted pixels in the course of being written: a line for each stretch of neighbours with one mask.
#[derive(Default)]
struct Masks {
    /// The first and the last pixel, and their mask.
    stretch: Option<(u32, u32, u8)>,
}

impl Masks {
    fn add(&mut self, out: &mut dyn Write, pixel: u32, mask: u8) -> io::Result<()> {
        match &mut self.stretch {
            Some((_, last, of)) if *of == mask && pixel.checked_sub(1) == Some(*last) => *last = pixel,
            _ => {
                self.end(out)?;
                self.stretch = Some((pixel, pixel, mask));
            }
        }
        Ok(())
    }

    fn end(&mut self, out: &mut dyn Write) -> io::Result<()> {
        match self.stretch.take() {
            Some((first, last, mask)) => writeln!(out, "  {}: {mask:02x}", range(first as usize, last as usize)),
            None => Ok(()),
        }
    }
}

impl<'a> Carried<'a> {
    /// Carries out a file that has the format, on a frame of its size of which nothing is known.
    pub fn out(source: &'a Source, frame: Frame, out: Out<'a>) -> Result<Carried<'a>, String> {
        let mut carried = Carried { source, out, frame, calls: 0, refusals: 0, walk: None };
        let mut script = Script::default();
        for line in source.lines() {
            if let Some(step) = source.step(&mut script, &line)? {
                carried.step(line.number, step)?;
            }
            carried.out.progress.at("carrying out", line.end, source.text.len());
        }
        carried.out.progress.clear();
        Ok(carried)
    }

    fn step(&mut self, line: usize, step: Step) -> Result<(), String> {
        match step {
            Step::Write(area, bytes) => {
                write(&mut self.frame, area, bytes);
                Ok(())
            }
            Step::Draw(name, draw) => {
                let answer = self.frame.draw(&draw);
                self.answer(line, name, answer.map(|pixels| counted(pixels, "pixel")))
            }
            Step::Masks(name, draw) => self.masks(line, name, &draw),
            Step::Samples(name, draw, area) => self.samples(line, name, &draw, area),
            Step::Word { pixel, writer } => {
                let answer = self.frame.read_word(pixel, &writer);
                self.answer(line, &format!("word {pixel}"), answer.map(|[a, b]| format!("{a:02x}{b:02x}")))
            }
            Step::Words { first, count, writer } => {
                let (mut words, mut numbers) = (vec![[0; 2]; count], vec![0; count]);
                match self.frame.read_words(first, &writer, &mut words, &mut numbers) {
                    Ok(_) => self.run(line, first, &words, &numbers),
                    Err(refusal) => self.answer(line, &format!("words {first} {count}"), Err(refusal)),
                }
            }
        }
    }

    /// A call's line.
    fn line(&mut self, line: usize, text: &str) -> Result<(), String> {
        self.calls += 1;
        writeln!(self.out.lines, "line {line}: {text}").map_err(|error| format!("standard output: {error}"))
    }

    /// A refusal's line in the log. The lines before it come first, where both go to one place.
    fn log(&mut self, line: usize, text: &str) -> Result<(), String> {
        self.refusals += 1;
        self.out.progress.clear();
        self.out.lines.flush().map_err(|error| format!("standard output: {error}"))?;
        writeln!(self.out.log, "{}:{line}: {text}", self.source.name)
            .map_err(|error| format!("standard error: {error}"))
    }

    fn answer(&mut self, line: usize, call: &str, answer: Result<String, Refusal>) -> Result<(), String> {
        match answer {
            Ok(answer) => self.line(line, &format!("{call}: {answer}")),
            Err(refusal) => {
                self.line(line, &format!("{call}: turned away, number {}", refusal.number()))?;
                self.log(line, &refusal.to_string())
            }
        }
    }

    /// How many pixels a draw would emit, and behind it the pixels with their masks.
    fn masks(&mut self, line: usize, name: &str, draw: &Draw) -> Result<(), String> {
        let run = self.frame.emitted_pixels_from(draw, 0, &mut [], &mut []);
        self.answer(line, &format!("masks {name}"), run.map(|run| counted(run.emitted, "pixel")))?;
        let Ok(run) = run else {
            return Ok(());
        };
        let slots = LISTED.min(run.emitted as usize);
        let (mut pixels, mut masks) = (vec![0; slots], vec![0; slots]);
        let mut written = Masks::default();
        for part in parts(draw, run.emitted) {
            let part = self.frame.emitted_pixels_from(&part, 0, &mut pixels, &mut masks);
            let listed = part.map_err(|refusal| refusal.to_string())?.listed as usize;
            let mut emitted = pixels.iter().zip(&masks).take(listed);
            emitted
                .try_for_each(|(pixel, mask)| written.add(self.out.lines, *pixel, *mask))
                .map_err(|error| format!("standard output: {error}"))?;
        }
        written.end(self.out.lines).map_err(|error| format!("standard output: {error}"))
    }

    /// How many pixels the slow engine would emit, and behind it how it goes through each shape.
    fn samples(&mut self, line: usize, name: &str, draw: &Draw, area: Area) -> Result<(), String> {
        let draw = &Draw { engine: Engine::Slow, ..*draw };
        let run = self.frame.emitted_pixels_from(draw, 0, &mut [], &mut []);
        self.answer(line, &format!("samples {name}"), run.map(|run| counted(run.emitted, "pixel")))?;
        if run.is_err() {
            return Ok(());
        }
        let walks = Walk::all(&self.frame, draw, area).map_err(|wrong| self.source.wrong(line, wrong))?;
        for walk in walks {
            write!(self.out.lines, "{walk}").map_err(|error| format!("standard output: {error}"))?;
            self.walk = Some(walk);
        }
        Ok(())
    }

    /// A run's words, with dashes for those that are turned away.
    fn run(&mut self, line: usize, first: usize, words: &[[u8; 2]], numbers: &[u8]) -> Result<(), String> {
        let mut text = format!("words {first} {}:", words.len());
        for ([a, b], number) in words.iter().zip(numbers) {
            let _ = if *number == 0 { write!(text, " {a:02x}{b:02x}") } else { write!(text, " ----") };
        }
        self.line(line, &text)?;
        stretches(first, numbers)
            .iter()
            .try_for_each(|(pixels, refusal)| self.log(line, &format!("{pixels}: {refusal}")))
    }
}

#[cfg(test)]
mod tests {
    use super::*;

    #[test]
    fn stretches_of_a_run() {
        let of = |first, numbers: &[u8]| -> Vec<String> {
            stretches(first, numbers).iter().map(|(pixels, refusal)| format!("{pixels} {}", refusal.number())).collect()
        };
        assert_eq!(of(5, &[0, 10, 10, 0, 10, 8]), ["pixels 6 to 7 10", "pixel 9 10", "pixel 10 8"]);
        assert_eq!(of(0, &[]), [""; 0]);
        assert_eq!(of(usize::MAX, &[8, 8]), [format!("pixel {} 8", usize::MAX)]);
    }

    #[test]
    fn stretches_of_masks() {
        let (mut out, mut masks) = (Vec::new(), Masks::default());
        for (pixel, mask) in [(7, 0xff), (8, 0xff), (9, 0x80), (10, 0xff), (11, 0xff), (11, 0xff), (0, 0xff), (1, 0xff)]
        {
            masks.add(&mut out, pixel, mask).unwrap();
        }
        masks.end(&mut out).unwrap();
        masks.end(&mut out).unwrap();
        let lines = "  pixels 7 to 8: ff\n  pixel 9: 80\n  pixels 10 to 11: ff\n  pixel 11: ff\n  pixels 0 to 1: ff\n";
        assert_eq!(String::from_utf8(out).unwrap(), lines);
    }
}
