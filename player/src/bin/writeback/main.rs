//! The program: carries out a file of draws and word reads on a frame, and writes the frame as a picture.

mod carry;
mod fields;
mod picture;
mod png;
mod progress;
mod samples;
mod script;
mod sketch;
mod words;

use carry::{Carried, Out, Source};
use progress::Progress;
use std::ffi::{OsStr, OsString};
use std::fs::{self, File, OpenOptions};
use std::io::{self, BufWriter, IsTerminal, Read, Write};
use std::path::{Path, PathBuf};
use std::process::ExitCode;
use writeback::Frame;

const HELP: &str = "\
writeback FILE PICTURE [SAMPLES]

Carries out the draws, masks and word reads of FILE and writes the frame that they leave as a PNG to PICTURE.

FILE is text: docs/FORMAT.md describes it, player/samples/album.txt is one. Standard output has a line for each call, behind
that of a draw's masks or samples the pixels, and standard error a log line for each refusal: FILE:LINE, the number and the
reason.

In the picture a pixel is a block of 4 by 4. A block of one colour is a pixel whose colour is known; a block of two, a
diagonal line in magenta and black, is one whose colour is not known.

SAMPLES is a second PNG: the samples of the last triangle or rectangle that FILE's statements `samples` go through, as rings
that are filled where a sample is hit. docs/RASTERISER.md has one.

Where FILE cannot be read or departs from the format, or a picture cannot be written, a message says so (FILE:LINE: what is
wrong), the picture is left as it was, and the exit status is 2. Calls that are turned away are no error: the status is 0.
";

const USAGE: &str = "usage: writeback FILE PICTURE [SAMPLES], or writeback --help";

const COMMENT: &str =
    "A pixel is a block of 4 by 4. A block of two colours, a diagonal line in magenta and black, is a pixel whose \
                       colour is not known.";

const SAMPLES_COMMENT: &str =
    "A square is a pixel. A ring is a sample, filled where it is hit. Red are the triangle's sides, and blue is what lies \
     between its edges on each quarter line.";

/// The longest file, in bytes.
const LONGEST: u64 = 64 << 20;

fn read(file: &Path) -> Result<Source, String> {
    let name = file.display().to_string();
    let mut text = Vec::new();
    let opened = File::open(file).and_then(|file| file.take(LONGEST + 1).read_to_end(&mut text));
    match opened {
        Err(error) => Err(format!("{name}: {error}")),
        Ok(_) if text.len() as u64 > LONGEST => Err(format!("{name}: the file is longer than {LONGEST} bytes")),
        Ok(_) => Ok(Source { name, text }),
    }
}

/// Under another name first, so that the picture is there whole or not at all.
fn write_whole(picture: &Path, bytes: &[u8]) -> io::Result<()> {
    let name = picture.file_name().ok_or(io::ErrorKind::InvalidInput)?;
    let mut part = OsString::from(name);
    part.push(format!(".{}.part", std::process::id()));
    let part = picture.with_file_name(part);
    let mut file = OpenOptions::new().write(true).create_new(true).open(&part)?;
    let written = file.write_all(bytes).and_then(|()| fs::rename(&part, picture));
    if written.is_err() {
        // The first error counts.
        let _ = fs::remove_file(&part);
    }
    written
}

/// A file's place by its folder, so that one which is not there yet has a place too.
fn place(file: &Path) -> Option<PathBuf> {
    let folder = file.parent().filter(|folder| !folder.as_os_str().is_empty()).unwrap_or(Path::new("."));
    fs::canonicalize(file).ok().or_else(|| Some(fs::canonicalize(folder).ok()?.join(file.file_name()?)))
}

/// Whether both names are those of one file.
fn same(file: &Path, picture: &Path) -> bool {
    matches!((place(file), place(picture)), (Some(file), Some(picture)) if file == picture)
}

fn carry_out(file: &Path, picture: &Path, samples: Option<&Path>) -> Result<(), String> {
    let source = read(file)?;
    for picture in [Some(picture), samples].into_iter().flatten() {
        if same(file, picture) {
            return Err(format!("{}: the picture would replace the file", picture.display()));
        }
    }
    if samples.is_some_and(|samples| same(samples, picture)) {
        return Err(format!("{}: one picture would replace the other", picture.display()));
    }
    let terminal = io::stderr().is_terminal();
    let (mut progress_out, mut log) = (io::stderr(), io::stderr());
    let mut progress = Progress::new(&mut progress_out, terminal);
    let size = source.check(&mut progress);
    progress.clear();
    let (width, height) = size?;

    let frame = Frame::new(width, height).map_err(|refusal| refusal.to_string())?;
    let mut lines = BufWriter::new(io::stdout());
    // Where the calls' lines go to the terminal they show how far it is.
    let progress = Progress::new(&mut progress_out, terminal && !io::stdout().is_terminal());
    let carried = Carried::out(&source, frame, Out { lines: &mut lines, log: &mut log, progress })?;

    let (frame, calls, refusals, walk) = (carried.frame, carried.calls, carried.refusals, carried.walk);
    writeln!(lines, "calls {calls}, log lines {refusals}")
        .and_then(|()| lines.flush())
        .map_err(|error| format!("standard output: {error}"))?;

    let mut pictures = vec![(picture, picture::picture(&frame), COMMENT)];
    if let Some(samples) = samples {
        let walk = walk.ok_or_else(|| format!("{}: there are no samples for a picture", source.name))?;
        pictures.push((samples, sketch::sketch(&walk), SAMPLES_COMMENT));
    }
    pictures.iter().try_for_each(|(path, (width, height, rgb), comment)| {
        write_whole(path, &png::png(*width, *height, rgb, comment))
            .map_err(|error| format!("{}: {error}", path.display()))
    })
}

fn main() -> ExitCode {
    let arguments: Vec<OsString> = std::env::args_os().skip(1).collect();
    let is_option = |argument: &OsStr| argument.as_encoded_bytes().starts_with(b"-");
    let failed = |message: &str| {
        let _ = writeln!(io::stderr(), "{message}");
        ExitCode::from(2)
    };
    match &arguments[..] {
        [help] if help == "--help" || help == "-h" => match write!(io::stdout(), "{HELP}") {
            Ok(()) => ExitCode::SUCCESS,
            Err(error) => failed(&format!("standard output: {error}")),
        },
        [file, picture, samples @ ..] if samples.len() < 2 && !arguments.iter().any(|word| is_option(word)) => {
            match carry_out(Path::new(file), Path::new(picture), samples.first().map(Path::new)) {
                Ok(()) => ExitCode::SUCCESS,
                Err(message) => failed(&message),
            }
        }
        _ => failed(USAGE),
    }
}
