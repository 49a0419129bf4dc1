//! The program: the sample's lines and its picture, every kind of file that departs from the format, and hostile files.

mod png;

use std::collections::BTreeSet;
use std::fs;
use std::path::{Path, PathBuf};
use std::process::{Command, Output};
use std::sync::atomic::{AtomicU32, Ordering};

/// A folder of its own for each test, which is removed with what is in it.
struct Folder(PathBuf);

impl Folder {
    fn new() -> Folder {
        static COUNT: AtomicU32 = AtomicU32::new(0);
        let name = format!("writeback-{}-{}", std::process::id(), COUNT.fetch_add(1, Ordering::Relaxed));
        let folder = std::env::temp_dir().join(name);
        fs::create_dir(&folder).unwrap();
        Folder(folder)
    }

    fn path(&self, name: &str) -> PathBuf {
        self.0.join(name)
    }

    fn names(&self) -> BTreeSet<String> {
        fs::read_dir(&self.0).unwrap().map(|entry| entry.unwrap().file_name().into_string().unwrap()).collect()
    }
}

impl Drop for Folder {
    fn drop(&mut self) {
        let _ = fs::remove_dir_all(&self.0);
    }
}

fn program() -> Command {
    Command::new(env!("CARGO_BIN_EXE_writeback"))
}

fn text(bytes: &[u8]) -> String {
    String::from_utf8(bytes.to_vec()).unwrap()
}

/// The program on a file `in.txt` of these bytes, in the folder.
fn run_in(folder: &Folder, bytes: impl AsRef<[u8]>) -> Output {
    fs::write(folder.path("in.txt"), bytes).unwrap();
    program().current_dir(&folder.0).args(["in.txt", "out.png"]).output().unwrap()
}

/// A file that is carried out: its lines and its log.
fn carried(bytes: impl AsRef<[u8]>) -> (String, String) {
    let folder = Folder::new();
    let output = run_in(&folder, bytes);
    assert_eq!(output.status.code(), Some(0), "{}", text(&output.stderr));
    assert_eq!(folder.names(), BTreeSet::from(["in.txt".to_string(), "out.png".to_string()]));
    png::read(&fs::read(folder.path("out.png")).unwrap());
    (text(&output.stdout), text(&output.stderr))
}

/// A file that is not: the message, with nothing on standard output and no picture.
#[track_caller]
fn wrong(bytes: impl AsRef<[u8]>, message: &str) {
    let folder = Folder::new();
    let output = run_in(&folder, bytes);
    assert_eq!(text(&output.stderr), format!("in.txt:{message}\n"));
    assert_eq!((output.status.code(), text(&output.stdout)), (Some(2), String::new()));
    assert_eq!(folder.names(), BTreeSet::from(["in.txt".to_string()]));
}

/// A statement behind a frame of 8 by 6, on line 3.
#[track_caller]
fn wrong_statement(statement: &str, message: &str) {
    wrong(format!("# A comment\nframe 8 6\n{statement}\n"), &format!("3: {message}"));
}

/// The colours of a frame pixel's block.
fn block(picture: &png::Picture, column: usize, row: usize) -> BTreeSet<[u8; 3]> {
    let at = |i: usize| 3 * ((4 * row + i / 4) * picture.width + 4 * column + i % 4);
    (0..16).map(|i| picture.rgb[at(i)..at(i) + 3].try_into().unwrap()).collect()
}

const HATCH: [[u8; 3]; 2] = [[0, 0, 0], [255, 0, 255]];

#[test]
fn sample() {
    let folder = Folder::new();
    let output = program()
        .current_dir(env!("CARGO_MANIFEST_DIR"))
        .args([Path::new("samples/album.txt"), &folder.path("album.png")])
        .output()
        .unwrap();
    assert_eq!(text(&output.stdout), include_str!("../samples/album.out"));
    assert_eq!(text(&output.stderr), include_str!("../samples/album.log"));
    assert_eq!(output.status.code(), Some(0));

    let picture = png::read(&fs::read(folder.path("album.png")).unwrap());
    assert_eq!((picture.width, picture.height), (1280, 960));
    // The page; outside it; the ribbon, before its end, at it and behind it; under the glass, over the page and outside it; the torn
    // corner; the two stamps.
    assert_eq!(block(&picture, 20, 20), BTreeSet::from([[237, 227, 199]]));
    assert_eq!(block(&picture, 2, 2), BTreeSet::from(HATCH));
    assert_eq!(block(&picture, 3, 140), BTreeSet::from(HATCH));
    assert_eq!(block(&picture, 4, 140), BTreeSet::from([[179, 26, 51]]));
    assert_eq!(block(&picture, 5, 140), BTreeSet::from([[179, 26, 51]]));
    assert_eq!(block(&picture, 300, 20), BTreeSet::from([[171, 211, 218]]));
    assert_eq!(block(&picture, 310, 20), BTreeSet::from(HATCH));
    assert_eq!(block(&picture, 300, 200), BTreeSet::from(HATCH));
    assert_eq!(block(&picture, 272, 217), BTreeSet::from([[200, 30, 40]]));
    assert_eq!(block(&picture, 288, 217), BTreeSet::from([[30, 60, 200]]));
    assert_eq!(block(&picture, 288, 219), BTreeSet::from(HATCH));
}

/// What docs/FORMAT.md shows of the sample is what the program prints for it.
#[test]
fn the_page_on_the_format() {
    let (mut lines, mut log) =
        (include_str!("../samples/album.out").lines(), include_str!("../samples/album.log").lines());
    let (_, printed) = include_str!("../../docs/FORMAT.md").split_once("## What is printed").unwrap();
    let mut shown = 0;
    for line in printed.lines() {
        let found = match line.strip_prefix("    ") {
            Some(line) if ["line ", "  pixel", "calls "].iter().any(|start| line.starts_with(start)) => {
                lines.any(|of| of == line)
            }
            Some(line) if line.starts_with("player/samples/") => log.any(|of| line.strip_prefix("player/") == Some(of)),
            _ => continue,
        };
        assert!(found, "{line}");
        shown += 1;
    }
    assert!(shown > 10, "{shown}");
}

/// A panel over ground of which nothing is known: where it covers a pixel whole its word can be read, and where half of the samples
/// are hit a byte alone, by either engine.
#[test]
fn a_panel_over_unknown_ground() {
    for engine in ["fast", "slow"] {
        let (lines, log) = carried(format!(
            "frame 6 2\nengine {engine}\ncombine zero zero zero one zero zero zero one\nblender pixel zero pixel one\n\
             words 0 6\nmode force_blend on antialias on\nrectangle 0.5 0 6 1.5\nwords 0 12\nwriter fmt 2 siz 1\nwords 0 12\n"
        ));
        let dashes = " ----".repeat(6);
        assert_eq!(
            lines,
            format!(
                "line 5: words 0 6:{dashes}\nline 7: rectangle: 12 pixels\nline 8: words 0 12: ----{}{dashes}\n\
                 line 10: words 0 12:{}\ncalls 4, log lines 3\n",
                " ffff".repeat(5),
                " ff00".repeat(12)
            )
        );
        let stretches: Vec<&str> = log.lines().map(|line| line.split(':').nth(2).unwrap()).collect();
        assert_eq!(stretches, [" pixels 0 to 5", " pixel 0", " pixels 6 to 11"]);
    }
}

/// With `engine slow` in the empty line behind `frame`, every line, every log line and every byte of the picture is the same.
#[test]
fn the_sample_by_the_slow_engine() {
    let folder = Folder::new();
    let sample = include_str!("../samples/album.txt");
    let slow = sample.replacen("frame 320 240\n\n", "frame 320 240\nengine slow\n", 1);
    assert_ne!(slow, sample);
    fs::create_dir(folder.path("samples")).unwrap();
    let picture = |text: &str| {
        fs::write(folder.path("samples/album.txt"), text).unwrap();
        let output = program().current_dir(&folder.0).args(["samples/album.txt", "album.png"]).output().unwrap();
        assert_eq!(self::text(&output.stdout), include_str!("../samples/album.out"));
        assert_eq!(self::text(&output.stderr), include_str!("../samples/album.log"));
        fs::read(folder.path("album.png")).unwrap()
    };
    assert!(picture(&slow) == picture(sample), "the pictures differ");
}

#[test]
fn the_least_file() {
    assert_eq!(carried("frame 1 1"), ("calls 0, log lines 0\n".into(), "".into()));
}

#[test]
fn line_ends_marks_and_comments() {
    let expected = ("line 3: word 0: turned away, number 10\ncalls 1, log lines 1\n".into(), LOG.to_string());
    const LOG: &str =
        "in.txt:3: turned away, number 10: the colour is unmarked, or the coverage is unmarked and siz is 2\n";
    assert_eq!(carried("frame 2 2\n\nword 0\n"), expected);
    assert_eq!(carried("frame 2 2\n\nword 0"), expected);
    assert_eq!(carried("frame 2 2\r\n\r\nword 0\r\n"), expected);
    assert_eq!(carried("\u{feff}frame 2 2\n\nword 0\n"), expected);
    assert_eq!(carried("  frame\t2 2#x\n # \u{e9}\u{1f600} frame\n\tword 0x0 # word 1"), expected);
}

/// A float of any bits, a flag of any byte and an index of any number go to the library.
#[test]
fn hostile_values() {
    let (lines, _) = carried(
        "frame 4 4\nmode cvg_dst 2\ncombine zero zero zero shade zero zero zero one\n\
         floats 0 0 0x3f800000 0 0 1  9 0 1 0 0 1  0 9 1 0 0 0x3f800000\nflags 1 1 1\ntriangles 0 1 2\n\
         triangles 0 1 4294967295\nfloats 0xffffffff\ntriangles 0 1 2\nno_vertices\nflags 2\nfloats 0 0 0 0 0 0\nnothing\n\
         no_vertices\nrectangle 0 0 0x7f800000 4 0 0 0\nrectangle 0 0 4 4 0\nword 18446744073709551615\nmark 0 0 1 1 255\nnothing\n\
         words 0 0\nwords 18446744073709551615 2\n",
    );
    assert_eq!(
        lines,
        "line 6: triangles: 16 pixels\nline 7: triangles: turned away, number 7\nline 9: triangles: turned away, number 5\n\
         line 13: nothing: turned away, number 5\nline 15: rectangle: 16 pixels\nline 16: rectangle: turned away, number 5\n\
         line 17: word 18446744073709551615: turned away, number 8\nline 19: nothing: turned away, number 3\n\
         line 20: words 0 0:\nline 21: words 18446744073709551615 2: ---- ----\ncalls 10, log lines 7\n"
    );
}

/// A draw's pixels with their masks, and nothing drawn: the word read finds the colour unknown. Neighbours with one mask stand
/// in one line, over a row's end too, and a triangle's pixels behind those of the triangle before it.
#[test]
fn masks() {
    let (lines, log) = carried(
        "frame 4 3\ncombine zero zero zero one zero zero zero one\nmasks rectangle 0.25 0 1 1\nmode antialias on\n\
         masks rectangle 0.25 0 1 1 # as in the worked values\n  masks\trectangle 0 0 4 2.5\nmasks rectangle 4 0 5 3\n\
         vertex 0 0 1 1 1 1\nvertex 0.125 0.25 1 1 1 1\nvertex 1 2 1 1 1 1\nvertex 2 0 1 1 1 1\nvertex 0 2 1 1 1 1\n\
         masks triangles 0 1 2\nmasks triangles 0 3 4  0 1 2  0 3 4\nmasks triangles\nmasks nothing\nmasks triangles 0 1\n\
         masks rectangle 0 0 1 1 9 9 9\nword 0\nscissor 0 0 65536 1\nmasks nothing 0\nmark 0 0 1 1 4\nmasks triangles 0\n",
    );
    assert_eq!(
        lines,
        "line 3: masks rectangle: 0 pixels\n\
         line 5: masks rectangle: 1 pixel\n  pixel 0: 77\n\
         line 6: masks rectangle: 12 pixels\n  pixels 0 to 7: ff\n  pixels 8 to 11: f0\n\
         line 7: masks rectangle: 0 pixels\n\
         line 13: masks triangles: 1 pixel\n  pixel 4: 40\n\
         line 14: masks triangles: 7 pixels\n  pixel 0: ff\n  pixel 1: e8\n  pixel 4: e8\n  pixel 4: 40\n  \
         pixel 0: ff\n  pixel 1: e8\n  pixel 4: e8\n\
         line 15: masks triangles: 0 pixels\n\
         line 16: masks nothing: turned away, number 7\nline 17: masks triangles: turned away, number 5\n\
         line 18: masks rectangle: 1 pixel\n  pixel 0: ff\nline 19: word 0: turned away, number 10\n\
         line 21: masks nothing: turned away, number 4\nline 23: masks triangles: turned away, number 3\n\
         calls 13, log lines 5\n"
    );
    assert_eq!(
        log.lines().last(),
        Some("in.txt:23: turned away, number 3: a mark is above 3, or a coverage marked known is above 7")
    );
}

/// More pixels than are listed at a time: triangles over all of the frame, and a small one among them.
#[test]
fn masks_of_many_pixels() {
    let all = "  0 1 2".repeat(150);
    let (lines, log) = carried(format!(
        "frame 64 64\ncombine zero zero zero one zero zero zero one\nmode antialias on\nvertex -64 -64 1 1 1 1\n\
         vertex 256 -64 1 1 1 1\nvertex -64 256 1 1 1 1\nvertex 0 0 1 1 1 1\nvertex 2 0 1 1 1 1\nvertex 0 2 1 1 1 1\n\
         masks triangles{all}  3 4 5{all}\n"
    ));
    let large = "  pixels 0 to 4095: ff\n".repeat(150);
    let small = "  pixel 0: ff\n  pixel 1: e8\n  pixel 64: e8\n";
    let call = "line 10: masks triangles: 1228803 pixels\n";
    assert_eq!(lines, format!("{call}{large}{small}{large}calls 1, log lines 0\n"));
    assert_eq!(log, "");
}

/// A draw as the slow engine goes through it, whatever the engine that is set. Nothing is drawn.
#[test]
fn samples() {
    let (lines, log) = carried(
        "frame 4 3\nscissor 1 0 2 1\ncombine zero zero zero one zero zero zero one\nsamples rectangle 1.25 0 1.875 0.5\n\
         vertex 3 0.125 1 1 1 1\nvertex 1 0 1 1 1 1\nvertex 2.5 1 1 1 1 1\ncull on\nengine slow\n\
         samples triangles 0 1 2  1 0 2\nengine fast\ncull off\nmode antialias on\nsamples triangles 1 0 2\n\
         samples triangles 0 0 0\nscissor 4 0 9 9\nsamples triangles 1 0 2\nsamples triangles\nsamples nothing\n\
         samples triangles 0\nword 1\n",
    );
    // The corner at 3, 0.125 lies between two quarter lines, and goes to the lower one.
    let triangle = "    corners in quarters of a pixel: 4,0  12,1  10,4
    the high edge is the major one, at the left
    high edge: slope 98304, x 65536 on line 0
    middle edge: slope 524288, x 65536 on line 0
    low edge: slope -43696, x 196608 on line 1
";
    let rows = "    row 0
      line 0: from 8 up to 8
      line 1: from 11 up to 24
      line 2: from 14 up to 23
      line 3: from 17 up to 21
      pixel 1 at 1,0:  8. 12.  10. 14#  8. 12.  10. 14.  = 10, emitted with antialias alone
      pixel 2 at 2,0:  16. 20.  18# 22#  16# 20#  18# 22.  = 3e, emitted with antialias alone
            1    2
         +----+----+
       0 |. . |. . |
       1 | . #| # #|
       2 |. . |# # |
       3 | . .| # .|
         | 10 | 3e |
         +----+----+
";
    let expected = format!(
        "line 4: samples rectangle: 0 pixels
  rectangle 1.25 0 1.875 0.5
    row 0
      line 0: from 10 up to 15
      line 1: from 10 up to 15
      line 2: nothing
      line 3: nothing
      pixel 1 at 1,0:  8. 12#  10# 14#  8. 12.  10. 14.  = 70, emitted with antialias alone
      pixel 2 at 2,0:  16. 20.  18. 22.  16. 20.  18. 22.  = 00
            1    2
         +----+----+
       0 |. # |. . |
       1 | # #| . .|
       2 |. . |. . |
       3 | . .| . .|
         | 70 | 00 |
         +----+----+
line 10: samples triangles: 0 pixels
  triangle 0 1 2
{triangle}{rows}  triangle 1 0 2: culled
line 14: samples triangles: 2 pixels
  triangle 1 0 2
{triangle}{rows}line 15: samples triangles: 0 pixels
  triangle 0 0 0: no area in quarters of a pixel
line 17: samples triangles: 0 pixels
  triangle 1 0 2
{triangle}    no pixel of the frame is inside the scissor
line 18: samples triangles: 0 pixels
line 19: samples nothing: turned away, number 7
line 20: samples triangles: turned away, number 5
line 21: word 1: turned away, number 10
calls 9, log lines 3
"
    );
    assert_eq!(lines, expected);
    assert_eq!(log.lines().count(), 3);
}

/// Triangles and rectangles near the frame and far from it: where the library departed from the rules, the program would say so.
#[test]
fn samples_of_many_draws() {
    let mut state = 7u64;
    let mut below = |limit: u64| {
        state = state.wrapping_mul(6_364_136_223_846_793_005).wrapping_add(1_442_695_040_888_963_407);
        (state >> 33) % limit
    };
    let mut file = "frame 6 5\nscissor 1 0 5 4\ncombine zero zero zero one zero zero zero one\n".to_string();
    for _ in 0..500 {
        file += if below(2) == 0 { "no_vertices\ncull off\n" } else { "no_vertices\ncull on\n" };
        // Eighths lie on quarter lines and halfway between them, hundredths anywhere.
        let unit = [4.0, 8.0, 100.0][below(3) as usize];
        let reach = [9.0, 1000.0][below(2) as usize];
        let mut side = || (below((reach * unit) as u64) as f32 / unit - reach / 3.0).to_string();
        for _ in 0..3 {
            file += &format!("vertex {} {} 1 1 1 1\n", side(), side());
        }
        file += &format!("samples triangles 0 1 2\nsamples rectangle {} {} {} {}\n", side(), side(), side(), side());
    }
    let (lines, log) = carried(file);
    assert_eq!((lines.lines().last(), log.as_str()), (Some("calls 1000, log lines 0"), ""));
    assert!(["culled", "= ff", "with antialias alone"].iter().all(|part| lines.matches(part).count() > 50));
}

/// The most that one statement goes through, and a row of pixels more.
#[test]
fn samples_of_too_many_pixels() {
    let (lines, _) = carried("frame 32 33\nscissor 0 0 32 32\nsamples rectangle 0 0 1 1\n");
    assert_eq!(lines.lines().filter(|line| line.starts_with("      pixel ")).count(), 1024);
    const TOO_MANY: &str = "samples: the draw visits 1056 pixels, and the most is 1024";
    wrong("frame 32 33\nsamples rectangle 0 0 1 1\n", &format!("2: {TOO_MANY}"));
    wrong_statement(&format!("samples triangles{}", " 0 1 2".repeat(22)), TOO_MANY);
}

/// The second picture is of the last shape that was gone through; it is asked for by a third argument.
#[test]
fn a_picture_of_samples() {
    let folder = Folder::new();
    let run = |file: &str, arguments: &[&str]| {
        fs::write(folder.path("in.txt"), file).unwrap();
        program().current_dir(&folder.0).args(arguments).output().unwrap()
    };
    const SAMPLES: &str = "frame 4 4\nscissor 0 0 3 2\nsamples rectangle 0 0 9 9\nsamples rectangle 0 0 0.25 0.25\n";
    for (file, arguments, message) in [
        ("frame 4 4\n", ["in.txt", "out.png", "samples.png"], "in.txt: there are no samples for a picture"),
        (SAMPLES, ["in.txt", "out.png", "out.png"], "out.png: one picture would replace the other"),
        (SAMPLES, ["in.txt", "out.png", "./out.png"], "out.png: one picture would replace the other"),
        (SAMPLES, ["in.txt", "out.png", "in.txt"], "in.txt: the picture would replace the file"),
        (SAMPLES, ["in.txt", "out.png", "-"], "usage: writeback FILE PICTURE [SAMPLES], or writeback --help"),
    ] {
        let output = run(file, &arguments);
        assert_eq!((text(&output.stderr), output.status.code()), (format!("{message}\n"), Some(2)));
        assert_eq!(folder.names().len(), 1);
    }
    assert_eq!(run(SAMPLES, &["in.txt", "out.png", "samples.png"]).status.code(), Some(0));
    let picture = png::read(&fs::read(folder.path("samples.png")).unwrap());
    assert_eq!((picture.width, picture.height), (3 * 64 + 25, 2 * 64 + 25));
    // The first sample is hit, and the one right of it is not.
    let at = |x: usize, y: usize| picture.rgb[3 * (y * picture.width + x)];
    assert_eq!([at(12, 12), at(12 + 32, 12), at(12 + 36, 12)], [0, 255, 0]);
}

/// Every field of the mode, the uniform and the writer can be set, and set back.
#[test]
fn every_field() {
    let (lines, _) = carried(
        "frame 1 1\nmode cycle_type 0xffffffff rgb_dither 255 alpha_dither 255 key_enabled on cvg_dst 255 image_read on antialias on\n\
         mode alpha_cvg_select on color_on_coverage on blender_mux 65535 force_blend on blend_class blend_color\n\
         mode fallback_class dual_src non_canonical_blend on z_source_prim on z_test on z_write on z_mode decal fog on\n\
         mode alpha_compare dither cvg_x_alpha on\nuniform combine_l 1 combine_h 2 cycle_type 3 tex_enable 4 blender_mux 5\n\
         uniform force_blend 6 alpha_flags 7 alpha_threshold 8 prim 1 2 3 4 env 1 2 3 4 blend_color 1 2 3 4 fog_color 1 2 3 4\n\
         uniform inv_tex_size 1 2 3 4 inv_tex1_size 1 2 3 4 lod_params 1 2 3 4 inv_detail_size 1 2 3 4 frame 1 2 3 4 is_rect 1\n\
         uniform coverage_slot 1 fill_word 2 fill_siz 3 primitive_depth 1 2 3 4 native_scale 1 2 3 4 raster 1 2 3 4\n\
         rectangle 0 0 1 1\nmode default\nuniform default\nrectangle 0 0 1 1\n\
         writer fmt 255 siz 255 rgb_dither 255 encoding native\nword 0\nwriter default\ncoverage 0 0 1 1 7\nword 0,0\n",
    );
    assert_eq!(
        lines,
        "line 10: rectangle: turned away, number 6\nline 13: rectangle: 1 pixel\nline 15: word 0: turned away, number 9\n\
         line 18: word 0: 0001\ncalls 4, log lines 2\n"
    );
}

#[test]
fn no_frame() {
    const FIRST: &str = "the first statement must be: frame WIDTH HEIGHT";
    wrong("", &format!("1: {FIRST}"));
    wrong("\n\n# nothing\n", &format!("3: {FIRST}"));
    wrong("\nword 0\nframe 1 1\n", &format!("2: {FIRST}"));
    wrong("frames 1 1", &format!("1: {FIRST}"));
}

#[test]
fn frames() {
    wrong("frame", "1: the width: a number is missing");
    wrong("frame 8", "1: the height: a number is missing");
    wrong("frame 0 8", "1: the width: \"0\" is no whole number from 1 to 1024");
    wrong("frame 8 1025", "1: the height: \"1025\" is no whole number from 1 to 1024");
    wrong("frame 8 -1", "1: the height: \"-1\" is no whole number from 1 to 1024");
    wrong("frame 8 99999999999999999999", "1: the height: \"99999999999999999999\" is no whole number from 1 to 1024");
    wrong("frame 8 8 8", "1: \"8\" is one word too many");
    wrong_statement("frame 8 8", "the frame has its size already");
}

#[test]
fn statements() {
    wrong_statement("triangle 0 1 2", "\"triangle\" is no statement");
    wrong_statement("Word 0", "\"Word\" is no statement");
    wrong_statement("=", "\"=\" is no statement");
    wrong_statement("masks", "masks: one of triangles, rectangle, nothing is missing");
    wrong_statement("masks word 0", "masks: \"word\" is none of triangles, rectangle, nothing");
    wrong_statement("masks masks nothing", "masks: \"masks\" is none of triangles, rectangle, nothing");
    wrong_statement("samples", "samples: one of triangles, rectangle, nothing is missing");
    wrong_statement("samples masks nothing", "samples: \"masks\" is none of triangles, rectangle, nothing");
}

#[test]
fn areas() {
    const OUTSIDE: &str = "the area is not inside the frame, which is 8 by 6";
    wrong_statement("color 0 0 9 1 1 2 3", OUTSIDE);
    wrong_statement("coverage 0 6 1 1 7", OUTSIDE);
    wrong_statement("unknown 4294967295 0 4294967295 1", OUTSIDE);
    wrong_statement("mark 0 0 8", "the area: a number is missing");
    wrong_statement("mark 0 0 8 6", "the mark: a number is missing");
    wrong_statement("mark 0 0 8 6 256", "the mark: \"256\" is no whole number from 0 to 255");
    wrong_statement("color 0 0 1 1 1 2", "the color: a number is missing");
    wrong_statement("coverage 0 0 1 1 7 7", "\"7\" is one word too many");
    wrong_statement("unknown 0 0 1 1 1", "\"1\" is one word too many");
}

#[test]
fn settings() {
    wrong_statement("mode", "a field is missing");
    wrong_statement("mode antialias", "antialias: one of off, on is missing");
    wrong_statement("mode antialias yes", "antialias: \"yes\" is none of off, on");
    wrong_statement("mode anti_alias on", "the mode has no field \"anti_alias\"");
    wrong_statement("mode default fog on", "\"fog\" is one word too many");
    wrong_statement(
        "mode fog on blend_class",
        "blend_class: one of replace, blend_color, alpha_over, dual_src is missing",
    );
    wrong_statement("mode z_mode 2", "z_mode: \"2\" is none of opa, inter, xlu, decal");
    wrong_statement("mode blender_mux 65536", "blender_mux: \"65536\" is no whole number from 0 to 65535");
    wrong_statement("uniform prim 1 2 3", "prim: a number is missing");
    wrong_statement("uniform prim 1 2 3 red", &format!("prim: \"red\" {NO_FLOAT}"));
    wrong_statement("uniform texture 1", "the uniform has no field \"texture\"");
    wrong_statement("writer order big", "the writer has no field \"order\"");
    wrong_statement("writer encoding big", "encoding: \"big\" is none of native, big_endian");
    wrong_statement("cull", "cull: one of off, on is missing");
    wrong_statement("cull on off", "\"off\" is one word too many");
    wrong_statement("engine", "engine: one of fast, slow is missing");
    wrong_statement("engine 1", "engine: \"1\" is none of fast, slow");
    wrong_statement("engine slow fast", "\"fast\" is one word too many");
    wrong_statement("scissor 0 0 8", "the scissor: a number is missing");
    wrong_statement("scissor 0 0 8 4294967296", "the scissor: \"4294967296\" is no whole number from 0 to 4294967295");
}

const NO_FLOAT: &str = "is neither a decimal number nor the bits of a float, 0x and up to eight digits";

const COLORS: &str = "combined, texel0, primitive, shade, environment, zero, one, texel1, key_center, k4, key_scale, \
                      combined_alpha, texel0_alpha, texel1_alpha, primitive_alpha, shade_alpha, env_alpha, lod_fraction, \
                      prim_lod_frac, k5, noise";

#[test]
fn combiner_and_blender() {
    wrong_statement("combine zero zero zero x", &format!("cd: \"x\" is none of {COLORS}"));
    wrong_statement("combine zero zero zero", &format!("cd: one of {COLORS} is missing"));
    wrong_statement("combine zero zero zero noise zero zero zero one", "a slot of the combiner cannot name its input");
    wrong_statement(
        "combine zero zero zero shade zero zero zero noise",
        "ad: \"noise\" is none of combined, texel0, primitive, shade, environment, zero, one, texel1, lod_fraction, prim_lod_frac",
    );
    wrong_statement("blender pixel memory", "A: \"memory\" is none of pixel_alpha, fog_alpha, shade_alpha, zero");
    wrong_statement("blender pixel zero memory", "B: one of one_minus_a, coverage, one, zero is missing");
}

#[test]
fn vertices() {
    wrong_statement("vertex 1 2 3 4 5", "the vertex: a number is missing");
    wrong_statement("vertex 1 2 3 4 5 6 7", "\"7\" is one word too many");
    wrong_statement("vertex nan 0 1 1 1 1", &format!("the vertex: \"nan\" {NO_FLOAT}"));
    wrong_statement("vertex 1e39 0 1 1 1 1", "the vertex: \"1e39\" is beyond a 32-bit float");
    wrong_statement("absent 1", "\"1\" is one word too many");
    wrong_statement("floats 1 2 x", &format!("the floats: \"x\" {NO_FLOAT}"));
    wrong_statement("flags 1 256", "the flags: \"256\" is no whole number from 0 to 255");
    wrong_statement("no_vertices all", "\"all\" is one word too many");
}

#[test]
fn draws() {
    wrong_statement("triangles 0 1 -2", "the indices: \"-2\" is no whole number from 0 to 4294967295");
    wrong_statement("triangles 0,1,2", "the indices: \"0,1,2\" is no whole number from 0 to 4294967295");
    wrong_statement("rectangle 0 0 8", "the sides: a number is missing");
    wrong_statement("rectangle 0 0 8 8 x", "the indices: \"x\" is no whole number from 0 to 4294967295");
    wrong_statement("masks rectangle 0 0 8", "the sides: a number is missing");
    wrong_statement("masks triangles 0 1 -2", "the indices: \"-2\" is no whole number from 0 to 4294967295");
    wrong_statement("samples rectangle 0 0 8", "the sides: a number is missing");
}

#[test]
fn word_reads() {
    wrong_statement("word", "the pixel is missing");
    wrong_statement("word 8,0", "the pixel: \"8\" is no whole number from 0 to 7");
    wrong_statement("word 1,", "the pixel: \"\" is no whole number from 0 to 4294967295");
    wrong_statement("word 1 2", "\"2\" is one word too many");
    wrong_statement(
        "word 18446744073709551616",
        &format!("the pixel: \"18446744073709551616\" is no whole number from 0 to {}", usize::MAX),
    );
    wrong_statement("words 0", "the count: a number is missing");
    wrong_statement("words 0 1048577", "the count: \"1048577\" is no whole number from 0 to 1048576");
}

/// Nothing before the wrong line is carried out either.
#[test]
fn a_late_mistake() {
    wrong(
        "frame 4 4\ncombine zero zero zero one zero zero zero one\nrectangle 0 0 4 4\nword 0\n\nwrd 0\n",
        "6: \"wrd\" is no statement",
    );
}

#[test]
fn hostile_bytes() {
    wrong(b"frame 4 4\n# caf\xe9\n", "2: byte 6 of the line, 0xe9, is not UTF-8");
    wrong(b"\xff\xfef\0r\0", "1: byte 1 of the line, 0xff, is not UTF-8");
    wrong(b"frame 4 4\n\0\0\0", "2: \"\\0\\0\\0\" is no statement");
    wrong("frame 4 4\n\u{1b}[2Jword 0\n", "2: \"\\u{1b}[2Jword\" is no statement");
    wrong(format!("frame 4 4\n{}", "x".repeat(1 << 20)), &format!("2: \"{}..\" is no statement", "x".repeat(40)));
    wrong("frame 4 4\rword 0\r", "1: \"word\" is one word too many");
}

#[test]
fn long_lines() {
    let indices = " 0".repeat(300_000);
    let (lines, log) =
        carried(format!("frame 4 4\nuniform combine_h 0\ntriangles{indices}\n#{}\n", "#".repeat(1 << 20)));
    assert_eq!(lines, "line 3: triangles: turned away, number 5\ncalls 1, log lines 1\n");
    assert_eq!(log.lines().count(), 1);
}

#[test]
fn a_picture_from_before_stays() {
    let folder = Folder::new();
    fs::write(folder.path("out.png"), "before").unwrap();
    assert_eq!(run_in(&folder, "frame 4 4\nx").status.code(), Some(2));
    assert_eq!(fs::read(folder.path("out.png")).unwrap(), b"before");
    assert_eq!(run_in(&folder, "frame 4 4\n").status.code(), Some(0));
    png::read(&fs::read(folder.path("out.png")).unwrap());
    assert_eq!(folder.names().len(), 2);
}

#[test]
fn files_that_cannot_be_used() {
    let folder = Folder::new();
    fs::write(folder.path("in.txt"), "frame 4 4\n").unwrap();
    fs::create_dir(folder.path("folder")).unwrap();
    let names = folder.names();
    for (arguments, message) in [
        (["none.txt", "out.png"], "none.txt: "),
        (["folder", "out.png"], "folder: "),
        (["in.txt", "none/out.png"], "none/out.png: "),
        (["in.txt", "folder"], "folder: "),
        (["in.txt", ".."], "..: "),
        (["in.txt", ""], ": "),
        (["in.txt", "in.txt"], "in.txt: the picture would replace the file"),
        (["in.txt", "./in.txt"], "./in.txt: the picture would replace the file"),
    ] {
        let output = program().current_dir(&folder.0).args(arguments).output().unwrap();
        assert_eq!(output.status.code(), Some(2), "{arguments:?}");
        assert!(text(&output.stderr).starts_with(message), "{}", text(&output.stderr));
        assert_eq!(text(&output.stderr).lines().count(), 1);
        assert_eq!(folder.names(), names, "{arguments:?}");
    }
    assert_eq!(fs::read(folder.path("in.txt")).unwrap(), b"frame 4 4\n");
}

/// The picture is the last thing that is written: where the lines were lost there is none.
#[cfg(target_os = "linux")]
#[test]
fn lines_that_cannot_be_written() {
    let folder = Folder::new();
    for file in ["frame 4 4\n", "frame 4 4\nword 0\n"] {
        fs::write(folder.path("in.txt"), file).unwrap();
        let full = fs::OpenOptions::new().write(true).open("/dev/full").unwrap();
        let output = program().current_dir(&folder.0).args(["in.txt", "out.png"]).stdout(full).output().unwrap();
        assert!(text(&output.stderr).starts_with("standard output: "), "{}", text(&output.stderr));
        assert_eq!((output.status.code(), folder.names().len()), (Some(2), 1));
    }
}

#[test]
fn a_file_that_is_too_long() {
    let folder = Folder::new();
    let file = fs::File::create(folder.path("in.txt")).unwrap();
    file.set_len((64 << 20) + 1).unwrap();
    let output = program().current_dir(&folder.0).args(["in.txt", "out.png"]).output().unwrap();
    assert_eq!(text(&output.stderr), "in.txt: the file is longer than 67108864 bytes\n");
    assert_eq!((output.status.code(), folder.names().len()), (Some(2), 1));
}

#[test]
fn help_and_usage() {
    for argument in ["--help", "-h"] {
        let output = program().arg(argument).output().unwrap();
        assert_eq!(output.status.code(), Some(0));
        assert!(text(&output.stdout).starts_with("writeback FILE PICTURE [SAMPLES]\n"));
        assert!(output.stderr.is_empty());
    }
    let folder = Folder::new();
    for arguments in [&[][..], &["in.txt"], &["a", "b", "c", "d"], &["--help", "out.png"], &["in.txt", "--quiet"]] {
        let output = program().current_dir(&folder.0).args(arguments).output().unwrap();
        assert_eq!(output.status.code(), Some(2), "{arguments:?}");
        assert_eq!(text(&output.stderr), "usage: writeback FILE PICTURE [SAMPLES], or writeback --help\n");
        assert!(output.stdout.is_empty() && folder.names().is_empty());
    }
}
