//! Finds the Rust original and writes the module declarations that name its files.

use std::path::{Path, PathBuf};
use std::{env, fs};

/// The folder of the Rust sources; a relative one is seen from oracle/.
fn source(package: &Path) -> PathBuf {
    println!("cargo:rerun-if-env-changed=RUST_SRC");
    let folder = env::var("RUST_SRC").unwrap_or_else(|_| "../../shared/docs/src".into());
    package.parent().unwrap().join(folder).join("ultragfx/src")
}

/// The path of a file that must be there, and whose change builds again.
fn file(path: PathBuf) -> PathBuf {
    println!("cargo:rerun-if-changed={}", path.display());
    assert!(path.is_file(), "{} is missing", path.display());
    path.canonicalize().unwrap()
}

/// The declaration of a module whose text is a file.
fn module(name: &str, path: &Path) -> String {
    format!("#[path = {:?}]\npub mod {name};\n", path)
}

/// The original's whole text, byte for byte, and after it child modules of ours: only a child sees a file's private
/// items. (`include!` refuses a file that opens with an inner attribute, as coherence.rs does.)
fn with_children(name: &str, original: &Path, children: &[(&str, &Path)], out: &Path) -> String {
    let text = fs::read_to_string(original).unwrap();
    let children: String = children.iter().map(|(name, path)| module(name, path)).collect();
    let whole = out.join(format!("{name}.rs"));
    fs::write(&whole, format!("{text}\n{children}")).unwrap();
    module(name, &whole)
}

/// The original's `rasterize` once more, in a module of its own: there it hands the mask of a pixel's samples to its
/// closure, where the original hands their number. These are two places of its text; nothing else is changed, and a text
/// in which they are not found stops the build.
fn rasterize_with_masks(writeback: &Path, out: &Path) -> PathBuf {
    const NUMBER: &str = "mask.count_ones() as u8";
    let text = fs::read_to_string(writeback).unwrap();
    let start = text.find("pub(super) fn rasterize(").expect("writeback.rs has a rasterize");
    let end = text[start..].find("\n}\n").expect("rasterize has an end");
    let rasterize = &text[start..start + end + 3];
    assert_eq!(rasterize.matches(NUMBER).count(), 2, "`{NUMBER}` in rasterize");
    let masks = out.join("masks.rs");
    fs::write(&masks, format!("use super::*;\n\n{}", rasterize.replace(NUMBER, "mask"))).unwrap();
    masks
}

fn main() {
    let out = PathBuf::from(env::var("OUT_DIR").unwrap());
    let package = PathBuf::from(env::var("CARGO_MANIFEST_DIR").unwrap());
    let source = source(&package);

    let hle = ["blender", "combiner"].map(|name| module(name, &file(source.join(format!("hle/{name}.rs")))));
    fs::write(out.join("hle_modules.rs"), hle.concat()).unwrap();

    let [coherence, writeback] =
        ["coherence", "writeback"].map(|name| file(source.join(format!("render/framebuffers/{name}.rs"))));
    let [reach_coherence, reach_writeback] =
        ["coherence", "writeback"].map(|name| file(package.join(format!("reach_{name}.rs"))));
    let masks = rasterize_with_masks(&writeback, &out);
    let framebuffers = [
        with_children("coherence", &coherence, &[("reach", &reach_coherence)], &out),
        with_children("writeback", &writeback, &[("reach", &reach_writeback), ("masks", &masks)], &out),
    ];
    fs::write(out.join("framebuffers_modules.rs"), framebuffers.concat()).unwrap();
}
