//! Builds the proved library by `library.sh` at the repository's root, and links it. Where `LIBRARY` is set it names a folder
//! that holds `libexports.a` (a relative one is seen from this package), and nothing is built. An empty `LIBRARY` links
//! nothing: for a program that calls no function of the library.

use std::path::{Path, PathBuf};
use std::process::{exit, Command};
use std::{env, fs};

fn fail(message: &str) -> ! {
    eprintln!("{message}");
    exit(1)
}

/// The folder of the library, once it is built.
fn build(root: &Path) -> PathBuf {
    println!("cargo:rerun-if-changed={}", root.join("crates.txt").display());
    // A crate's folder has an out/, too, which each rt writes to.
    for krate in fs::read_dir(root.join("crates")).unwrap().flatten() {
        for part in ["src", "specs", "proofs"] {
            let part = krate.path().join(part);
            if part.is_dir() {
                println!("cargo:rerun-if-changed={}", part.display());
            }
        }
    }
    let output = match Command::new(root.join("library.sh")).output() {
        Ok(output) => output,
        Err(error) => {
            fail(&format!("library.sh cannot be run ({error}); LIBRARY may name a folder that holds libexports.a"))
        }
    };
    if !output.status.success() {
        fail(&format!("the library cannot be built:\n{}", String::from_utf8_lossy(&output.stderr)));
    }
    root.join("crates/exports/out")
}

fn main() {
    println!("cargo:rerun-if-changed=build.rs");
    println!("cargo:rerun-if-env-changed=LIBRARY");
    let package = PathBuf::from(env::var("CARGO_MANIFEST_DIR").unwrap());
    let folder = match env::var_os("LIBRARY") {
        Some(folder) if folder.is_empty() => return,
        Some(folder) => package.join(folder),
        None => build(package.parent().unwrap()),
    };
    let archive = folder.join("libexports.a");
    println!("cargo:rerun-if-changed={}", archive.display());
    match fs::canonicalize(&archive) {
        Ok(archive) => println!("cargo:rustc-link-search=native={}", archive.parent().unwrap().display()),
        Err(error) => fail(&format!("{}: {error}", archive.display())),
    }
    println!("cargo:rustc-link-lib=static=exports");
}
