#!/usr/bin/env bash
# Carries out a file of draws and word reads and writes the picture: ./draw.sh FILE PICTURE [SAMPLES]. docs/FORMAT.md describes the file and the pictures.
set -euo pipefail
here="$(dirname "$0")"
player="$here/player"
if [ ! -x "$player/target/release/writeback" ] || [ ! -f "$here/crates/exports/out/libexports.a" ]; then
  echo "building the library and the program; this takes some minutes the first time" >&2
fi
exec cargo run --quiet --release --offline --manifest-path "$player/Cargo.toml" -- "$@"
