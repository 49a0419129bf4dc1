#!/usr/bin/env bash
# Prints the folder of the Rust sources, which are not part of this repository: RUST_SRC, where a relative one is seen from this folder. Fails where they are not there.
set -euo pipefail
cd "$(dirname "$0")"
folder="${RUST_SRC:-../../shared/docs/src}"
if [ ! -d "$folder/ultragfx" ]; then
  echo "no Rust sources at $folder" >&2
  exit 1
fi
realpath "$folder"
