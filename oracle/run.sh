#!/usr/bin/env bash
# Builds the port's static library and the Rust original, and compares the two. Without the Rust sources there is nothing to compare, which is an error where CI=true is set.
set -euo pipefail
cd "$(dirname "$0")"
if ! RUST_SRC=$(./sources.sh); then
  if [ "${CI:-}" = true ]; then
    exit 1
  fi
  echo "oracle: the comparison is left out"
  exit 0
fi
export RUST_SRC
cargo build --release --offline --quiet
target/release/oracle "$@"
if [ $# = 0 ]; then
  # The player's crate, its sample and the recorded samples beside the original; planted errors, and every case of an unknown coverage.
  cargo test --release --offline --quiet
fi
