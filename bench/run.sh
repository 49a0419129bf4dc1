#!/usr/bin/env bash
# Builds the port's static library and the Rust original, and times the two side by side: bench/run.sh [PART OF A SCENE'S NAME].
# It needs the Rust sources (oracle/sources.sh).
set -euo pipefail
cd "$(dirname "$0")"
RUST_SRC=$(../oracle/sources.sh)
export RUST_SRC
cargo build --release --offline --quiet
target/release/bench "$@"
