#!/usr/bin/env bash
# The one test command: the Rust packages' layout and clippy's warnings, the public set and the believed definitions beside docs/THEOREMS.md, rt ci, the comparison with
# the original, the C interface called from C, and the player's crate. rt ci holds the Rattle files to their layout, and it leaves no static library, so it comes before what
# links one; its last line, 'N passed, 0 failed', is said again at the end, when all the rest has passed too. An edit that must fail and cannot be tried is an error here.
set -euo pipefail
cd "$(dirname "$0")"
packages=(ffi player oracle bench)
for package in "${packages[@]}"; do
  cargo fmt --check --manifest-path $package/Cargo.toml
done
# The oracle and the benchmark cannot be read without the Rust sources, which are not linted themselves. Nothing is linked, so that no library is needed.
if sources=$(oracle/sources.sh); then
  export RUST_SRC="$sources"
else
  packages=(ffi player)
fi
for package in "${packages[@]}"; do
  LIBRARY= cargo clippy --quiet --offline --all-targets --no-deps --manifest-path $package/Cargo.toml -- -D warnings
done
docs/public.sh
docs/believed.sh
log=$(mktemp)
trap 'rm -f "$log"' EXIT
rt ci | tee "$log"
if grep -qE '^rt: ok.*, [0-9]+ bad' "$log"; then
  echo "test: rt ci could not try every edit that must fail (BAD EDIT, above)" >&2
  exit 1
fi
oracle/run.sh
c/run.sh
cargo test --quiet --offline --manifest-path player/Cargo.toml
tail -n 1 "$log"
