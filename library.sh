#!/usr/bin/env bash
# Builds crates/exports/out/libexports.a where it is missing (rt ci leaves none) or a file of a crate is younger: rt would compile it again each time. Silent unless that fails.
set -euo pipefail
cd "$(dirname "$0")"
archive=crates/exports/out/libexports.a
if [ -f "$archive" ] && [ -z "$(find crates.txt crates/*/src crates/*/specs crates/*/proofs -newer "$archive" -print -quit)" ]; then
  exit 0
fi
log=$(mktemp)
trap 'rm -f "$log"' EXIT
if ! (cd crates/exports && rt lib) > "$log" 2>&1; then
  tail -n 40 "$log" >&2
  exit 1
fi
