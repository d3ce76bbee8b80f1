#!/usr/bin/env bash
# The computed cases are those that their generator writes. `bash tests/cases.sh --write` writes them anew.
set -euo pipefail
cd "$(dirname "$0")/.."
cases=crates/vectors/specs/Cases.antt
fresh=target/cases
mkdir -p target
cargo run --quiet --release --offline --manifest-path tests/reference/Cargo.toml --target-dir target/cargo --bin cases > "$fresh"
if [ "${1:-}" = --write ]; then
  cp "$fresh" "$cases"
elif ! cmp -s "$fresh" "$cases"; then
  echo "$cases is stale: bash tests/cases.sh --write" >&2
  exit 1
fi
