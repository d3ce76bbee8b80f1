#!/usr/bin/env bash
# The program runs every vector by name and must write what the vector says.
# `bash tests/program.sh --write` writes args, data/ and stdout of crates/skytassel anew.
set -euo pipefail
cd "$(dirname "$0")/.."
export LC_ALL=C
crate=crates/skytassel
fresh=target/program

rm -rf "$fresh"
mkdir -p "$fresh/data"
for out in tests/vectors/*.out; do
  name=$(basename "$out" .out)
  echo "$name" >> "$fresh/args"
  cp "tests/vectors/$name.il" "$fresh/data/$name"
  echo "== $name" >> "$fresh/stdout"
  cat "$out" >> "$fresh/stdout"
done

for part in args data stdout; do
  if [ "${1:-}" = --write ]; then
    rm -rf "${crate:?}/$part"
    cp -r "$fresh/$part" "$crate/$part"
  elif ! diff -rq "$fresh/$part" "$crate/$part"; then
    echo "$crate/$part is stale: bash tests/program.sh --write" >&2
    exit 1
  fi
done
