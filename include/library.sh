#!/usr/bin/env bash
# Writes target/staticlib/libskytassel.a, the calls that include/skytassel.h declares. They live in several crates, since an edit costs the whole check of its
# crate, and `rt lib` makes a library of one crate: here the objects of each become part of one archive. What each check said is in target/log/CRATE.say.
set -euo pipefail
cd "$(dirname "$0")/.."
built=$PWD/target/staticlib
logs=$PWD/target/log
objects=$(mktemp -d)
trap 'rm -rf "$objects"' EXIT
mkdir -p "$built" "$logs"
for source in $(grep -l '^#\[unsafe(no_mangle)\]' crates/*/src/lib.rt); do
  crate=$(cut -d/ -f2 <<< "$source")
  [ "$crate" != compare_bench ] || continue # no part of the product
  (cd "crates/$crate" && rt lib) > "$logs/$crate.say" || {
    cat "$logs/$crate.say" >&2
    exit 1
  }
  ar p "crates/$crate/out/lib$crate.a" > "$objects/$crate.o"
done
rm -f "$built/libskytassel.a"
ar rcsD "$built/libskytassel.a" "$objects"/*.o
