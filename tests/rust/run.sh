#!/usr/bin/env bash
# What a user of the package in rust/ gets: no warning, pages without a broken link, an archive that may lie anywhere, a missing one that is told with the command
# that makes it, README.md's program, and examples that fail on a refusal.
set -euo pipefail
cd "$(dirname "$0")/../.."
top=$PWD
built=$top/target/rust
package=(--offline --manifest-path rust/Cargo.toml --target-dir target/cargo)
cargo clippy --quiet --release --all-targets "${package[@]}" -- -D warnings
RUSTDOCFLAGS='-D warnings' cargo doc --quiet --no-deps "${package[@]}"

# A package beside this one, with README.md's program and the archive in a folder of its own.
rm -rf "$built"
mkdir -p "$built/program/src" "$built/archive"
printf '%s\n' '[package]' 'name = "program"' 'edition = "2021"' '[dependencies]' "skytassel = { path = \"$top/rust\" }" > "$built/program/Cargo.toml"
awk '$0 == "```" { inside = 0 } inside; $0 == "```rust" { inside = 1 }' README.md > "$built/program/src/main.rs"
if [ "$(wc -l < "$built/program/src/main.rs")" -gt 25 ]; then
  echo "README.md: the Rust program has more than 25 lines" >&2
  exit 1
fi
run() {
  SKYTASSEL_LIB_DIR=$built/archive cargo run --quiet --offline --manifest-path "$built/program/Cargo.toml" --target-dir "$built/target"
}
if run < /dev/null 2> "$built/said" || ! grep -q 'bash include/library.sh' "$built/said"; then
  echo "rust/build.rs does not say how the archive is made" >&2
  exit 1
fi
cp target/staticlib/libskytassel.a "$built/archive"
printf 'module \\ear\n  wire width 8 \\gain\nend\n' > "$built/ear.il"
run < "$built/ear.il" | diff <(sed 's/gain/left_gain/' "$built/ear.il") -

# Each example with a file that is taken, then with one that is refused.
cargo build --quiet --release --examples "${package[@]}"
printf 'module \\ear\n  wire width 4096 \\gain\nend\n' > "$built/too_wide.il"
succeeds() {
  target/cargo/release/examples/"$1" "$built/$2" "${@:3}" > "$built/said" 2>&1
}
while read -r example words; do
  # shellcheck disable=SC2086
  if ! succeeds "$example" ear.il $words || succeeds "$example" too_wide.il $words; then
    echo "rust/examples/$example.rs fails on a file that is taken, or does not on one that is refused:" >&2
    cat "$built/said" >&2
    exit 1
  fi
done << 'END'
check
read
write
rename \gain \left_gain
front_desk 0 \gain
listing 0
label 0 pgain
END
target/cargo/release/examples/undo > "$built/said"
