#!/usr/bin/env bash
# include/skytassel.h and rust/src/sys.rs declare what the crates export: the same calls, their parameters by name, order and type, and the fields of the structs
# that calls take and give. All three are brought to one form, a line each, and compared; nothing else checks them, since a linker knows names alone. Refusals have
# the same names, numbers and words in C and Rust.
set -euo pipefail
cd "$(dirname "$0")/.."
built=target/declarations
mkdir -p "$built"

# One line of Rust, without comments.
flat() {
  cat "$@" | sed -E 's|//.*||' | tr -s ' \n' ' '
}

# Structs, and calls that begin with this, in one line of Rust.
items() {
  grep -oE "#\[repr\(C\)\] (#\[derive\([^)]*\)\] )?pub struct [A-Za-z]+ \{[^}]*\}|$1 [a-z_]+ ?\([^)]*\) -> [A-Za-z0-9]+" |
    sed -E 's/.*(struct|fn) /\1 /; s/pub //g; s/\( /(/; s/,? ([)}])/\1/; s/\b([A-Z])/\l\1/g; s/([a-z])([A-Z])/\1_\l\2/g'
}

# Sorted, calls first, and of the structs those that a call names.
sorted() {
  LC_ALL=C sort -u | awk '/^fn / { print; calls = calls $0 " " } /^struct / && calls ~ ("[ *]" $2 "[,) ]")'
}

# A slice passes as a pointer and then a length. Sources shorten four names.
exported() {
  flat "${sources[@]}" | items '#\[unsafe\(no_mangle\)\] pub extern "C" fn' |
    sed -E 's/\bm: /module: /; s/\bw: /wire: /; s/\bf: /file: /; s/\bnew: /name: /
      s/([a-z_]+): &(mut )?\[([a-z0-9]+)\]/\1: \&\2\3, \1_length: usize/g; s/&mut /*mut /g; s/&/*const /g' | sorted
}

declared_in_rust() {
  flat rust/src/sys.rs | items 'pub fn' | sorted
}

declared_in_c() {
  gcc -E -P include/skytassel.h | tr -s ' \n' ' ' |
    grep -oE 'struct skytassel_[a-z_]+ (\{[^}]*\};|skytassel_[a-z_]+\([^)]*\);)' |
    sed -E '/\{/ { :one_a_type; s/([a-z0-9_]+) ([a-z_]+), /\1 \2; \1 /; t one_a_type; s/; /, /g; s/, \};/}/; s/^struct skytassel_/struct / }
      /\(/ { s/struct skytassel_//g; s/^([a-z_]+) (.*);$/fn \2 -> \1/ }
      s/const ([a-z0-9_]+) \*([a-z_]+)/\2: *const \1/g; s/([a-z0-9_]+) \*([a-z_]+)/\2: *mut \1/g; s/\b((u?int[0-9]+|size)_t) ([a-z_]+)/\3: \1/g
      s/\buint([0-9]+)_t/u\1/g; s/\bint([0-9]+)_t/i\1/g; s/\bsize_t/usize/g' | sorted
}

# NAME = NUMBER and NAME = "WORDS", a line each.
refusals_in_c() {
  sed -nE '/^enum skytassel_number/,/^\}/s/^    SKYTASSEL_([A-Z_]+ = [0-9]+).*/\1/p; s/^    case SKYTASSEL_([A-Z_]+): return (".*");/\1 = \2/p' include/skytassel.h | grep -v '^NONE'
}
refusals_in_rust() {
  sed -nE 's/^    ([A-Za-z]+ = [0-9]+),/\1/p; s/^ *Refusal::([A-Za-z]+) => (".*"),/\1 = \2/p' rust/src/refusal.rs |
    sed -E ':word; s/^([A-Za-z_]*[a-z])([A-Z])/\1_\2/; t word; s/^[A-Za-z_]+/\U&/'
}

mapfile -t sources < <(find crates -path 'crates/*/src/*.rt' -not -path '*/out/*' -not -path 'crates/compare_bench/*') # no part of the product
exported > "$built/exported"
if [ "$(cat "${sources[@]}" | grep -c '^#\[unsafe(no_mangle)\]')" != "$(grep -c '^fn ' "$built/exported")" ]; then
  echo "crates/: a call is exported in a form that tests/declarations.sh does not know" >&2
  exit 1
fi
declared_in_rust > "$built/rust"
declared_in_c > "$built/c"
diff -u --label crates/ --label include/skytassel.h "$built/exported" "$built/c"
diff -u --label crates/ --label rust/src/sys.rs "$built/exported" "$built/rust"
diff -u --label include/skytassel.h --label rust/src/refusal.rs <(refusals_in_c) <(refusals_in_rust)
