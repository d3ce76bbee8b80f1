#!/usr/bin/env bash
# What C and C++ programs get: the library is installed into a scratch folder, where pkg-config finds it, and each compiler that is here compiles against it, by
# the lines of README.md, the programs of README.md and the example of all calls. They answer what they must.
set -euo pipefail
cd "$(dirname "$0")/../.."
top=$PWD
built=$top/target/c
rm -rf "$built"
mkdir -p "$built"
make -s install PREFIX="$built/installed"
export PKG_CONFIG_PATH=$built/installed/lib/pkgconfig

# The program in this language, and the line that compiles with this compiler.
program() {
  awk -v fence="\`\`\`$1" '$0 == "```" { inside = 0 } inside; $0 == fence { inside = 1 }' README.md
}
line() {
  sed -n "s/^    \($1 -std=\)/\1/p" README.md
}
program c > "$built/rename.c"
program cpp > "$built/list.cpp"
c=$(line gcc) cpp=$(line g++)
if [ "$(wc -l < "$built/rename.c")" -gt 25 ] || [ "$(wc -l < "$built/list.cpp")" -gt 25 ]; then
  echo "README.md: a program has more than 25 lines" >&2
  exit 1
fi
printf 'module \\ear\n  wire width 8 \\left_gain\nend\n' > "$built/renamed"
printf 'pg_5f0 left gain\npy y\n' > "$built/listed"
listed=$'module \\ear\n  attribute \\hdlname "left gain"\n  wire \\g_0\n  wire \\y\nend\n'

# These compile lines make and run what they must.
try() {
  local c=$1 cpp=$2
  echo "tests/c: ${c%% -W*}, ${cpp%% -W*}"
  cd "$built"
  rm -f rename list example
  eval "$c"
  ./rename | diff renamed -
  eval "$cpp"
  ./list <<< "$listed" | diff listed -
  if ./list <<< 'module' 2> said; then exit 1; fi
  diff said - <<< '5: no permitted shape, at byte 0'
  cp "$top/tests/c/example.c" .
  for line in "${c//rename/example}" "${cpp//list/example}"; do
    eval "${line/example.cpp/-x c++ example.c -x none}"
    ./example | diff "$top/tests/c/expected" -
  done
  cd "$top"
}
try "$c" "$cpp"
try "${c/c99/c11}" "${cpp/c++11/c++17}"
if command -v clang clang++ > /dev/null; then
  try "${c/gcc/clang}" "${cpp/g++/clang++}"
fi
