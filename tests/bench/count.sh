#!/usr/bin/env bash
# Instructions of one call on one file, counted by callgrind, so that figures of two machines compare: a Markdown table over the files of
# src/files.rs, or over the files given, and how they grow. After include/library.sh and `bash tests/bench/library.sh`; not part of the gate, since valgrind need not be installed.
# `count.sh --parts CALL FILE [RENAMES]` says what a call's instructions go into: check, read, judge, write, rename, first_wire, last_wire or listing. A call on a file without a wire
# that takes renames has none to count, and a number in brackets is that of a refusal.
set -euo pipefail
export LC_ALL=C
if ! command -v valgrind > /dev/null; then
  echo "valgrind is not installed: nothing counted"
  exit 0
fi
files=()
parts=()
if [ "${1:-}" = --parts ]; then
  parts=("$2" "$(realpath "$3")" "${4:-0}")
else
  for file in "$@"; do files+=("$(realpath "$file")"); done
fi
cd "$(dirname "$0")/../.."
room=$(mktemp -d)
trap 'rm -rf "$room"' EXIT
cargo build --quiet --release --offline --manifest-path tests/bench/Cargo.toml --target-dir target/cargo
bench=target/cargo/release/bench

# collect CALL FILE RENAMES: callgrind's record of one call in $room/record, the call's number in $room/number.
collect() {
  valgrind --tool=callgrind --toggle-collect=counted_call --callgrind-out-file="$room/record" \
    "$bench" call "$1" "$2" "$3" 1 > "$room/number" 2> "$room/said"
}

# The instructions of one call, thousands apart; a call that can't be made has none.
count() {
  if ! collect "$@"; then
    echo "–"
    return
  fi
  local number
  number=$(cat "$room/number")
  # A look-up in a module that isn't there.
  if [ "$1" = judge ] && [ "$number" = 8 ]; then number=0; fi
  awk '/^(summary|totals):/ { sum = $2 } END { print sum }' "$room/record" | thousands
  if [ "$number" != 0 ]; then echo "($number)"; fi
}

thousands() {
  sed -E ':more; s/([0-9])([0-9]{3})(,|$)/\1,\2\3/; t more'
}

# growth WHAT COLUMN FROM TO TIMES: the exponent with which the column grows from one file to another that is so many times as large, whole and
# without what an empty file takes.
growth() {
  tr -d , < "$room/table" | awk -F ' *[|] *' -v what="$1" -v column="$2" -v from="$3" -v to="$4" -v times="$5" '
    $2 == "empty" { fixed = $column }
    $2 == from { least = $column }
    $2 == to { most = $column }
    function exponent(ratio) { return sprintf("%.2f", log(ratio) / log(times)) }
    END { print "| " what " | " exponent(most / least) " | " (fixed == "–" ? fixed : exponent((most - fixed) / (least - fixed))) " |" }'
}

# What the instructions of one call go into: a line for each function that has some of its own, with its share in 100.
annotate() {
  collect "$@"
  callgrind_annotate "$room/record" | sed -n '/file:function/,/^$/p' |
    sed -nE '/%/ { s/  [^ ]+\.[Sc]:|  \?+:/  /; s/ \[.*//; s/__memset_.*/clearing/; s/__memcpy_.*/copying/; p }'
}

# The same in a row: the functions with 2 in 100 or more.
shares() {
  annotate "$1" "$room/$2.il" "$3" | tr -d '(%)' |
    awk -v what="$1, $2$4" '$2 >= 2 { list = list (list == "" ? "" : ", ") sprintf("%s %.0f", $3, $2) } END { print "| " what " | " list " |" }'
}

if [ ${#parts[@]} -gt 0 ]; then
  annotate "${parts[@]}"
  exit 0
fi
if [ ${#files[@]} = 0 ]; then
  for name in $("$bench" files "$room"); do files+=("$room/$name.il"); done
fi
{
  echo "| File | Bytes | read | judging | judging, 63 renames | write | rename, the 64th |"
  echo "|---|---|---|---|---|---|---|"
  for file in "${files[@]}"; do
    echo "| $(basename "$file" .il) | $(stat -c %s "$file" | thousands) | $(count read "$file" 0) | $(count judge "$file" 0) |" \
      "$(count judge "$file" 63) | $(count write "$file" 0) | $(count rename "$file" 63) |"
  done
} | tee "$room/table"
if [ $# = 0 ]; then
  echo
  echo "| File | check | fill | width of the first wire | width of the last wire | listing of the first module |"
  echo "|---|---|---|---|---|---|"
  for name in k01 k32 wires512 procs64; do
    file=$room/$name.il
    echo "| $name | $(count check "$file" 0) | $(count read "$file" 0) | $(count first_wire "$file" 0) | $(count last_wire "$file" 0) |" \
      "$(count listing "$file" 0) |"
  done
  echo
  echo "| Exponent of growth | whole | without what an empty file takes |"
  echo "|---|---|---|"
  growth "read, 1 to 32 KB" 4 k01 k32 32
  growth "judging, 1 to 32 KB" 5 k01 k32 32
  growth "write, 1 to 32 KB" 7 k01 k32 32
  growth "read, 64 to 512 wires" 4 wires64 wires512 8
  growth "judging, 64 to 512 wires" 5 wires64 wires512 8
  growth "judging, 64 to 512 wires, 63 renames" 6 wires64 wires512 8
  growth "read, 128 to 1,024 attributes" 4 attrs128 attrs1024 8
  growth "judging, 128 to 1,024 attributes" 5 attrs128 attrs1024 8
  growth "read, 125 to 1,000 cases" 4 cases125 cases1000 8
  growth "judging, 125 to 1,000 cases" 5 cases125 cases1000 8
  echo
  echo "| Call | What its instructions go into, in 100 |"
  echo "|---|---|"
  for name in k01 k32 wires512 attrs1024 procs64 procs1024; do shares read $name 0 ""; done
  for name in k01 k32 procs1024; do shares judge $name 0 ""; done
  shares judge wires512 63 ", 63 renames"
  shares write k32 0 ""
fi
