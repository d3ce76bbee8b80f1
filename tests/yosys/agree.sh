#!/usr/bin/env bash
# Yosys reads what Skytassel writes as what was read: for each accepted vector, and for each file given, Yosys's own dump of the written
# text equals its dump of the original. The vectors' written texts are those stored beside them; a file given goes through
# target/bin/skytassel. Not part of the gate, since Yosys need not be installed; tried with 0.23.
#
# Yosys sorts the objects of a dump by name, puts the assigns of a case or process before its switches and numbers ports anew, so these orders and
# port numbers are not compared here.
# tests/yosys/known.txt lists the vectors that can't agree, each with its reason. Any other disagreement, or none where one is
# listed, fails.
set -euo pipefail
export LC_ALL=C
cd "$(dirname "$0")/../.."
if ! command -v yosys > /dev/null; then
  echo "yosys is not installed: nothing compared"
  exit 0
fi
known=tests/yosys/known.txt
room=$(mktemp -d)
trap 'rm -rf "$room"' EXIT
declare -A reasons
while read -r name reason; do
  case $name in '' | '#'*) continue ;; esac
  reasons[$name]=$reason
done < "$known"

# dump FILE OUT: Yosys's text of the file without its first line; its last words go to OUT.said.
dump() {
  yosys -q -p "read_rtlil $1; write_rtlil $2.raw" > "$2.said" 2>&1 && tail -n +2 "$2.raw" > "$2"
}

# How the two texts compare: agree, differ, or whose reading Yosys refused and why.
compare() {
  if ! dump "$1" "$room/original"; then
    echo "Yosys refuses the original: $(grep -m 1 -a ERROR "$room/original.said" | tr -d '\r')"
  elif ! dump "$2" "$room/written"; then
    echo "Yosys refuses the written text: $(grep -m 1 -a ERROR "$room/written.said" | tr -d '\r')"
  elif ! cmp -s "$room/original" "$room/written"; then
    echo "differ: $(diff -a "$room/original" "$room/written" | grep -m 1 -a '^>' | head -c 160)"
  else
    echo agree
  fi
}

agreed=0 listed=0 wrong=0 accepted=0
judge() {
  local name=$1 said=$2
  accepted=$((accepted + 1))
  if [ "$said" = agree ] && [ -z "${reasons[$name]:-}" ]; then
    agreed=$((agreed + 1))
  elif [ "$said" != agree ] && [ -n "${reasons[$name]:-}" ]; then
    listed=$((listed + 1))
    echo "$name: $said (${reasons[$name]})"
  else
    wrong=$((wrong + 1))
    echo "$name: $said, not as $known says"
  fi
}

if [ $# -gt 0 ]; then
  for file in "$@"; do
    target/bin/skytassel < "$file" > "$room/text"
    if grep -qE '^[0-9]' "$room/text"; then
      echo "$file: refused: $(cat "$room/text")"
      continue
    fi
    cp "$file" "$room/file"
    judge "$(basename "$file" .il)" "$(compare "$room/file" "$room/text")"
  done
else
  for out in tests/vectors/*.out; do
    if grep -qE '^[0-9]' "$out"; then continue; fi
    judge "$(basename "$out" .out)" "$(compare "${out%.out}.il" "$out")"
  done
fi
echo "$accepted accepted texts: $agreed agree, $listed disagree as listed, $wrong otherwise"
[ "$wrong" = 0 ]
