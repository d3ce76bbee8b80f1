#!/usr/bin/env bash
# CPU time of read and write beside Yosys's read_rtlil and write_rtlil, in one run: a Markdown table over some files of tests/bench, or over
# the files given. After include/library.sh and `bash tests/bench/library.sh`; not part of the gate, since Yosys need not be installed; tried with 0.23.
#
# Each is timed in its own process, a few calls subtracted from many, so that starting up counts for neither. They take turns, and the shortest of
# ROUNDS rounds counts (8 if not given), so that what else the machine does falls on both. Each round runs fresh copies of both programs,
# since identical copies differed by a third in time, each with its own time again and again. Yosys empties its design after each read, and
# writes to /dev/null.
set -euo pipefail
export LC_ALL=C
if ! command -v yosys > /dev/null; then
  echo "yosys is not installed: nothing raced"
  exit 0
fi
files=()
for file in "$@"; do files+=("$(realpath "$file")"); done
cd "$(dirname "$0")/../.."
room=$(mktemp -d)
trap 'rm -rf "$room"' EXIT
cargo build --quiet --release --offline --manifest-path tests/bench/Cargo.toml --target-dir target/cargo
bench=target/cargo/release/bench
few=20

# The milliseconds of the processor that a command takes, its own and the system's.
cpu() {
  local TIMEFORMAT='%3U %3S' taken user system
  if ! taken=$({ time "$@" > "$room/said" 2>&1; } 2>&1); then
    echo "$* fails: $(tail -n 1 "$room/said")" >&2
    return 1
  fi
  read -r user system <<< "$taken"
  echo $((10#${user/./} + 10#${system/./}))
}

# script NAME FIRST EACH TIMES: a script for Yosys, a first line and another so many times.
script() {
  echo "$2" > "$room/$1"
  for ((n = 0; n < $4; n++)); do echo "$3"; done >> "$room/$1"
}

# once WHO CALL FILE TIMES: milliseconds of so many calls, and of starting up.
once() {
  if [ "$1" = ours ]; then
    cpu "$room/ours" call "$2" "$3" 0 "$4"
  elif [ "$2" = read ]; then
    script commands "" "read_rtlil $3; design -reset" "$4"
    cpu "$room/yosys" -q -s "$room/commands"
  else
    script commands "read_rtlil $3" "write_rtlil /dev/null" "$4"
    cpu "$room/yosys" -q -s "$room/commands"
  fi
}

# Fresh copies of both programs, made while the old ones are still there, so that they do not take their place.
copies() {
  for who in ours yosys; do
    if [ -e "$room/$who" ]; then mv "$room/$who" "$room/$who.before"; fi
  done
  cp "$bench" "$room/ours"
  cp "$(command -v yosys)" "$room/yosys"
}

# shortest WHO CALL FILE TIMES: once more, kept in `least` where it is the shortest so far.
declare -A least
shortest() {
  local of="$1 $2 $4" time
  time=$(once "$@")
  if [ -z "${least[$of]:-}" ] || [ "$time" -lt "${least[$of]}" ]; then least[$of]=$time; fi
}

# each WHO CALL: microseconds of one call.
each() {
  awk -v few="${least[$1 $2 $few]}" -v many="${least[$1 $2 $many]}" -v calls=$((many - few)) 'BEGIN { print (many - few) * 1000 / calls }'
}

# race FILE: its row of the table. The smaller the file, the more calls.
race() {
  if [ "$("$bench" call write "$1" 0 1)" != 0 ]; then
    echo "$1 is refused" >&2
    return 1
  fi
  least=()
  many=$((few + 500 + 4000000 / ($(stat -c %s "$1") + 500)))
  for ((round = 0; round < ${ROUNDS:-8}; round++)); do
    copies
    for times in $few $many; do
      for call in read write; do
        shortest yosys $call "$1" "$times"
        shortest ours $call "$1" "$times"
      done
    done
  done
  awk -v name="$(basename "$1" .il)" -v a="$(each ours read)" -v b="$(each ours write)" -v x="$(each yosys read)" -v y="$(each yosys write)" 'BEGIN {
    printf "| %s | %.1f | %.1f | %.1f | %.1f | %.2f | %.2f | **%.2f** |\n", name, a, b, x, y, a / x, b / y, (a + b) / (x + y)
  }'
}

if [ ${#files[@]} = 0 ]; then
  "$bench" files "$room" > "$room/names"
  for name in k01 k04 k32 ram wires512 attrs1024 procs64 procs1024; do files+=("$room/$name.il"); done
fi
yosys -V
echo
echo "| File | read, us | write, us | Yosys read, us | Yosys write, us | read / Yosys | write / Yosys | both / Yosys |"
echo "|---|---|---|---|---|---|---|---|"
for file in "${files[@]}"; do race "$file"; done
