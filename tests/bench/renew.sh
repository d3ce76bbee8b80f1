#!/usr/bin/env bash
# Writes the tables of docs/SPEED.md anew, each found by its first line: what count.sh, the bench's times and tests/yosys/race.sh print. A table
# that can't be made on this machine stays as it is. Some minutes, with nothing else running.
set -euo pipefail
cd "$(dirname "$0")/../.."
page=docs/SPEED.md
room=$(mktemp -d)
trap 'rm -rf "$room"' EXIT
{
  bash tests/bench/count.sh
  echo
  cargo run --quiet --release --offline --manifest-path tests/bench/Cargo.toml --target-dir target/cargo
  echo
  bash tests/yosys/race.sh
} | tee "$room/printed"
awk '
  !/^\|/ { inside = 0 }
  FNR == NR {
    if (/^\|/) {
      if (!inside) head = $0
      table[head] = table[head] $0 "\n"
      inside = 1
    }
    next
  }
  /^\|/ && !inside {
    inside = 1
    made = $0 in table
    if (made) printf "%s", table[$0]
  }
  !(inside && made)' "$room/printed" "$page" > "$room/page"
cp "$room/page" "$page"
