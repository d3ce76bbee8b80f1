#!/usr/bin/env bash
# Writes target/staticlib/libcompare_bench.a, the two comparisons of names that tests/bench links. What its check said is
# in target/log/compare_bench.say.
set -euo pipefail
cd "$(dirname "$0")/../.."
mkdir -p target/staticlib target/log
(cd crates/compare_bench && rt lib) > target/log/compare_bench.say || {
  cat target/log/compare_bench.say >&2
  exit 1
}
cp crates/compare_bench/out/libcompare_bench.a target/staticlib
