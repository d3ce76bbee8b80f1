#!/usr/bin/env bash
# No line of a proof has 20 or more `.before`: an answer names what it reads (docs/PROVING.md, "Names, not places").
set -euo pipefail
cd "$(dirname "$0")/.."
git ls-files -z -- 'crates/*/proofs/*.antt' |
  xargs -0 awk '
  { n = gsub(/\.before/, "&") }
  n >= 20 {
    print FILENAME ":" FNR " has " n " .before"
    long = 1
  }
  END { exit long }'
