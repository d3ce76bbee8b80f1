#!/usr/bin/env bash
# No two places of the tree share 20 lines that are not blank, but for the generated cases and the table of byte classes, an entry a line.
set -euo pipefail
cd "$(dirname "$0")/.."
git ls-files -z -- '*.rt' '*.antt' '*.rs' '*.sh' '*.c' '*.h' |
  grep -zv -e '^crates/vectors/specs/Cases' -e '^crates/scanner/src/class.rt$' |
  xargs -0 awk '
  FNR == 1 { n = 0 }
  {
    gsub(/^[ \t]+|[ \t]+$/, "")
    if ($0 == "") next
    n++
    line[n % 20] = $0
    number[n % 20] = FNR
    if (n < 20) next
    run = ""
    for (i = n + 1; i <= n + 20; i++) run = run line[i % 20] "\n"
    if (!(run in file)) {
      file[run] = FILENAME
      last[run] = n
      from[run] = number[(n + 1) % 20]
    } else if ((file[run] != FILENAME || last[run] + 20 <= n) && !((FILENAME, file[run]) in told)) {
      told[FILENAME, file[run]] = 1
      print FILENAME ":" number[(n + 1) % 20] " shares 20 lines with " file[run] ":" from[run]
    }
  }
  END { for (pair in told) exit 1 }'
