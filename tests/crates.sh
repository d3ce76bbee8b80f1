#!/usr/bin/env bash
# In crates.txt a crate stands below those that it depends on, and those that its files name are among them. Its floors
# are the table in docs/ARCHITECTURE.md; the table of crates in docs/PROVING.md is true but for its seconds, which it
# keeps. `bash tests/crates.sh --write` writes both tables anew.
set -euo pipefail
cd "$(dirname "$0")/.."
list=target/crates
mkdir -p target
sed -E 's/#.*//; /^[[:space:]]*$/d; s/ staticlib:/:/' crates.txt > "$list"
crates=$(cut -d: -f1 "$list")

# The crates that the files of a crate name, but for the kit's.
named() {
  {
    find "crates/$1" -not -path '*/out/*' \( -name '*.rt' -o -name '*.antt' \) -exec grep -hoE 'Rattle\.[a-z_]+' {} + | sed 's/Rattle\.//'
    find "crates/$1/src" -name '*.rt' -exec sed -nE 's/^(pub )?use ([a-z_]+)::.*/\2/p' {} +
  } | sort -u | comm -12 - <(sort <<< "$crates")
}
above=""
while IFS=: read -r crate depends; do
  for dependency in $depends; do
    case " $above " in *" $dependency "*) ;; *) echo "crates.txt: $dependency does not stand above $crate" >&2 && exit 1 ;; esac
  done
  for name in $(named "$crate"); do
    case " $depends $crate " in *" $name "*) ;; *) echo "crates.txt: $crate names $name and does not list it" >&2 && exit 1 ;; esac
  done
  above="$above $crate"
done < "$list"

# The lines that are not blank of the files below a folder with this ending.
lines() {
  if [ -d "$1" ]; then
    find "$1" -name "*.$2" -exec cat {} + | grep -c '[^[:space:]]' || true
  else
    echo 0
  fi
}

# A row for each floor: the comment line, and the crates below it.
floors() {
  awk '
  /^# / { if (row) print row " |"; row = "| " substr($0, 3) " |"; comma = " "; next }
  /^[a-z_]+( staticlib)?:/ { if (!row) { print "crates.txt: no floor above " $1 > "/dev/stderr"; exit 1 } sub(/[ :].*/, ""); row = row comma "`" $0 "`"; comma = ", " }
  END { if (row) print row " |" }' crates.txt
}

# A row for each crate, and their sums.
counts() {
  for crate in $crates; do
    at=crates/$crate
    seconds=$(sed -nE "s/^\| $crate \| ([0-9]+) \|.*/\1/p" docs/PROVING.md)
    functions=$(find "$at/src" -name '*.rt' -exec cat {} + | grep -cE '^ *(pub )?(extern "C" )?fn ' || true)
    edits=$(find "$at" -path '*/must-fail/*.edit' -not -path '*/out/*' | wc -l)
    echo "| $crate | ${seconds:-0} | $functions | $(lines "$at/src" rt) | $(lines "$at/specs" antt) | $(lines "$at/proofs" antt) | $edits |"
  done | awk -F'|' '{ print; for (i = 3; i <= 8; i++) sum[i] += $i } END { printf "| all |"; for (i = 3; i <= 8; i++) printf " %d |", sum[i]; print "" }'
}

# The page, with these rows in the table that has this first line; it is written, or held to the page as it stands.
table() {
  local page=$1 head=$2 rows=target/rows fresh=target/page
  cat > "$rows"
  awk -v head="$head" -v rows="$rows" '
  inside && /^\|/ { next }
  { inside = 0; print }
  index($0, head) == 1 { inside = 1; getline; print; while ((getline row < rows) > 0) print row }' "$page" > "$fresh"
  if [ "$write" = --write ]; then
    cp "$fresh" "$page"
  elif ! cmp -s "$fresh" "$page"; then
    echo "$page: the table '$head' is stale: bash tests/crates.sh --write" >&2
    exit 1
  fi
}
write=${1:-}
floors | table docs/ARCHITECTURE.md '| Floor | Crates |'
counts | table docs/PROVING.md '| Crate | Seconds |'
