#!/usr/bin/env bash
# Every wrong program in crates/NAME/must-fail/ begins with a line `# FUNCTION: what it does`, FUNCTION being a public function of the crate
# or a module of its specs/; no two of a crate begin with the same line, and every public function has two or more.
set -euo pipefail
cd "$(dirname "$0")/.."

fail() {
  echo "$1" >&2
  exit 1
}

# The public functions of a library crate, one a line; as MODULE::FUNCTION where two of its modules have one of that name.
functions() {
  local root=crates/$1/src/lib.rt module
  [ -e "$root" ] || return 0
  for module in lib $(sed -nE 's/^pub mod ([a-z0-9_]+);/\1/p' "$root"); do
    sed -nE "s/^pub (extern \"C\" )?fn ([a-z0-9_]+).*/$module \2/p" "crates/$1/src/$module.rt"
  done | awk '{ of[NR] = $1; name[NR] = $2; many[$2]++ } END { for (i = 1; i <= NR; i++) print (many[name[i]] > 1 ? of[i] "::" : "") name[i] }'
}

for folder in crates/*/; do
  crate=$(basename "$folder")
  public=$(functions "$crate")
  modules=$(find "$folder" -path '*/specs/*.antt' -not -path '*/out/*' -exec basename {} .antt \;)
  lines="" names=""
  for edit in "$folder"must-fail/*.edit; do
    [ -e "$edit" ] || continue
    read -r line < "$edit"
    [[ $line =~ ^'# '([A-Za-z0-9_]+(::[a-z0-9_]+)?)': '[^\ ] ]] || fail "$edit does not begin with a line '# FUNCTION: what it does'"
    name=${BASH_REMATCH[1]}
    grep -qxF -- "$name" <<< "$public"$'\n'"$modules" || fail "$edit: $crate has no public function and no module of specs/ $name"
    if grep -qxF -- "$line" <<< "$lines"; then
      fail "$edit begins with the same line as another edit of $crate"
    fi
    lines+=$line$'\n' names+=$name$'\n'
  done
  for name in $public; do
    many=$(grep -cxF -- "$name" <<< "$names" || true)
    [ "$many" -ge 2 ] || fail "$crate::$name has $many edits in ${folder}must-fail, not two or more"
  done
done
