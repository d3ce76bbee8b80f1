#!/usr/bin/env bash
# As agree.sh, over generated files: `bash tests/yosys/generated.sh COUNT`, of the seeds from 0 on. tests/yosys/plain.pl respells them first,
# since document 01 and Yosys part in those spellings (docs/DECISIONS.md); all that are accepted then have to agree.
set -euo pipefail
cd "$(dirname "$0")/../.."
folder=$(mktemp -d)
trap 'rm -rf "$folder"' EXIT
mkdir "$folder/generated" "$folder/plain"
cargo run --quiet --release --offline --manifest-path tests/reference/Cargo.toml --target-dir target/cargo --bin generate 0 medium "$1" "$folder/generated"
for file in "$folder"/generated/*.il; do
  perl tests/yosys/plain.pl < "$file" > "$folder/plain/$(basename "$file")"
done
bash tests/yosys/agree.sh "$folder"/plain/*.il | grep -av ': refused: '
