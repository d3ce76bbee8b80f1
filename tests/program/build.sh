#!/usr/bin/env bash
# Writes target/bin/skytassel, the proved program. What its check said is in target/log/skytassel.out.
set -euo pipefail
cd "$(dirname "$0")/../.."
mkdir -p target/bin target/log
(cd crates/skytassel && rt run < /dev/null) > target/log/skytassel.out 2>&1 || {
  cat target/log/skytassel.out >&2
  exit 1
}
cp crates/skytassel/out/skytassel target/bin
