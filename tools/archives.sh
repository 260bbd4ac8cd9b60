#!/usr/bin/env bash
# Proves and builds archives for programs in other languages: `tools/archives.sh host steps_c scopes_c` writes target/staticlib/libhost.a
# and so on. steps_c and scopes_c are libraries; the exports over them are the crates steps_c_c and scopes_c_c.
set -euo pipefail
cd "$(dirname "$0")/.."
mkdir -p target/staticlib
for name in "$@"; do
  crate=$name
  [ "$name" = host ] || crate=${name}_c
  (cd "crates/$crate" && rt lib)
  made=crates/$crate/out/lib$crate.a
  [ -f "$made" ] || { echo "archives: rt made no $made" >&2; exit 1; }
  cmp -s "$made" "target/staticlib/lib$name.a" || cp "$made" "target/staticlib/lib$name.a"
done
