#!/usr/bin/env bash
# The proved code against independent implementations, one command. Needs the kit, cargo and the original's sources (docs/ORACLE.md).
#
#   tools/differential.sh [BUNDLES [SEED]]        default: 20000 bundles, seed 1; the runs that docs/ORACLE.md lists have 1000000
#
# Each run prints what it compared; the last line is `no differences` and the status 0, or the status is 1.
set -eu
cd "$(dirname "$0")/.."
count=${1:-20000}
seed=${2:-1}
for archive in host steps_c scopes_c; do
  echo "proving and building lib$archive.a"
  tools/archives.sh "$archive" >/dev/null
done
(cd crates/link_vectors && rt run </dev/null >/dev/null)
(cd tools && cargo build --release --offline --quiet --workspace)
bin=tools/target/release
work=$(mktemp -d)
trap 'rm -rf "$work"' EXIT

"$bin/differ" names "$seed" "$count"
"$bin/differ" bundles "$seed" "$count"
"$bin/differ" damaged "$seed" "$((count / 200 + 1))"
"$bin/differ" uses "$seed" "$count"
"$bin/differ" clashes "$seed" "$((count / 30 + 1))"
"$bin/differ" order "$seed" "$count"
"$bin/differ" assemble "$seed" "$count"
"$bin/differ" lines "$seed" "$count"
"$bin/scopes-diff" "$seed" "$count"

# The whole run: every printed line, and the image; then the same of bundles that reach to the limits.
whole() {
  "$bin/generate" "$@" >"$work/bundles"
  "$bin/oracle" --stream --image <"$work/bundles" >"$work/expected"
  crates/link_vectors/out/link_vectors <"$work/bundles" >"$work/found"
  cmp "$work/expected" "$work/found"
}
whole "$seed" "$count"
echo "link: $count bundles, printed lines and images the same"
far=$((count / 5 + 1))
whole --far "$seed" "$far"
echo "link: $far bundles that reach to the limits, printed lines and images the same"
echo "no differences"
