#!/bin/sh
# The table of docs/BENCHMARKS.md, "A link": builds the proved library and the original's code, and counts the instructions of both on
# each case. Words after it are names of cases. RUN=stacks gives the stack instead.
set -eu
cd "$(dirname "$0")/.."
tools/archives.sh host >&2
cd tools
cargo build --release --offline --package bench >&2
exec target/release/bench "${RUN:-table}" "$@"
