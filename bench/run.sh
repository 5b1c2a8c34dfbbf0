#!/usr/bin/env bash
# Builds the proved engine as a static library and the harness that links it, and measures: bench/run.sh [RUNS].
set -euo pipefail
cd "$(dirname "$0")/.."
kit=$(dirname "$(rt doc)")
(cd crates/bench_export && rt lib)
mkdir -p target/bench
rustc -O --edition 2024 -o target/bench/bench bench/src/main.rs \
  -L native=crates/bench_export/out -l static=bench_export -C link-arg="$kit/c/libos_c.a" -C link-arg="$kit/c/liblibc_c.a"
target/bench/bench "$@"
