#!/usr/bin/env bash
# The engine beside plain Rust and a faster plain Rust in two forms, as tables of times and ratios, all from one run. Run from
# anywhere; needs `rt` and `rustc` on an x86-64 machine: the library that the toolchain makes is for x86-64, and a time under an
# emulator says nothing. RELAY_ENGINE_DIR names a folder that has the library already; then none is made.
set -eu
cd "$(dirname "$0")/.."
if [ "$(uname -m)" != x86_64 ]; then
    echo "bench: nothing is measured: the engine's library is for x86-64, and this machine is $(uname -m)."
    echo "docs/BENCH.md has tables and says where they were made."
    exit 0
fi
[ -n "${RELAY_ENGINE_DIR-}" ] || sh tools/build-engine.sh library > /dev/null
mkdir -p target/bench
rustc --edition 2021 -O -L "native=${RELAY_ENGINE_DIR:-target/staticlib}" -l static=engine bench/bench.rs -o target/bench/bench
model=$(sed -n 's/^model name[[:space:]]*: //p' /proc/cpuinfo | head -n 1)
echo "Machine: $(uname -m), $(nproc) cores, ${model:-model unknown}; $(rustc --version), -O."
target/bench/bench
