#!/bin/sh
# Builds what the host takes, from proved crates: the engine's static library and the run program.
#
#     sh tools/build-engine.sh            both
#     sh tools/build-engine.sh library    target/staticlib/libengine.a, which is the crate engine_c
#     sh tools/build-engine.sh program    target/bin/flood, which is the crate flood
#
# `rt` proves what has changed since its last check of the crates, and builds nothing that isn't proved. Status 0 only if what was
# asked for is there, as the crates are now.
set -eu
cd "$(dirname "$0")/.."
what=${1-both}
case $what in
both | library | program) ;;
*)
    echo "usage: build-engine.sh [library|program]" >&2
    exit 2
    ;;
esac

if [ "$what" != program ]; then
    (cd crates/engine_c && rt lib)
    mkdir -p target/staticlib
    install -m 644 crates/engine_c/out/libengine_c.a target/staticlib/libengine.a
fi
if [ "$what" != library ]; then
    # A program is built to be run: here on no input, and what it says of that is not wanted.
    (cd crates/flood && rt run </dev/null >/dev/null)
    mkdir -p target/bin
    install -m 755 crates/flood/out/flood target/bin/flood
fi
