#!/bin/sh
# Compares the proved engine and its run program with the second program. For the gate, after `rt ci`:
#
#   second/run.sh
#
# Status 0 only if the model passes its own test, no case differs, all that must occur occurred, and the
# comparison finds the spoilt engines.
#   second/run.sh --self      compares the model with itself and needs no engine
#   second/run.sh WORD..      only the comparison, with these words: --seed WORD --case PART NUMBER ..
# The engine's library and the run program, target/bin/flood, are made by tools/build-engine.sh, as the crates are now.
# RELAY_ENGINE_DIR names a folder that has a libengine.a already; then neither is made. The run program may be absent
# only while crates.txt does not list it.
set -eu
cd "$(dirname "$0")/.."
out=target/second
mkdir -p "$out"
. second/build.sh

say() {
    echo "second/run.sh: $*"
}

if [ "${1-}" = --self ] || [ $# = 0 ]; then
    compile second/selftest.rs -o "$out/selftest"
    "$out/selftest"
fi

if [ "${1-}" = --self ]; then
    compile_compare process
    link_compare "$out/compare"
    exec "$out/compare" "$@"
fi

# Compiled while the library is made.
compile_compare "$route" &
compiling=$!
[ -n "${RELAY_ENGINE_DIR-}" ] || sh tools/build-engine.sh
library=${RELAY_ENGINE_DIR:-target/staticlib}/libengine.a

# The library as a process, which can be started as it stands, and the words that start the run program. Both are for
# x86-64; link-c.sh and emulator.sh know what to do where the machine is another.
sh host/link-c.sh "$library" "$out/shim" second/shim.c
emulated() { echo "$1"; }
[ "$route" = linked ] || . host/emulator.sh

wait "$compiling"
case $route in
linked) link_compare "$out/compare" "$library" ;;
*) link_compare "$out/compare" ;;
esac

# The words of a command are split at line ends alone.
old_ifs=$IFS
IFS='
'
words=$#
if [ -x target/bin/flood ]; then
    # shellcheck disable=SC2046
    set -- --flood $(emulated target/bin/flood) ';' "$@"
elif grep -q '^flood:' crates.txt; then
    say "crates.txt lists flood, and target/bin/flood is not there" >&2
    exit 1
fi
as_process() {
    timeout 900 "$out/compare" --engine "$out/shim" ';' "$@"
}
# Every commit tries inputs of its own besides.
fresh=$(git rev-parse HEAD 2>/dev/null) || fresh=no-commit

if [ "$route" = linked ]; then
    say "the engine is linked as a static library, as this machine ($(uname -m)) can"
    timeout 900 "$out/compare" --fresh "$fresh" "$@"
else
    say "the engine is a process under an emulator, as this machine ($(uname -m)) cannot link it"
    as_process --fresh "$fresh" "$@"
fi
[ "$words" = 0 ] || exit 0
if [ "$route" = linked ]; then
    say "the engine is a process as well, for a share of the cases"
    as_process --seed "$fresh" --percent 10
fi
IFS=$old_ifs
say "spoilt engines, each of which must be found"
second/mutants.sh --gate
