#!/bin/sh
# Does the comparison find slips? For each one of slips.sh, plants it in a copy of the model, lets the copy
# stand in for the engine or its run program, and demands that the comparison ends with a difference. The
# slips are those that 01 guards against, its useless versions, one for most conditions, orders and counts,
# E2's receivers, E4's visits, and bytes read or written that are not the engine's.
#
#   second/mutants.sh [--process] [NAME..]    all of them, or these; some minutes
#   second/mutants.sh --gate                  those named below and a few that the commit picks, after run.sh has
#                                             compiled the comparison
#
# The stand-in is linked as a static library where the machine links the engine; else, and with --process,
# it is a process (which needs a C compiler for this machine).
set -eu
cd "$(dirname "$0")/.."
out=target/second
mkdir -p "$out"
. second/build.sh

gate='answers-modulo-65536 reads-beyond-events touches-table touches-refused-state writes-behind-tally leaver-stays
back-to-seen-orders same-round image-own-pending new-at-origin lowest-rule-first neighbour-by-neighbour highest-topic
receivers-still-pending last-receiver-passed-over reads-once'

# Every twenty-fourth of the others, beginning where the commit's hash says, so that each has its turn in a gate.
picked() {
    commit=$(git rev-parse HEAD 2>/dev/null) || commit=0
    first=$((0x$(printf '%.6s' "$commit") % 24))
    sed -n 's/^slip \([^ ]*\) .*/\1/p' second/slips.sh | while read -r name; do
        case " $(echo $gate) " in *" $name "*) ;; *) echo "$name" ;; esac
    done | awk -v first="$first" 'NR % 24 == first'
}

wanted='' share=5 ready=''
while [ $# -gt 0 ]; do
    case $1 in
    --gate) wanted="$gate $(picked)" share=2 ready=yes ;;
    --process) route=process ;;
    *) wanted="$wanted $1" ;;
    esac
    shift
done
wanted=" $(echo $wanted) " # single spaces
all=$out/mutants
rm -rf "$all"
# The copies look for the declarations of the engine's interface where the original does: beside their folder.
mkdir -p "$all/host/src"
cp host/src/interface.rs "$all/host/src/"
[ -n "$ready" ] || compile_compare "$route"
found=0 missed=''

stand_in() {
    rustc --edition 2021 -C opt-level=0 -C debug-assertions=off -A warnings "$@"
}

# Copies what makes up the stand-in, and edits one file.
spoil() { # COPY FILE EXPRESSION
    mkdir "$1"
    cp -R second/model.rs second/model second/standin.rs second/standin_flood.rs "$1/"
    sed -i "$3" "$1/$2"
    if cmp -s "$1/$2" "second/$2"; then
        echo "$1: the edit changes nothing"
        exit 2
    fi
}

# The comparison with the engine of a copy. Sets `command`, the words that start it.
with_engine() { # COPY
    stand_in --crate-type staticlib --crate-name engine "$1/standin.rs" -o "$1/libengine.a"
    if [ "$route" = linked ]; then
        link_compare "$1/compare" "$1/libengine.a"
        command=$1/compare
    else
        ${CC:-cc} -O2 -I host second/shim.c "$1/libengine.a" -lpthread -ldl -lm -o "$1/shim"
        command="$all/compare --engine $1/shim ;"
    fi
}

# Runs the comparison up to its first difference, which it prints.
try() { # NAME WORD..
    name=$1 end=0
    shift
    timeout 300 "$@" --first >"$all/said" 2>&1 || end=$?
    line=$(grep -m 1 -e DIFFERENCE -e 'FAILED: .* case ' "$all/said" | cut -c 1-150) || line=''
    [ "$end" != 124 ] || line='runs on without end'
    printf '%s: %s\n' "$name" "${line:-no difference}"
    [ "$end" != 0 ] && [ -n "$line" ]
}

# Every part but the orders, for which the stand-in is slow.
parts='--only check --only copy --only run --only long --only forward --only drain --only image'

slip() { # NAME FILE EXPRESSION [PARTS]
    [ "$wanted" = '  ' ] || case $wanted in *" $1 "*) ;; *) return 0 ;; esac
    copy=$all/$1 file=$2
    [ ! -f "second/model/$file" ] || file=model/$file
    spoil "$copy" "$file" "$3"
    case $file in
    model/program.rs | standin_flood.rs)
        # The run program alone, beside the unchanged engine.
        stand_in "$copy/standin_flood.rs" -o "$copy/flood"
        set -- "$1" $unchanged --flood "$copy/flood" ';' --only program
        ;;
    *)
        with_engine "$copy"
        set -- "$1" $command ${4:-$parts}
        ;;
    esac
    if try "$@" --percent 20; then found=$((found + 1)); else missed="$missed $1"; fi
    rm -rf "$copy"
}

[ "$route" = linked ] || link_compare "$all/compare"
echo "spoilt engines: $route"
mkdir "$all/unchanged"
cp -R second/model.rs second/model second/standin.rs "$all/unchanged/"
with_engine "$all/unchanged"
unchanged=$command
if try unchanged $unchanged $parts --percent "$share" || [ "$end" != 0 ]; then
    echo "the unchanged model differs from itself, or the comparison does not run:"
    cat "$all/said"
    exit 2
fi
. second/slips.sh
echo "$found slips found; missed:${missed:- none}"
[ -z "$missed" ]
