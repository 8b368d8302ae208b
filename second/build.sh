# Functions of run.sh and mutants.sh: compile the comparison, link it with an engine, build the shim.
# Both begin in second/.. and set `out`, the folder for what is made.

# How this machine takes the engine: the library is for x86-64, and only there a program can link it.
case $(uname -m) in
x86_64) route=linked ;;
*) route=process ;;
esac

compile() {
    rustc --edition 2021 -O -C codegen-units=1 "$@"
}

# The comparison as a library, so that it is compiled once for all engines.
compile_compare() { # ROUTE
    case $1 in
    linked) compile --crate-type rlib -C relocation-model=static --cfg linked second/compare.rs -o "$out/libcompare.rlib" ;;
    *) compile --crate-type rlib second/compare.rs -o "$out/libcompare.rlib" ;;
    esac
}

link_compare() { # PROGRAM [ENGINE'S LIBRARY]
    echo 'fn main() { compare::main() }' >"$out/main.rs"
    if [ -n "${2-}" ]; then
        rustc --edition 2021 --extern "compare=$out/libcompare.rlib" "$out/main.rs" -o "$1" \
            -C relocation-model=static -C "link-arg=$2"
    else
        rustc --edition 2021 --extern "compare=$out/libcompare.rlib" "$out/main.rs" -o "$1"
    fi
}
