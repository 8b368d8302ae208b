# Part of host/test.sh: what the compiler and the text of the sources say of the crate, and that all who take its declarations of
# the engine's interface are compiled with them. Begins and ends in the repository's folder.

RUSTDOCFLAGS='-D warnings' cargo doc --offline --locked --no-deps --quiet --manifest-path host/Cargo.toml >"$room/wrote" 2>&1 ||
    { cat "$room/wrote"; false; }
verdict $? "cargo doc has nothing to warn of"

# The crate as this machine's cargo doesn't build it, with the engine linked in or as a process; the linked form of the comparison;
# the stand-in for the engine; the bench. No program is made of them here, so that no library is needed.
compiled() { # WHAT WORD...
    local what=$1
    shift
    RELAY_ENGINE_PROCESS=none rustc --edition 2021 --emit=metadata --out-dir "$room" "$@" >"$room/wrote" 2>&1 ||
        { cat "$room/wrote"; false; }
    verdict $? "compiled: $what"
}
compiled "the crate, engine linked in" -D warnings --crate-type lib --crate-name linked_in host/src/lib.rs
compiled "the crate, engine as a process" -D warnings --crate-type lib --crate-name bridged --cfg bridged host/src/lib.rs
compiled "the comparison, engine linked in" -D warnings --crate-type lib --cfg linked second/compare.rs
compiled "the stand-in" -A dead_code -D warnings --crate-type lib second/standin.rs
compiled "the bench" -D warnings bench/bench.rs

# The interface is declared in one file for C and in one for Rust; the stand-in, which is no caller, defines what they declare.
declaring=$(grep -rlE 'fn relay_[a-z]+\(|^(struct [a-z]+|relay_[a-z]+) relay_[a-z]+\(' --include='*.rs' --include='*.[ch]' host second bench)
[ "$(echo "$declaring" | LC_ALL=C sort | tr '\n' ' ')" = "host/relay.h host/src/interface.rs second/standin.rs " ] ||
    { echo "$declaring"; false; }
verdict $? "the interface is declared once"

# What the library exports has the promises of the engine's own functions: parameters and clauses, however the lines are broken.
promises() { # FILE...
    awk '/^pub (extern "C" )?fn relay_/ { taking = 1; all = "" }
        taking && /^\{/ { print all; taking = 0 }
        taking { all = all " " $0 }' "$@" |
        sed 's/extern "C" //; s/[[:space:]]\{1,\}/ /g; s/( /(/g; s/,\{0,1\} )/)/g' | LC_ALL=C sort
}
promises crates/engine/src/*.rt >"$room/want"
promises crates/engine_c/src/lib.rt >"$room/wrote"
[ "$(grep -c ensures "$room/want")" -eq 6 ] && diff -u "$room/want" "$room/wrote"
verdict $? "the library promises what the engine does, word for word"

# Above its tests, no file of the crate has a word that panics.
panicking=$(for file in host/src/*.rs; do
    sed '/^#\[cfg(test)\]/,$d' "$file" | grep -nE '(panic|assert(_eq|_ne)?|unreachable|todo|unimplemented)!|\.(unwrap|expect)\(' |
        grep -vE '^[0-9]+: *//' | sed "s|^|$file:|"
done)
[ -z "$panicking" ] || { echo "$panicking"; false; }
verdict $? "the crate has no word that panics"

# A block that is unsafe has its reason in the line above.
unsafe=$(awk 'FNR == 1 { above = "" } /unsafe \{/ && above !~ /\/\/ SAFETY: / { print FILENAME ":" FNR } { above = $0 }' \
    host/src/*.rs second/*.rs bench/*.rs)
[ -z "$unsafe" ] || { echo "no reason: $unsafe"; false; }
verdict $? "each unsafe block says why it is safe"

# The Rust example of docs/HOST.md, as a program.
{
    echo 'fn main() -> Result<(), Box<dyn std::error::Error>> {'
    sed -n '/^```rust$/,/^```$/p' docs/HOST.md | sed '/^```/d'
    echo 'assert!(drained.quiet); Ok(()) }'
} >"$room/written.rs"
built=${CARGO_TARGET_DIR:-$PWD/host/target}/release
rustc --edition 2021 -L "dependency=$built/deps" --extern "relay_host=$built/librelay_host.rlib" "$room/written.rs" -o "$room/written" &&
    (cd "$room" && ./written && [ "$(wc -c <state)" -eq 5120 ] && rm state)
verdict $? "the Rust example of docs/HOST.md"
