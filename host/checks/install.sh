# Part of host/test.sh: what the Makefile proves and installs. Begins and ends in the repository's folder.

# The engine is proved when its crates have changed, and not otherwise; told with an `rt` that only counts.
mkdir -p "$room/tree" "$room/counting"
tar -c --exclude='crates/*/out' Makefile crates.txt crates tools/build-engine.sh host/Cargo.toml | tar -x -C "$room/tree"
# As `rt` does, it leaves things of its own beside what it makes, and writes the library over and over.
cat >"$room/counting/rt" <<'RT'
#!/bin/sh
echo "$* in ${PWD##*/}" >>../../counted
mkdir -p out/incremental
echo kept >out/incremental/work
echo made >"out/lib${PWD##*/}.a"
RT
chmod +x "$room/counting/rt"
proves() { # TIMES WHAT
    PATH=$room/counting:$PATH env -u RELAY_ENGINE_DIR -u MAKEFLAGS make -s -C "$room/tree" library >"$room/wrote" 2>&1 &&
        [ "$(grep -c '^lib in engine_c$' "$room/tree/counted")" -eq "$1" ] &&
        cmp "$room/tree/crates/engine_c/out/libengine_c.a" "$room/tree/target/staticlib/libengine.a"
    verdict $? "make: $2"
}
proves 1 "the engine is proved once"
grep -q "'note:' are the prover's remarks" "$room/wrote"
verdict $? "make says what the prover's notes are"
touch "$room/tree/crates/engine_c/out/incremental/work"
proves 1 "nothing changed, nothing is proved"
touch "$room/tree/crates/engine/src/lib.rt"
proves 2 "a changed crate is proved again"
proves 2 "and only once"

# What is installed, below DESTDIR and for PREFIX, runs and is found.
stage=$room/stage$PWD/usr
make -s install DESTDIR="$room/stage" PREFIX="$PWD/usr" >"$room/wrote" 2>&1 || { cat "$room/wrote"; false; }
verdict $? "make install"
{
    printf '%s\n' bin/relay include/relay.h lib/librelay.a lib/pkgconfig/relay.pc
    [ "$(uname -m)" = x86_64 ] || printf '%s\n' libexec/relay/engine-process libexec/relay/engine-process.x86_64
    printf '%s\n' share/bash-completion/completions/relay share/man/man1/relay.1
} >"$room/list"
(cd "$stage" && find . -type f | sed 's|^\./||' | LC_ALL=C sort) >"$room/installed"
same "$room/list" "$room/installed" "make install puts these files there"
gives 0 examples/first.out "$stage/bin/relay" examples/first.relay
cmp host/relay.h "$stage/include/relay.h" && cmp "$library" "$stage/lib/librelay.a"
verdict $? "header and library are installed as they are"
printf 'prefix=%s\n' "$PWD/usr" | cmp -n $((8 + ${#PWD} + 4)) - "$stage/lib/pkgconfig/relay.pc" &&
    grep -q '^Libs: -L${libdir} -lrelay$' "$stage/lib/pkgconfig/relay.pc" && ! grep -q '@' "$stage/lib/pkgconfig/relay.pc"
verdict $? "the file for pkg-config names the folder"
sed -n '/^\.nf$/,/^\.fi$/p' "$stage/share/man/man1/relay.1" | sed -n '2,/^\.fi$/p' | sed '$d; s/^\\&//; s/\\-/-/g; s/\\e/\\/g' >"$room/page"
same host/src/bin/relay/help.txt "$room/page" "the man page has the help as it is"
completes() { # TO WORD...
    local to=$1 completed
    shift
    # shellcheck disable=SC2016
    completed=$(cd "$room/tree" && bash -c 'source "$1"; shift; COMP_WORDS=("$@") COMP_CWORD=$(($# - 1)); _relay; echo "${COMPREPLY[*]}"' - \
        "$stage/share/bash-completion/completions/relay" "$stage/bin/relay" "$@")
    [ "$completed" = "$to" ] || { echo "$completed"; false; }
    verdict $? "bash completes $* to $to"
}
completes encode enc
completes --expand encode --e
completes --json --j

# Without its engine the tool says so and ends; it doesn't panic. (Where the engine is linked in, it is never without.)
if [ -d "$stage/libexec" ]; then
    rm "$stage/libexec/relay/engine-process.x86_64"
    for line in 'join 0' drain 'image x'; do
        echo "$line" | "$stage/bin/relay" >"$room/wrote" 2>&1
        [ $? -eq 2 ] && grep -q "the engine's process can't be started, or doesn't answer (255)" "$room/wrote" &&
            ! grep -q panicked "$room/wrote"
        verdict $? "no engine: $line"
    done
    echo drain | "$stage/bin/relay" --json - >"$room/wrote" 2>&1
    [ $? -eq 2 ] && grep -q '^{"kind":"refusal","number":255,"place":0,' "$room/wrote" && grep -q '^{"kind":"stopped","status":2,' "$room/wrote"
    verdict $? "no engine: --json"
fi
make -s uninstall DESTDIR="$room/stage" PREFIX="$PWD/usr" && [ -z "$(find "$room/stage" -type f)" ]
verdict $? "make uninstall takes all of it away"
