# Part of host/test.sh: the run program as README.md shows it, where it has been built (the gate leaves it there). Begins and ends in
# the repository's folder.

if [ -x target/bin/flood ]; then
    # The words that start it: its name, or where the machine isn't x86-64 the emulator's before it.
    emulated() { echo "$1"; }
    [ "$(uname -m)" = x86_64 ] || . host/emulator.sh
    mapfile -t flood < <(emulated "$PWD/target/bin/flood")
    # The commands of the paper, with these two in the places of `relay` and the program.
    sed -n '/^## The run program$/,/^## /p' README.md | sed -n 's/^    //p' |
        sed "s|relay -|\"\$relay\" -|; s|^relay |\"\$relay\" |; s|target/bin/flood|\"\$@\"|" >"$room/flood.sh"
    sed -n '/^## The run program$/,/^## /p' README.md | sed -n '/^```$/,/^```$/p' | sed '/^```$/d' >"$room/flood.out"
    (cd "$room" && relay=$relay sh flood.sh "${flood[@]}") | sed 1d >"$room/wrote"
    [ -s "$room/flood.out" ] && diff -u "$room/flood.out" "$room/wrote"
    verdict $? "the run program, as README.md has it"
else
    echo "host: left out: the run program isn't built (sh tools/build-engine.sh program)"
fi
