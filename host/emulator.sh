# Sourced where a machine that isn't x86-64 is to run x86-64 code: the engine's library and the run program are nothing else. Takes the
# emulator, the compiler and the C library from a Rattle kit that has them for this machine, in its folder on/MACHINE. Sets `own`, that
# folder, and `tools`, its compiler's; `emulated` starts a program, each word on a line. Ends with status 1 where the kit has none.

own=$(dirname "$(rt doc)")/on/$(uname -m)
tools=$own/toolchain
[ -x "$tools/bin/qemu-x86_64" ] || { echo "the Rattle kit ($(rt version)) has no emulator for $(uname -m), so nothing here runs x86-64 code" >&2; exit 1; }

emulated() { # PROGRAM
    printf '%s\n' "$tools/bin/qemu-x86_64" "$tools/lib/ld-linux-x86-64.so.2" --library-path "$tools/lib" "$1"
}
