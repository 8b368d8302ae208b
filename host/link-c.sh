#!/bin/sh
# Makes a program from one C file and the engine's static library:  link-c.sh LIBRARY PROGRAM FILE.c
#
# Where the library is code for this machine, the machine's own C compiler does it. The engine's library is x86-64 code; on
# another machine the compiler and linker of a Rattle kit that has an emulator for it make an x86-64 program, and PROGRAM is a
# two-line script that runs it under the emulator. Either way PROGRAM can be run as it stands.
set -eu
[ $# -eq 3 ] || { echo "usage: link-c.sh LIBRARY PROGRAM FILE.c" >&2; exit 2; }
library=$1 program=$2 source=$3
headers=$(cd "$(dirname "$0")" && pwd)
strict='-std=c11 -O2 -Wall -Wextra -Werror'

# The processor that the library is for: the two bytes at 18 of its first object file (ELF, e_machine).
case $(ar p "$library" | od -An -tx1 -j18 -N2 | tr -d ' ') in
3e00) for=x86_64 ;;
b700) for=aarch64 ;;
*) echo "link-c.sh: $library holds no object file for a known processor" >&2; exit 1 ;;
esac

if [ "$for" = "$(uname -m)" ]; then
    # shellcheck disable=SC2086
    exec "${CC:-cc}" $strict -I "$headers" -o "$program" "$source" "$library"
fi
[ "$for" = x86_64 ] || { echo "link-c.sh: $library is for $for, and this machine is $(uname -m)" >&2; exit 1; }

# Such a kit has no C headers: this machine's own serve, since sizes and layouts agree. Its C compiler lists where they are.
include=$(cc -E -Wp,-v -xc /dev/null -o /dev/null 2>&1 | sed -n 's/^ /-isystem /p')
. "$headers/emulator.sh"
# shellcheck disable=SC2086
"$tools/bin/clang" --target=x86_64-unknown-linux-gnu -fPIC $strict -I "$headers" $include -c "$source" -o "$program.o"
"$own/bin/rattle-link" --target x86_64-unknown-linux-gnu --toolchain "$tools" -o "$program.x86_64" \
    "$program.o" "$library" 2>"$program.log" || { cat "$program.log" >&2; exit 1; }
rm -f "$program.o" "$program.log"
# The program is looked for beside the script, so that the two can be moved together.
words=$(emulated "\${0%/*}/$(basename "$program").x86_64" | sed 's/.*/"&"/' | tr '\n' ' ')
printf '#!/bin/sh\nexec %s"$@"\n' "$words" >"$program"
chmod +x "$program"
