#!/usr/bin/env bash
# Builds the host over the engine's static library and tries all of it: the Rust crate's tests, its text and papers (checks/crate.sh),
# what is installed (checks/install.sh), pages (checks/page.sh), the C example, the examples with their stored output, and the
# tool's files. Ends with status 0 only if nothing differs.
#
#     bash host/test.sh
#
# Needs cargo, a C compiler and the library, which tools/build-engine.sh makes if it isn't there. RELAY_ENGINE_DIR
# names another folder than target/staticlib. What needs a browser is left out where there is no chromium.
set -u
cd "$(dirname "$0")/.." || exit 2
export RELAY_ENGINE_DIR=${RELAY_ENGINE_DIR:-$PWD/target/staticlib}
library=$RELAY_ENGINE_DIR/libengine.a
[ -f "$library" ] || sh tools/build-engine.sh library || exit 2
room=$(mktemp -d) || exit 2
trap 'rm -rf "$room"' EXIT
tried=0 wrong=0

# Counts a check and says how it went.
verdict() { # STATUS WHAT
    tried=$((tried + 1))
    if [ "$1" -eq 0 ]; then
        echo "host: ok: $2"
    else
        wrong=$((wrong + 1))
        echo "host: WRONG: $2"
    fi
}

# Runs a command; what it writes and its status must be as said.
gives() { # STATUS FILE COMMAND...
    local status=$1 file=$2 ended
    shift 2
    "$@" >"$room/wrote" 2>&1
    ended=$?
    diff -u "$file" "$room/wrote" && { [ "$ended" -eq "$status" ] || { echo "status $ended, not $status"; false; }; }
    verdict $? "$*"
}

# Gives the tool a script on standard input, in printf's form; what it says and its status must be as said.
says() { # STATUS TEXT SCRIPT
    printf '%s\n' "$2" >"$room/said"
    # shellcheck disable=SC2059
    printf "$3" >"$room/script"
    gives "$1" "$room/said" "$relay" - <"$room/script"
}

# Two files must be equal.
same() { # FILE FILE WHAT
    cmp "$1" "$2"
    verdict $? "$3"
}

cargo build --offline --locked --release --quiet --manifest-path host/Cargo.toml || exit 1
cargo test --offline --locked --release --quiet --manifest-path host/Cargo.toml >"$room/tests" 2>&1
verdict $? "cargo test"
[ "$wrong" -eq 0 ] || cat "$room/tests"
relay=${CARGO_TARGET_DIR:-$PWD/host/target}/release/relay

. host/checks/crate.sh
. host/checks/install.sh
. host/checks/flood.sh
. host/checks/page.sh

sh host/link-c.sh "$library" "$room/example" host/example.c || exit 1
gives 0 host/example.out "$room/example"

gives 0 examples/first.out "$relay" examples/first.relay
gives 0 examples/handover.out "$relay" examples/handover.relay
gives 0 examples/cases.out "$relay" examples/cases.relay
gives 1 examples/refused.out "$relay" examples/refused.relay
gives 1 examples/accident.out "$relay" examples/accident.relay
gives 2 examples/bad.out "$relay" examples/bad.relay
# The same for a program to read, and that the place of the option is all one.
gives 0 examples/first.jsonl "$relay" --json examples/first.relay
gives 1 examples/refused.jsonl "$relay" examples/refused.relay --json
gives 1 examples/accident.jsonl "$relay" --json examples/accident.relay
gives 2 examples/bad.jsonl "$relay" --json examples/bad.relay
head -n 1 examples/accident.jsonl >"$room/said"
gives 1 "$room/said" "$relay" --json explain examples/accident.state
gives 0 host/src/bin/relay/help.txt "$relay" --help
cat >"$room/explained" <<'TEXT'
14: leaver has something pending
The place is the event. What to do: forward what is pending there, or drain, and let it leave then.
TEXT
gives 0 "$room/explained" "$relay" explain 14
echo 'there is no number "19" to explain: they are 0, 1 to 4, 6 to 18 and 20 to 26 (docs/RULES.md, 6)' >"$room/explained"
gives 2 "$room/explained" "$relay" explain 19
"$relay" explain 5 >"$room/wrote" && grep -q '^5: no longer answered$' "$room/wrote" && grep -q '20 to 26' "$room/wrote"
verdict $? "explain 5 says what took its place"

# What is wrong with a state: the refusal as a script would get it, then what `explain` says of the number.
explained() { # NUMBER FIRST-LINE
    { echo "$2" | broken; "$relay" explain "$1" | sed 1d; } >"$room/explained"
}
# A line as lines of at most 100 columns, broken at spaces.
broken() {
    awk '{
        line = $1
        for (i = 2; i <= NF; i++) {
            if (length(line) + 1 + length($i) > 100) { print line; line = $i } else line = line " " $i
        }
        print line
    }'
}
explained 25 "$(sed 's/^[^ ]* //' examples/accident.out)"
[ "$(wc -l <"$room/explained")" -gt 1 ] && tr '\n' ' ' <"$room/explained" | grep -q 'What to do: '
verdict $? "explain 25 says what to do"
gives 1 "$room/explained" "$relay" explain examples/accident.state
for number in $(sed -n 's/^### \([0-9]*\): .*/\1/p' docs/RULES.md); do
    "$relay" explain "$number"
done >"$room/wrote"
"$relay" explain examples/accident.state >>"$room/wrote"
[ "$(wc -l <"$room/wrote")" -gt 60 ] && ! grep '.\{101\}' "$room/wrote"
verdict $? "no line that explain prints has more than 100 columns"
head -c 5000 examples/accident.state >"$room/short"
explained 1 "$room/short is refused: state isn't 5,120 bytes (1): found 5000"
gives 1 "$room/explained" "$relay" explain "$room/short"
echo "$room/none can't be read: No such file or directory (os error 2)" >"$room/explained"
gives 2 "$room/explained" "$relay" explain "$room/none"
for words in explain "explain 14 15" "-v explain" "--json explain" "explain --json" "encode examples/first.relay" decode "--json decode x"; do
    case $words in
        -v*) echo "relay: these words make no sense together; relay --help shows what does" ;;
        *explain*) echo "relay: explain takes a number or a state file; relay --help shows it" ;;
        encode*) echo "relay: encode takes a script and a file for its records; relay --help shows it" ;;
        decode) echo "relay: decode takes a file of event records; relay --help shows it" ;;
        *) echo "relay: decode has no --json; relay --help shows what has" ;;
    esac >"$room/explained"
    # shellcheck disable=SC2086
    gives 2 "$room/explained" "$relay" $words
done

# Text to records and back, and a state through files.
examples=$PWD/examples docs=$PWD/docs host=$PWD/host
cd "$room" || exit 2
cat >lines <<'LINES'
join 0 pubs 0
join 1 subs 0,2-4 neighbours 0
subscribe 0 topics 31
unsubscribe 0 topics none
produce 0 5
skip
forward 0 5
LINES
"$relay" encode lines records
gives 0 lines "$relay" decode records
[ "$(wc -c <records)" -eq 112 ]
verdict $? "an event is 16 bytes"
{ cat lines; echo "events again"; echo "save state table"; echo "image image"; } | "$relay" >text.out
same records again "events writes what encode writes"
# What records can't say is refused, with the line; so are events whose message has got another row since.
echo "lost.relay:4: events before this line name this message, so event records can't say it" >want
printf 'join 0 pubs 0\nproduce 0 5\nforward 0 5\ntable 5 topic 1 origin 0\n' >lost.relay
gives 2 want "$relay" encode lost.relay lost.records
says 2 "standard input:6: the events can't be written: a message that they name has got another row since" \
    'join 0 pubs 0\nproduce 0 5\nforward 0 5\nleave 0\ntable 5 topic 1 origin 0\nevents lost.records\n'

# A sound state is said to be; each rule that a state can break has its number, place and detail, and words for what is found.
echo "state is sound: 2 peers present, 1 pair pending" >want
gives 0 want "$relay" explain state
unsound() { # NUMBER WORDS RECORD BYTE OCTAL [RECORD BYTE OCTAL]
    local number=$1 words=$2 bad="bad$1"
    shift 2
    cp state "$bad"
    while [ $# -gt 0 ]; do
        # shellcheck disable=SC2059
        printf "\\$3" | dd of="$bad" bs=1 seek=$((160 * $1 + $2)) conv=notrunc status=none
        shift 3
    done
    says 1 "standard input:1: $bad is refused: $words" "load $bad\n"
    "$relay" --json explain "$bad" | grep -q "^{\"kind\":\"refusal\",\"number\":$number,\"place\":[0-9]*,\"detail\":[0-9]*,"
    verdict $? "--json gives $number as a refusal"
    explained "$number" "$bad is refused: $words"
    gives 1 "$room/explained" "$relay" explain "$bad"
}
unsound 20 "presence byte or zero bytes (20, record 9): byte 0 is 2, expected 0 or 1" 9 0 2
unsound 21 "absent record not empty (21, record 31): desk 31 is absent (byte 0 is 0), yet it has subs 1; expected nothing" 31 8 2
unsound 22 "own neighbour (22, record 1): desk 1 lists itself (found neighbours 0,1, expected 0)" 1 12 3
unsound 23 "neighbour absent (23, record 0, neighbour 1): lists desk 1, which is absent (its byte 0 is 2, expected 1)" 1 0 2
unsound 24 "neighbour doesn't list back (24, record 0, neighbour 1): \
lists desk 1, which doesn't list desk 0 (its neighbours are none, expected 0 among them)" 1 12 0
unsound 25 "known subscribers wrong (25, record 1, topic 31): misses desk 0, a neighbour that subscribes (found none, expected 0)" \
    1 159 0 1 156 0
unsound 26 "pending also seen (26, record 0): message 5 is both pending and seen (found pending 5, seen 5; expected none in both)" \
    0 16 40 9 0 2

# Text that can't be read is named; a mark before the text, capitals and another spelling are not in the way.
says 2 "standard input:2: this isn't text: byte 7 of the file is 0xff" 'skip\nsk\377p\n'
says 2 'standard input:1: there is no command `\u{1b}[2J`; relay --help lists them' '\033[2J\n'
says 0 'done: 2 events accepted, nothing pending' '\357\273\277JOIN 0 Pubs 0\r\njoin 1 SUBS 0 neighbors 0\r\n'
says 2 "$(for line in $(seq 20); do echo "standard input:$line: there is no command \`explode\`; relay --help lists them"; done
    echo "standard input: and 5 more")" "$(for line in $(seq 25); do echo explode; done)"
echo 'relay: there is no option --frob; relay --help shows those there are' >want
gives 2 want "$relay" --frob lines

# A write is whole or not at all: with no room for a state the old file stays, and nothing is left beside it.
cp state kept
(ulimit -f 4; trap '' XFSZ; printf 'join 9\nsave kept\n' | "$relay") >full.out 2>&1
[ $? -eq 2 ] && cmp state kept && grep -q "kept can't be written" full.out && [ -z "$(ls kept.* 2>/dev/null)" ]
verdict $? "a write that fails leaves the old file"
ln -s kept linked
printf 'save linked\n' | "$relay" >link.out && [ -L linked ] && [ "$(wc -c <kept)" -eq 5376 ] && ! cmp -s -n 5120 state kept
verdict $? "a link is written where it points"
for one in one ./one; do
    says 2 "standard input:1: two names are for two files, and one is one; it can hold both: save one" "save one $one\\n"
done
says 1 "standard input:3: the row of a message that desks have can't change; message 5 (topic 0, origin 0): pending at 0, seen by nobody" \
    'join 0 pubs 0\nproduce 0 5\ntable 5 topic 1 origin 0\n'
printf 'run records\nsave state.run table.run\nload state table\nsave state.load table.load\n' | "$relay" >run.out
same state state.run "records run as the lines do"
same state state.load "load and save keep a state"
same table table.load "load and save keep a table"
printf 'load image\nsave image.load image.table\n' | "$relay" >image.out
same image image.load "an image is a state without links"
printf 'run records\nrun records\n' | "$relay" >twice.out 2>&1
grep -q '^standard input:2: records: join 0 pubs 0 is refused: joining peer already present (9, event 0)$' twice.out
verdict $? "a refused record is named"
cat >want <<'LINES'
{"kind":"run","file":"records","accepted":7,"produced":1,"forwards":1,"deliveries":1}
{"kind":"run","file":"records","accepted":0,"produced":0,"forwards":0,"deliveries":0}
{"kind":"refusal","number":9,"place":0,"detail":0,"words":"records: join 0 pubs 0 is refused: joining peer already present (9, event 0)"}
{"kind":"stopped","status":1,"script":"standard input","line":2,"words":"records: join 0 pubs 0 is refused: joining peer already present (9, event 0)"}
LINES
printf 'run records\nrun records\n' >twice
gives 1 want "$relay" --json - <twice
echo '{"kind":"sound","file":"state","peers":2,"pending_pairs":1,"table":false}' >want
gives 0 want "$relay" explain state --json
head -c 100 records >cut
printf 'run cut\n' | "$relay" 2>&1 | grep -q "cut: refused: event bytes aren't a multiple of 16 (3)$"
verdict $? "a cut record file is refused"
"$relay" decode cut 2>&1 | grep -q "^cut: event bytes aren't a multiple of 16 (3)$"
verdict $? "decode refuses a cut file"
{ cat "$examples/handover.relay"; printf 'picture five.svg message 5\ndot five.dot message 5\n'; } | "$relay" >pictures.out
[ "$(grep -c '<circle' five.svg)" -eq 3 ] && [ "$(grep -c '<path' five.svg)" -eq 2 ] && [ "$(grep -c ' -- ' five.dot)" -eq 2 ]
verdict $? "pictures have every peer and link"
{ grep -B 99 '^forward' "$examples/first.relay"; echo 'picture first.svg message 5'; } | "$relay" >first.out
same "$docs/first.svg" first.svg "the picture of docs/HOST.md"
"$relay" -v "$examples/first.relay" | grep -E '^(produce|forward)' >first.out
grep -q '^forward 0 5: to 1; ' first.out && ! grep -Fxv -f "$docs/HOST.md" first.out
verdict $? "-v says to whom a forward went, as docs/HOST.md has it"

# Right after a forward pictures have an arrow to each receiver: what only looks or is refused leaves them, all else ends them.
cat >arrows.relay <<'LINES'
join 0 pubs 0
join 1 subs 0 neighbours 0
join 2 subs 0 neighbours 0,1
join 3 neighbours 0
produce 0 5
forward 0 5
refused 13 forward 0 5
tally
run none.records
picture to.svg
dot to.dot message 5
dot other.dot message 6
run skip.records
picture later.svg
dot later.dot message 5
forward 1 5
picture nobody.svg
LINES
: >none.records
head -c 16 /dev/zero >skip.records
"$relay" arrows.relay >arrows.out
[ "$(grep -c '<path class="arrow"' to.svg)" -eq 2 ] && grep -q '<title>0 to 1: message 5<' to.svg && grep -q '<title>0 to 2: message 5<' to.svg &&
    grep -q '>message 5, delivered by the last forward<' to.svg
verdict $? "a picture has an arrow to each receiver"
sed 's/\\narrow: [^"]*//; s/ \[dir=forward, [^]]*\]//' to.dot | cmp - later.dot && [ "$(grep -c '^    0 -- [12] \[dir=forward, ' to.dot)" -eq 2 ]
verdict $? "dot has the same arrows, and differs in nothing else"
! grep -qE 'arrow|dir=' other.dot later.svg later.dot nobody.svg && [ -s nobody.svg ]
verdict $? "no arrow for another message, after another event, or to nobody"
grep -q '^tally of the events: 1 produced, 1 forward, 2 deliveries$' arrows.out
verdict $? "the tally has as many deliveries as receivers"

# 32 desks with many topics: no line of `show` has 120 columns.
for desk in $(seq 0 31); do
    echo "join $desk subs $(seq -s , $((desk % 3)) 2 31) neighbours $(seq -s , $((desk % 2)) 2 $((desk - 1)) | grep . || echo none)"
done >crowd.relay
{ cat crowd.relay; printf 'show\nshow message 0\nimage\n'; } | "$relay" >crowd.out
[ "$(grep -c '^[0-9]* *[0-9]*,' crowd.out)" -ge 64 ] && ! grep -q '.\{120\}' crowd.out
verdict $? "32 desks are shown in less than 120 columns"

# shellcheck source=host/test-tool.sh
. "$host/test-tool.sh" || exit 2

if [ "$wrong" -ne 0 ]; then
    echo "host: $wrong of $tried checks went wrong"
    exit 1
fi
echo "host: all $tried checks are right"
