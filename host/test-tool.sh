# shellcheck shell=bash disable=SC2154
# More of test.sh, which reads this file in a folder of its own: states with their tables, drains as records, names in quotes, lost
# output, and lines as they are typed.

# State and table go together: in one file, the one behind the other, or in two. A message under way reaches the same desks again.
cat >flight.relay <<'LINES'
table 5 topic 1 origin 0
join 0 pubs 1
join 1 subs 0 neighbours 0
join 2 subs 1 neighbours 0
save quiet.state quiet.table
produce 0 5
save flight
save flight.state flight.table
LINES
"$relay" flight.relay >flight.out
cat flight.state flight.table | cmp - flight && [ "$(wc -c <flight)" -eq 5376 ]
verdict $? "save writes state and table into one file"
arrived='drain 2048: 2 forwards, 2 rounds, nothing is pending
message 5 (topic 1, origin 0): pending nowhere, seen by 0,2
done: 0 events accepted, nothing pending'
for files in flight "flight.state flight.table"; do
    says 0 "$arrived" "load $files\ndrain\nshow message 5\n"
done
says 1 "standard input:2: flight.state is a state without its table, and desks in it have message 5; load both: load flight.state TABLE" \
    'table 5 topic 1 origin 0\nload flight.state\ndrain\n'
says 0 'quiet.state has no table; the one at hand stays: every message has topic 0 and origin 0
done: 0 events accepted, nothing pending' 'load quiet.state\n'
says 0 'quiet.state has no table; the one at hand stays: every message but 8 has topic 0 and origin 0
message 8 (topic 1, origin 2): nobody has it
blank: what the table said of message 8 is gone; every message has topic 0 and origin 0
done: 0 events accepted, nothing pending' 'table 8 topic 1 origin 2\nload quiet.state\nshow message 8\nblank\n'
says 0 'flight: its table has other rows for messages 5,8 than before
done: 0 events accepted, 1 pair pending' 'table 8 topic 1 origin 2\nload flight\n'
says 2 "standard input:1: flight has its table in it, so no other is taken: load flight" 'load flight flight.table\n'
echo "flight is sound: 3 peers present, 1 pair pending; its table is with it" >want
gives 0 want "$relay" explain flight
{ cat flight.state; head -c 252 flight.table; printf '\0\0\0\1'; } >row63
row="a message row has topic or origin above 31, or bytes 2-3 not zero (4, row 63)"
says 1 "standard input:1: row63's table is refused: $row" 'load row63\n'
explained 4 "row63 is refused: its table: $row"
gives 1 "$room/explained" "$relay" explain row63

# The same for a program: what becomes of the table is a note, a refused state or table a refusal.
cat >want <<'LINES'
{"kind":"note","words":"quiet.state has no table; the one at hand stays: every message but 8 has topic 0 and origin 0"}
{"kind":"event","place":0,"event":"leave 2","deliveries":0,"receivers":[]}
{"kind":"note","words":"flight: its table has other rows for messages 5,8 than before"}
{"kind":"event","place":0,"event":"forward 0 5","deliveries":1,"receivers":[2]}
{"kind":"note","words":"blank: what the table said of message 5 is gone; every message has topic 0 and origin 0"}
{"kind":"refusal","number":4,"place":63,"detail":0,"words":"row63's table is refused: ROW"}
{"kind":"stopped","status":1,"script":"standard input","line":7,"words":"row63's table is refused: ROW"}
LINES
sed -i "s/ROW/$row/" want
printf '%s\n' 'table 8 topic 1 origin 2' 'load quiet.state' 'leave 2' 'load flight' 'forward 0 5' blank 'load row63' >noted
gives 1 want "$relay" --json -v - <noted
echo "{\"kind\":\"refusal\",\"number\":4,\"place\":63,\"detail\":0,\"words\":\"row63 is refused: its table: $row\"}" >want
gives 1 want "$relay" --json explain row63
echo '{"kind":"sound","file":"flight","peers":3,"pending_pairs":1,"table":true}' >want
gives 0 want "$relay" --json explain flight
words="flight.state is a state without its table, and desks in it have message 5; load both: load flight.state TABLE"
echo "{\"kind\":\"stopped\",\"status\":1,\"script\":\"standard input\",\"line\":1,\"words\":\"$words\"}" >want
echo 'load flight.state' >noted
gives 1 want "$relay" --json - <noted

cp flight.state kept.state
says 2 "standard input:2: none/table can't be written: No such file or directory (os error 2)" 'join 9\nsave kept.state none/table\n'
same flight.state kept.state "a state whose table can't be written isn't written either"
says 2 "standard input:2: /dev/full can't be written: No space left on device (os error 28)" 'join 9\nsave kept.state /dev/full\n'
same flight.state kept.state "nor if the table is lost on its way"

# A drain as the forwards that it makes: they end in the same state.
{ cat flight.relay; printf 'table 9 topic 1 origin 0\nproduce 0 9\ndrain 1\nsubscribe 1 topics 1\ndrain\nsave drained\n'; } >drain.relay
echo "drain.relay:11: a drain is no event (--expand writes its forwards instead), so event records can't say it" >want
gives 2 want "$relay" encode drain.relay drain.records
"$relay" drain.relay >drain.out && mv drained drained.once
: >want
gives 0 want "$relay" encode --expand drain.relay drain.records
[ ! -e drained ]
verdict $? "encode writes no other file"
printf 'table 5 topic 1 origin 0\ntable 9 topic 1 origin 0\nrun drain.records\nsave replayed\n' | "$relay" >replay.out
same drained.once replayed "the forwards of a drain end where the drain does"
grep -q '^drain.records: 11 events accepted$' replay.out
verdict $? "a drain is as many records as it makes forwards"
printf 'join 0 pubs 0\nproduce 0 5\ndrain\nleave 0\ntable 5 topic 1 origin 0\nskip\n' >lost.relay
echo "lost.relay:5: events before this line name this message, so event records can't say it" >want
gives 2 want "$relay" encode --expand lost.relay lost.records
printf 'save a\nload a\n' >lost.relay
echo "lost.relay:2: a is what a line before would write, and encoding a script writes no such file" >want
gives 2 want "$relay" encode --expand lost.relay lost.records
cp lines kept.relay
echo "the records would take the place of the script, ./kept.relay; give another name" >want
gives 2 want "$relay" encode ./kept.relay kept.relay
same lines kept.relay "encode leaves the script"

# Names in quotes.
says 0 'a b has no table; the one at hand stays: every message has topic 0 and origin 0
done: 0 events accepted, nothing pending' 'save "a b" "#""t"\nload "a b" # "as it was\n'
[ -s "a b" ] && [ -s '#"t' ]
verdict $? "a name in quotes may have spaces"
cp flight.state "in flight"
says 1 'standard input:1: in flight is a state without its table, and desks in it have message 5; load both: load "in flight" TABLE' \
    'load "in flight"\n'
echo "relay: an argument isn't text" >want
gives 2 want "$relay" explain $'\377'
says 2 'standard input:1: the quote before `a b` is never closed' 'load "a b\n'

# Output that is lost is said, and has a status of its own; a reader that has gone away is not worth a word.
lost="the output is lost: No space left on device (os error 28)"
loses() { # WORDS COMMAND...
    local words=$1
    shift
    "$@" 2>lost.err >/dev/full
    [ $? -eq 3 ] && [ "$(cat lost.err)" = "$words" ]
    verdict $? "lost output: $*"
}
loses "$lost" "$relay" --help
loses "$examples/first.relay:5: $lost" "$relay" "$examples/first.relay"
loses "$lost" "$relay" decode records
loses "$lost" "$relay" explain bad25
loses "$lost" "$relay" -i
loses "$examples/first.relay:5: $lost" "$relay" --json "$examples/first.relay"
loses "$lost" "$relay" --json explain 14
"$relay" --frob 2>/dev/full
[ $? -eq 2 ]
verdict $? "a message that is lost leaves the status"
exec 7> >(:)
wait $!
"$relay" "$examples/first.relay" 2>pipe.err >&7
[ $? -eq 3 ] && [ ! -s pipe.err ]
verdict $? "a broken pipe ends the tool quietly"
"$relay" --json "$examples/first.relay" 2>pipe.err >&7
[ $? -eq 3 ] && [ ! -s pipe.err ]
verdict $? "so with --json"
exec 7>&-

# Lines as they are typed: each says what it did, a bad one costs itself only, and changes are taken back.
cat >want <<'TEXT'
A blank network. `help` lists the commands, `undo` takes a line back, `quit` (or Ctrl-D) ends this.
relay> join 0 pubs 0: 1 peer present, linked to none
relay> there is no command `jion`; is it `join`?
relay> produce 0 5: pending at 0, seen by nobody
relay> written: "a b"
relay> forward 0 5: to nobody; pending nowhere, seen by 0
relay> taken back: forward 0 5; 1 peer present, 1 pair pending
relay> taken back: produce 0 5; 1 peer present, nothing pending
relay> 1 peer present, 1 pair pending
relay> produce 0 5 is refused: message not new (12, event 0); pending at 0, seen by nobody
relay> taken back: load "a b"; 1 peer present, nothing pending
TEXT
printf 'relay> ' >>want
printf '%s\n' 'join 0 pubs 0' 'jion 1' 'produce 0 5' 'save "a b"' 'forward 0 5' undo undo 'load "a b"' 'produce 0 5' undo quit skip >typed
gives 0 want "$relay" -i <typed
printf '%s\n' 'join 0 pubs 0' 'produce 0 5' skip undo drain undo 'events undone' | "$relay" -i >undone.out
printf 'join 0 pubs 0\nproduce 0 5\n' >want
gives 0 want "$relay" decode undone
head -n 6 arrows.relay >typed
printf '%s\n' 'dot one.dot' skip 'dot none.dot' undo drain 'dot drained.dot' undo 'dot again.dot' >>typed
"$relay" -i <typed >typed.out && grep -q '^relay> forward 0 5: to 1,2; pending at 1,2, seen by 0$' typed.out && cmp one.dot again.dot &&
    grep -q 'dir=forward' one.dot && ! grep -q 'dir=forward' none.dot drained.dot
verdict $? "what is taken back brings the arrows of the forward before it"
cat records records >twice
printf 'run twice\nundo\n' | "$relay" -i | grep -q 'taken back: run twice; 0 peers present, nothing pending$'
verdict $? "a run that is refused on its way is taken back whole"
says 2 'standard input:1: `undo` is for interactive use (relay -i), alone on its line' 'undo\n'
