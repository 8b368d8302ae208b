# shellcheck shell=bash disable=SC2154
# Part of host/test.sh: pages. What a page holds the crate's tests know; here are the command, and the page in a browser: stepped
# through by page.js, which writes down what is drawn. Begins and ends in the repository's folder.

: >"$room/want"
gives 0 "$room/want" "$relay" page examples/handover.relay "$room/handover.html"
[ "$(head -n 1 "$room/handover.html")" = "<!DOCTYPE html>" ] && [ "$(tail -n 1 "$room/handover.html")" = "</html>" ] &&
    ! grep -qiE 'https?:|src=|href|@import|url\(' "$room/handover.html"
verdict $? "a page is whole, and names nothing to fetch"
for words in page "page examples/first.relay" "--json page examples/first.relay $room/x.html" "page examples/first.relay $room/x.htm"; do
    case $words in
        --json*) echo "relay: page has no --json; relay --help shows what has" ;;
        *.htm) echo "a page is an HTML file, and \`$room/x.htm\` doesn't end in .html" ;;
        *) echo "relay: page takes a script and a file for the page, FILE.html; relay --help shows it" ;;
    esac >"$room/want"
    # shellcheck disable=SC2086
    gives 2 "$room/want" "$relay" $words
done
printf 'join 0\nsave %s\nimage %s\n' "$room/unwritten" "$room/unwritten" >"$room/script.html"
cp "$room/script.html" "$room/script.kept"
echo "the page would take the place of the script, $room/script.html; give another name" >"$room/want"
gives 2 "$room/want" "$relay" page "$room/script.html" "$room/script.html"
same "$room/script.html" "$room/script.kept" "page leaves the script"
: >"$room/want"
gives 0 "$room/want" "$relay" page "$room/script.html" "$room/other.html"
[ ! -e "$room/unwritten" ]
verdict $? "page writes no other file"
gives 2 examples/bad.out "$relay" page examples/bad.relay "$room/none.html"
[ ! -e "$room/none.html" ]
verdict $? "bad text makes no page"

# A record file is played event by event, up to the one that is refused.
printf 'join 0 pubs 0\njoin 1 subs 0 neighbours 0\nproduce 0 5\nforward 0 5\n' >"$room/lines"
"$relay" encode "$room/lines" "$room/records"
printf 'run %s\nrun %s\n' "$room/records" "$room/records" >"$room/twice.relay"
echo "$room/twice.relay:2: $room/records: join 0 pubs 0 is refused: joining peer already present (9, event 0)" >"$room/want"
gives 1 "$room/want" "$relay" page "$room/twice.relay" "$room/twice.html"
[ "$(grep -o '"line":[0-9]*,"source"' "$room/twice.html" | tr -dc '0-9\n' | tr '\n' ' ')" = "0 1 1 1 1 2 " ]
verdict $? "a page has a step for each event of a record file"
grep -q '"text":"[^"]*/records: forward 0 5: to 1; pending at 1, seen by 0","refused":false,"round":0,"deliveries":\[\[0,1,5\]\]' "$room/twice.html"
verdict $? "a page has the receivers of a record's forward"

# Two messages at once, by the lines of the script, and the same with what `relay --json` says at each step. A drain by as many
# forwards as are pending is one round.
cat >"$room/play.relay" <<'LINES'
table 9 topic 1 origin 3
join 0 pubs 0
join 1 subs 0 neighbours 0
join 2 subs 0,1 neighbours 1
join 3 subs 0 pubs 1 neighbours 2
say Off they go: <b>&amp;</b></script>
produce 0 5
produce 3 9
drain
refused 12 produce 0 5
leave 3
forward 0 5
LINES
asked() { # MESSAGE: the script with `show` behind each step
    awk -v shows="show\nshow message $1" 'BEGIN { print shows }
        /^say/ { next }
        /^drain/ { for (i = split("2 2 1 1", rounds, " "); i > 0; i--) print "drain " rounds[5 - i] "\n" shows; next }
        /^forward/ { print shows; next }
        { print $0 "\n" shows }' "$room/play.relay"
}
"$relay" examples/refused.relay >"$room/want" 2>&1
sed -i '/^message/d' "$room/want"
gives 1 "$room/want" "$relay" page examples/refused.relay "$room/refused.html"
grep -q '"text":"leave 0 is refused: leaver has something pending (14, event 3); pending at peer 0: 5","refused":true' "$room/refused.html"
verdict $? "a page ends with the refusal"
echo "$room/play.relay:12: forward 0 5 is refused: message not pending at this peer (13, event 7); pending at peer 0: none" >"$room/want"
gives 1 "$room/want" "$relay" page "$room/play.relay" "$room/play.html"

# Loads a page with page.js behind it, and keeps what that writes.
play() { # PAGE FRAGMENT
    { sed '/^<\/body>/,$d' "$1"; echo '<script>'; cat host/checks/page.js; echo '</script>'; echo '</body></html>'; } >"$room/driven.html"
    timeout 120 "$browser" --headless --no-sandbox --disable-gpu --disable-dev-shm-usage --user-data-dir="$room/browser" \
        --window-size=1280,900 --virtual-time-budget=20000 --dump-dom "file://$room/driven.html#$2" 2>"$room/browser.err" |
        sed -n '/^WRITTEN$/,/^WRITTEN$/p' | sed '/^WRITTEN$/d; s/&lt;/</g; s/&gt;/>/g; s/&amp;/\&/g' >"$room/played"
    [ -s "$room/played" ] || cat "$room/browser.err"
}

browser=$(command -v chromium || command -v chromium-browser || command -v google-chrome)
if [ -z "$browser" ]; then
    echo "host: left out: no browser, so no page was looked at in one"
else
    for message in 5 9; do
        play "$room/play.html" "message=$message"
        asked $message | "$relay" --json - | sed -n 's/,"known":\[\({[^}]*},\{0,1\}\)*\]//g; /^{"kind":"\(network\|message\)"/p' >"$room/want"
        grep '^{' "$room/played" >"$room/drawn"
        [ "$(wc -l <"$room/want")" -eq 30 ] && diff -u "$room/want" "$room/drawn"
        verdict $? "a browser shows the engine's states, message $message"
        grep -v '^{' "$room/played" >"$room/drawn"
        same "host/checks/page-$message.out" "$room/drawn" "a browser shows what happened, message $message"
    done
    # A forward by itself: an arrow to each of the receivers that --json tells, and none at the other steps.
    cat >"$room/forwards.relay" <<'LINES'
join 0 pubs 0
join 1 subs 0 neighbours 0
join 2 subs 0 neighbours 0,1
join 3 subs 0 neighbours 1,2
produce 0 5
forward 0 5
forward 1 5
forward 2 5
LINES
    "$relay" page "$room/forwards.relay" "$room/forwards.html"
    play "$room/forwards.html" message=5
    sed -n 's/^arrows *//p' "$room/played" | tail -n 8 >"$room/drawn"
    "$relay" --json -v "$room/forwards.relay" | sed -n 's/.*"event":"[a-z]* \([0-9]*\).*"receivers":\[\(.*\)\]}/\1 \2/p' |
        awk '{ n = split($2, to, ","); line = ""; for (i = 1; i <= n; i++) line = line (i > 1 ? " " : "") $1 "-" to[i] ":5"; print line }' >"$room/want"
    [ "$(tr '\n' '/' <"$room/want")" = "/////0-1:5 0-2:5/1-3:5//" ] && diff -u "$room/want" "$room/drawn"
    verdict $? "a browser shows an arrow to each receiver of a forward"
    {
        echo "join 0 subs 0 pubs 0"
        for desk in $(seq 31); do echo "join $desk subs 0 neighbours 0-$((desk - 1))"; done
        printf 'produce 0 5\ndrain\n'
    } >"$room/full.relay"
    "$relay" page "$room/full.relay" "$room/full.html"
    play "$room/full.html" step=0
    [ "$(grep -c '^absent .*, unreadable 0$' "$room/played")" -eq 36 ] && grep -q '^all: unreadable 0$' "$room/played"
    verdict $? "32 desks fully linked: all words can be read"
    [ "$(sed -n 's/^arrows *//p' "$room/played" | sed -n 35p | wc -w)" -eq 31 ] &&
        [ "$(sed -n 's/^links //p' "$room/played" | tail -n 1 | wc -w)" -eq 496 ] &&
        [ "$(sed -n 's/^circles //p' "$room/played" | tail -n 1)" = "0:0 $(seq -s ' ' -f '%g:1' 31)" ]
    verdict $? "32 desks fully linked: an arrow for each delivery, a circle for each desk"
fi
