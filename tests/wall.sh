#!/bin/sh
# Tests ./wall: its options; the pictures of named calls, and of every call of some logs against what --display writes; the alarm; a log
# that grows, is begun anew, replaced, rotated, or away; a terminal; the page, with hostile bytes in the log, and in a real browser, where
# it is stepped to named calls by its own controls; its layout on four screens; a live page. Wrong programs, a wrong page and mistakes in
# the scripts must be found. The last line is 'N passed, M failed'. The browser is Chromium of Debian's
# packages, installed where it is missing and may be; where it cannot be had, a line 'NOT RUN: ..' says so.
#
#   sh tests/wall.sh [write]     write: writes the pictures in tests/wall anew, to be read before they are committed
#
# WALL_PLAYER=PROGRAM plays the logs by another program, as second/arbiter2.
. "$(dirname "$0")/begin.sh"
unset NO_COLOR
WALL_PLAYER=${WALL_PLAYER:-$root/arbiter-log}
export WALL_PLAYER
right=$WALL_PLAYER
mkdir "$work/tmp" && TMPDIR=$work/tmp && export TMPDIR || exit 2     # where ./wall works: it must leave nothing

make -C second -s ${CC:+CC="$CC"} generate >"$work/made" 2>&1 || { cat "$work/made"; die "second/generate does not build"; }
second/generate 1 300 display 4 >"$work/four.log" && second/generate 2 300 display 8 >"$work/eight.log" &&
    second/generate 3 300 cycles 4 >"$work/cycles.log" && second/generate 4 300 mix 8 >"$work/mix.log" || exit 2
"$right" --show --display <second/sample.log >"$work/said" 2>&1 && grep -q '^E1' "$work/said" || {
    tail -n 5 "$work/said"
    die "$right does not play a log with --show --display"
}

# ---- Options

# refused WORDS..: status 2, a message, and nothing on standard output.
wall=./wall
refused() {
    $wall "$@" <second/sample.log >"$work/out" 2>"$work/err"
    status=$?
    [ $status -eq 2 ] && [ ! -s "$work/out" ] && [ -s "$work/err" ] && return
    echo "status $status"
    cat "$work/out" "$work/err"
    return 1
}

told() {
    ./wall "$1" </dev/null >"$work/out" 2>"$work/err" && [ ! -s "$work/err" ] && grep -q "$2" "$work/out"
}

no_player() {
    WALL_PLAYER=$work/none
    refused
    status=$?
    WALL_PLAYER=$right
    return $status
}

check "--help" told --help '^  ./wall .*--follow FILE'
check "--version" told --version "^wall $(version | sed 's/[.]/[.]/g')\$"
for words in --loud -h x '' '--channels' '--channels 5' '--channels 48' '--call' '--call 0' '--call 01' '--call x' '--call -1' '--call 6' \
    '--call 9999999999' '--pause' '--pause x' '--pause 1.1.1' '--pause 1 --call 2' '--pause 1 --html' '--follow' '--follow /none' \
    '--follow tests' '--follow second/sample.log --html' '--follow second/sample.log --call 2' '--html --call 6' '--html --loud' \
    '--html x' '--alarm' '--alarm x' '--alarm 128' '--alarm -129' '--alarm 1-' '--names' '--names /none' '--goes-on' '--calls 5' \
    '--follow second/sample.log --html tests' '--follow second/sample.log --html /none/x' "--names second/sample.log"; do
    check "refused: $words" refused ${words:-''}
done
check "refused: a player that is not there" no_player

# A line of names that is none is named.
wrong_name() {
    printf 'hall 0 Departures\n%s\n' "$1" >"$work/names" && refused --names "$work/names" && grep -q 'line 2: ' "$work/err"
}

for line in 'hall 4 Lounge' 'key 0 Nobody' 'key 65536 Nobody' 'hall 1' 'halls 1 Lounge' 'hall x Lounge'; do
    check "refused: a name '$line'" wrong_name "$line"
done

# failing WORDS.. and the redirections of both: status 1 and a message.
failing() {
    [ $? -eq 1 ] && [ -s "$work/err" ]
}

unread() {
    $wall --call 2 <. >"$work/out" 2>"$work/err"
    failing && [ ! -s "$work/out" ]
}

unwritten() {
    $wall --call 2 <second/sample.log >/dev/full 2>"$work/err"
    failing || return
    $wall --html <second/sample.log >/dev/full 2>"$work/err"
    failing || return
    $wall --call 2 <second/sample.log >&- 2>"$work/err"
    failing
}

check "a log that cannot be read: status 1" unread
[ ! -c /dev/full ] || check "a picture that cannot be written: status 1" unwritten

# ---- Pictures

# picture NAME CALL LOG WORDS..: the picture is the one in tests/wall.
picture() {
    expected=tests/wall/$1-$2.txt
    call=$2
    log=$3
    shift 3
    $wall --call "$call" "$@" <"$log" >"$work/picture" || return
    [ "$writes" = no ] || cp "$work/picture" "$expected"
    diff "$expected" "$work/picture"
}

# The same picture among those of all calls.
among_all() {
    awk -v RS= 'NR == 1' tests/wall/sample-4.txt >"$work/expected"
    ./wall <second/sample.log | awk -v RS= '/^AFTER CALL 4 /' | diff "$work/expected" -
}

# A picture has 24 lines of at most 79 characters; between two there is an empty one.
sized() {
    ./wall --channels 8 <"$work/mix.log" >"$work/pictures" && awk '
        length($0) > 79 || /[^ -~]/ { print NR ": " $0; wrong = 1 }
        /^AFTER CALL/ { wrong = wrong || NR % 25 != 1; count++ }
        END { exit wrong || count != 300 || NR != 25 * 300 - 1 }' "$work/pictures"
}

# alike BOARD ROOM LOG: every picture shows what the right program writes there. The logs have 300 lines.
alike() {
    $wall --alarm none --channels "$1" <"$3" >"$work/pictures" && awk -f tests/wall/picture.awk "$work/pictures" >"$work/seen" &&
        "$right" --channels "$1" --show --display <"$3" | awk -v board="$1" -v room="$2" -f tests/wall/program.awk >"$work/expected" &&
        [ "$(grep -c '^call' "$work/expected")" -eq 300 ] && diff "$work/expected" "$work/seen"
}

# wrong NAME SED: a program whose output is altered so is found.
wrong() {
    printf '#!/bin/sh\n"%s" "$@" | sed "%s"\n' "$right" "$2" >"$work/wrong" && chmod +x "$work/wrong" || exit 2
    WALL_PLAYER=$work/wrong
    if alike 4 18 "$work/four.log" >"$work/said" 2>&1; then
        failed=$((failed + 1))
        echo "FAILED: not found: $1"
    else
        passed=$((passed + 1))
    fi
    WALL_PLAYER=$right
}

cut_short() {
    printf '#!/bin/sh\n"%s" "$@" | sed 40q\n' "$right" >"$work/wrong" && chmod +x "$work/wrong" || exit 2
    WALL_PLAYER=$work/wrong
    ./wall <"$work/four.log" >"$work/out" 2>"$work/err"
    status=$?
    WALL_PLAYER=$right
    [ $status -eq 2 ] && grep -q '^wall: line [0-9]* of the log' "$work/err"
}

no_calls() {
    ./wall </dev/null >"$work/out" && [ "$(cat "$work/out")" = 'The log has no calls.' ]
}

writes=no
[ "${1:-}" != write ] || writes=yes
check "the picture of document 01's log" picture sample 4 second/sample.log
check "the picture of a cycle's end" picture cycles 19 scripts/explained/cycles.log
check "the picture of a refusal" picture words 18 scripts/explained/words.log
check "the picture of a malformed line" picture words 46 scripts/explained/words.log
check "the picture of a call in two lines" picture words 32 scripts/explained/words.log
check "the picture of two desks" picture desks 12 scripts/explained/desks.log
check "the picture of eight channels" picture eight 4 scripts/explained/eight.log --channels 8
check "one picture is the one among all" among_all
check "the size of pictures" sized
check "each picture of four channels shows what --display writes" alike 4 18 "$work/four.log"
check "each picture of eight channels shows what --display writes" alike 8 10 "$work/eight.log"
check "each picture of cycles shows what --display writes" alike 4 18 "$work/cycles.log"
check "each picture of a mixed log shows what --display writes" alike 8 10 "$work/mix.log"
wrong "a request held that is not" 's/^\(E1....\)0000$/\10100/'
wrong "another number of writes" 's/^E002/E003/'
wrong "another number of requests that name a channel" 's/^\(E0..\)02/\103/'
wrong "another order" 's/^E1\(..\)7D/E1\10D/'
wrong "no lock" 's/^\(B0........\)01/\100/'
wrong "other looks" 's/^\(E0.*\)1$/\12/'
check "a program that ends early is told" cut_short

# ---- The alarm

# Five calls: key 1 has all four channels at 120; B's request 40 wants two of them at 110, and waits.
printf '%s\n' F000000000000000 20050100780001010F 0306000100000100 F020000000000000 202800006E000002030C >"$work/alarm.log"
printf '%s\n' '# the halls' 'hall 0 Departures' 'hall 1 Lounge' 'key 1 Harbour office' >"$work/names"

# Each picture has a band exactly where the first that waits has precedence 100 or more, and names it.
alarmed() {
    $wall <"$work/four.log" | awk '/^AFTER/ { print "call " $3 } /^ALARM: / { print "alarm " $2 " " $4 " since " $8 }' >"$work/seen"
    "$right" --show --display <"$work/four.log" | awk -v board=4 -v room=64 -f tests/wall/program.awk | awk '
        $1 == "call" { print "call " $2; first = 1 }
        $1 == "waits" { if (first && $4 >= 100) print "alarm " $2 "\047s " $3 " since " $8; first = 0 }' >"$work/expected"
    [ "$(grep -c alarm "$work/expected")" -gt 50 ] && diff "$work/expected" "$work/seen"
}

no_alarm() {
    ! $wall --call 5 --alarm 111 <"$work/alarm.log" | grep ALARM && ! $wall --call 5 --alarm none <"$work/alarm.log" | grep ALARM &&
        $wall --call 5 --alarm 110 <"$work/alarm.log" | grep -q ALARM && ! $wall --call 4 --alarm -128 <"$work/alarm.log" | grep ALARM
}

check "the picture of an alarm" picture alarm 5 "$work/alarm.log"
check "the picture of an alarm with names" picture names 5 "$work/alarm.log" --names "$work/names"
check "the picture of an alarm that a lock holds" picture held 4 second/sample.log --alarm 20
check "a band exactly where a request of precedence 100 waits" alarmed
check "the alarm's precedence" no_alarm
check "a log without calls" no_calls

# ---- A log that grows

# until_seen PATTERN COUNT: within ten seconds the pictures so far have so many such lines.
until_seen() {
    tries=0
    while [ "$(grep -c "$1" "$work/followed")" -ne "$2" ]; do
        tries=$((tries + 1))
        [ $tries -lt 50 ] || { echo "not $2 times: $1"; tail -n 26 "$work/followed"; return 1; }
        sleep 0.2
    done
}

grows() {
    head -n 3 second/sample.log >"$work/grows" && : >"$work/followed" || return
    $wall --follow "$work/grows" >"$work/followed" 2>"$work/err" &
    follower=$!
    until_seen '^AFTER CALL 3 ' 1 && printf '2007400014' >>"$work/grows" && sleep 0.5 && until_seen '^AFTER' 1 &&
        printf '00000103\n0908010300' >>"$work/grows" && until_seen '^AFTER CALL 4 ' 1 && printf '000100\n' >>"$work/grows" &&
        until_seen '^AFTER CALL 5 ' 1 && until_seen '^AFTER' 3 &&
        head -n 1 second/sample.log >"$work/grows" && until_seen '^AFTER CALL 1 ' 1 &&
        sed -n 2,20p scripts/explained/words.log >"$work/grows" && until_seen '^AFTER CALL 19 ' 1
    status=$?
    kill "$follower" 2>/dev/null
    wait "$follower"
    [ $status -eq 0 ] || return
    ./wall <second/sample.log | sed -n '/^AFTER CALL 3 /,$p' >"$work/expected"
    sed '/^AFTER CALL 1 /,$d' "$work/followed" | sed '$d' | diff "$work/expected" -
}

interrupted() {
    head -n 3 second/sample.log >"$work/grows"
    timeout --preserve-status -s INT 2 ./wall --follow "$work/grows" >"$work/followed" 2>"$work/err"
    status=$?
    [ $status -eq 0 ] && [ ! -s "$work/err" ] && [ "$(grep -c '^AFTER CALL 3 ' "$work/followed")" -eq 1 ] && return
    echo "status $status"
    cat "$work/err" "$work/followed"
    return 1
}

# A player that was at work when ./wall ended comes to its end.
left_nothing() {
    tries=0
    until [ -z "$(ls -A "$TMPDIR")" ]; do
        tries=$((tries + 1))
        [ $tries -lt 20 ] || { ls -A "$TMPDIR"; return 1; }
        sleep 0.5
    done
}

# following WORDS..: ./wall follows $work/grows in the background.
following() {
    : >"$work/followed"
    $wall --follow "$work/grows" "$@" >"$work/followed" 2>"$work/err" &
    follower=$!
}

# stopped STATUS
stopped() {
    kill "$follower" 2>/dev/null
    wait "$follower"
    return "$1"
}

# told_soon PATTERN: within ten seconds standard error has it.
told_soon() {
    tries=0
    until grep -q "$1" "$work/err"; do
        tries=$((tries + 1))
        [ $tries -lt 50 ] || { echo "not told: $1"; cat "$work/err"; return 1; }
        sleep 0.2
    done
}

# Replaced by one of the same length, in place and by another file; away for a moment; each is told.
replaced() {
    sed -n 1,4p second/sample.log >"$work/grows" && sed 's/^200501000A/2005010009/' "$work/grows" >"$work/other" && following
    until_seen '^AFTER CALL 4 ' 1 && sleep 1.1 && cat "$work/other" >"$work/grows" && until_seen '^AFTER CALL 4 ' 2 &&
        told_soon 'begun anew' && tail -n 24 "$work/followed" | grep -q '^  0      1      9 ' &&
        sed 's/^200501000A/2005010008/' second/sample.log | head -n 4 >"$work/other" && mv "$work/other" "$work/grows" &&
        until_seen '^AFTER CALL 4 ' 3 && tail -n 24 "$work/followed" | grep -q '^  0      1      8 ' &&
        mv "$work/grows" "$work/other" && told_soon 'THE LOG IS AWAY SINCE' && mv "$work/other" "$work/grows" &&
        told_soon 'was away from' &&
        tail -n 1 second/sample.log >>"$work/grows" && until_seen '^AFTER CALL 5 ' 1
    stopped $?
}

# Rotated: with --goes-on the new log goes on, and what the old one was given at the end is not lost.
rotated() {
    head -n 3 second/sample.log >"$work/grows" && following --goes-on
    until_seen '^AFTER CALL 3 ' 1 && sed -n 4p second/sample.log >>"$work/grows" && mv "$work/grows" "$work/grows.1" &&
        tail -n 1 second/sample.log >"$work/grows" && until_seen '^AFTER CALL 4 ' 1 && until_seen '^AFTER CALL 5 ' 1 &&
        told_soon 'was rotated at'
    stopped $? || return
    ./wall <second/sample.log | sed -n '/^AFTER CALL 3 /,$p' | diff - "$work/followed"
}

# Of a long log the last calls alone are shown, and what went before is in their picture: who waits since when, what plays where.
long_log() {
    second/generate 6 1700 "$1" >"$work/grows" && lines=$(wc -l <"$work/grows") && following
    until_seen "^AFTER CALL $lines " 1
    stopped $? || return
    ./wall --call $lines <"$work/grows" | sed -n 1,24p >"$work/expected"
    diff "$work/expected" "$work/followed"
}

# Every line is played once: the player keeps account.
once() {
    printf '#!/bin/sh\ntee -a "%s" | "%s" "$@"\n' "$work/given" "$right" >"$work/counts" && chmod +x "$work/counts" &&
        : >"$work/given" || return
    head -n 900 "$work/long.log" >"$work/grows" && WALL_PLAYER=$work/counts && following
    until_seen '^AFTER CALL 900 ' 1 && sed -n 901,903p "$work/long.log" >>"$work/grows" && until_seen '^AFTER CALL 903 ' 1 &&
        sed -n 904p "$work/long.log" >>"$work/grows" && until_seen '^AFTER CALL 904 ' 1
    stopped $?
    status=$?
    WALL_PLAYER=$right
    [ $status -eq 0 ] && cmp "$work/grows" "$work/given"
}

# told_age SECONDS WORDS FILE: behind these words FILE tells that many seconds, and no more beside than have passed since $began: a slow
# machine shows a log that was last written 70 seconds ago some seconds later.
told_age() {
    told=$(sed -n "s/.*$2 \([0-9][0-9]*\) s.*/\1/p" "$3" | head -n 1)
    passed_by=$(($(date +%s) - began))
    [ -n "$told" ] && [ "$told" -ge "$1" ] && [ "$told" -le $(($1 + passed_by)) ] && return
    echo "told behind '$2': ${told:-nothing}; it is $1, and $passed_by s have passed"
    return 1
}

# A log that was last written 70 seconds ago.
silent() {
    began=$(date +%s)
    cp second/sample.log "$work/grows" && touch -d '70 seconds ago' "$work/grows" && following
    until_seen '^AFTER CALL 5 ' 1 && told_soon 'NO NEWS FOR [0-9]* s' && told_age 70 'NO NEWS FOR' "$work/err"
    stopped $?
}

second/generate 5 20000 many-waiting >"$work/long.log" || exit 2
check "a log that is replaced, or away for a moment, is followed on" replaced
check "a log that is rotated goes on" rotated
check "a long log: who waits since when" long_log many-waiting
check "a long log of cycles" long_log cycles
check "every line is played once" once
check "no news is told" silent
check "a log that grows: each complete line has its picture, and a log begun anew is begun anew" grows
if command -v timeout >/dev/null; then
    check "an interrupt ends it" interrupted
fi
check "nothing is left in the folder for temporary files" left_nothing

# ---- A terminal

# typed ROWS COLUMNS WORDS: what ./wall writes to a terminal of this size, with ~ for the escape sign and its bracket, and ^ for the bell.
typed() {
    escape=$(printf '\033')
    TERM=xterm script -qec "stty rows $1 cols $2; $wall $3" /dev/null </dev/null | tr -d '\r' | tr '\007' '^' | sed "s/$escape\[/~/g"
}

# Each picture begins at the top and has 23 lines, so that its head stands when the next line is written; the cursor is shown again.
terminal() {
    typed 24 80 "--pause 0 <second/sample.log" >"$work/typed"
    [ "$(grep -c '~HAFTER\|~H~1mAFTER' "$work/typed")" -eq 5 ] && [ "$(grep -o '~?25l' "$work/typed" | wc -l)" -eq 1 ] &&
        [ "$(grep -o '~?25h' "$work/typed" | wc -l)" -eq 1 ] && [ "$(wc -l <"$work/typed")" -eq $((23 * 5)) ] &&
        typed 24 80 "--call 4 <second/sample.log" >"$work/typed" && [ "$(wc -l <"$work/typed")" -eq 23 ]
}

# Below 80 and 24 it says so; above, the picture is larger.
sizes() {
    typed 23 80 "--call 4 <second/sample.log" | grep -q '^~1;33mThe terminal has 80 columns and 23 lines: a picture needs 80 and 24[.]' &&
        typed 24 79 "--call 4 <second/sample.log" | grep -q 'The terminal has 79 columns and 24 lines' &&
        typed 40 160 "--call 250 <$work/four.log" >"$work/typed" && [ "$(wc -l <"$work/typed")" -eq 39 ] &&
        grep -q 'the last 107 calls' "$work/typed" && [ "$(grep -c '^.*call [0-9]* *[-!*x] ' "$work/typed")" -gt 6 ]
}

# The bell rings once, and the band stands in reverse video over the whole width.
rings() {
    { cat "$work/alarm.log"; printf '%s\n' 0203010100000100 0203010100000100; } >"$work/rings.log"
    typed 24 80 "--pause 0 <$work/rings.log" >"$work/typed" && [ "$(grep -o '\^' "$work/typed" | wc -l)" -eq 1 ] &&
        grep -q '^^~1;7mALARM: .\{72\}~0m' "$work/typed"
}

# On a terminal a log that is followed has a clock; after a minute it says that there is no news.
clock() {
    began=$(date +%s)
    cp second/sample.log "$work/grows" && typed 24 80 "--follow $work/grows & sleep 2; kill \$!; wait" >"$work/typed" &&
        grep -q '  last call [0-9]* s ago~' "$work/typed" && told_age 0 'AFTER CALL 5 .*  last call' "$work/typed" || return
    began=$(date +%s)
    touch -d '61 seconds ago' "$work/grows" && typed 24 80 "--follow $work/grows & sleep 2; kill \$!; wait" >"$work/typed" &&
        told_age 61 '~1;7mAFTER CALL 5 .* NO NEWS FOR' "$work/typed"
}

if command -v script >/dev/null; then
    check "on a terminal each picture takes the place of the one before" terminal
    check "a terminal that is too small is told, and a large one is used" sizes
    check "an alarm rings once, and stands in reverse video" rings
    check "a log that is followed on a terminal has a clock" clock
else
    leave "./wall on a terminal: there is no script command here"
fi

# ---- The page

# page NAME LOG WORDS..
page() {
    made=$1
    log=$2
    shift 2
    $wall --html "$@" <"$log" >"$work/$made.html"
}

# Nothing is fetched: no address but that which names SVG, no file, and the page says so to the browser.
no_outside() {
    ! grep -E 'https?:|//[a-z]|url\([^#]|(src|href)=|@import|fetch\(|XMLHttp' "$work/four.html" | grep -v '"http://www.w3.org/2000/svg"' &&
        grep -q "content=\"default-src 'none'; style-src 'unsafe-inline'; script-src 'unsafe-inline'\"" "$work/four.html"
}

hostile() {
    printf '%s\n' 'F000000000000000' '</pre><script>document.title = "run"</script>' '<img src=x onerror="document.title=1">' \
        '&lt;b&gt;&amp;' '@PLAYED@' "'\"\\t\\n\${x}" && printf '\033[2J\000\377\r\t<!--\n-->]]>\n'
}

# Between the lines of the log no element begins, and no byte is there that a terminal or a page would obey.
harmless() {
    hostile >"$work/hostile.log" && page hostile "$work/hostile.log" && ./wall <"$work/hostile.log" >"$work/out" || return
    [ "$(sed -n '/^<pre id="played"/,/^<.pre>/p' "$work/hostile.html" | grep -c '<')" -eq 2 ] || return
    sed -n '/^<pre id="played"/,/^<.pre>/p' "$work/hostile.html" | cat "$work/out" - | tr -d '\n\t' | tr -d '[:print:]' >"$work/odd"
    [ ! -s "$work/odd" ]
}

# A long log with up to 64 waiting: only what changes is in the page.
small() {
    page long "$work/long.log" && size=$(wc -c <"$work/long.html") &&
        [ "$size" -lt 5000000 ] && echo "$size bytes"
}

# live WORDS..: a live page of $work/grows, in $work/live.html.
live() {
    rm -f "$work/live.html"
    following --html "$work/live.html" "$@"
    tries=0
    until [ -s "$work/live.html" ]; do
        tries=$((tries + 1))
        [ $tries -lt 50 ] || { cat "$work/err"; return 1; }
        sleep 0.2
    done
}

# until_page PATTERN: within ten seconds the live page has such a line.
until_page() {
    tries=0
    until grep -q "$1" "$work/live.html"; do
        tries=$((tries + 1))
        [ $tries -lt 50 ] || { echo "not on the page: $1"; return 1; }
        sleep 0.2
    done
}

# It has the last calls alone, is renamed into its place and not written there, at most once a second, and leaves nothing beside.
live_page() {
    mkdir -p "$work/bin" && printf '#!/bin/sh\nfor last; do :; done\n[ "$last" != "%s" ] || date +%%s >>"%s"\nexec /bin/mv "$@"\n' \
        "$work/live.html" "$work/renamed" >"$work/bin/mv" && chmod +x "$work/bin/mv" && : >"$work/renamed" || return
    head -n 250 "$work/four.log" >"$work/grows"
    path=$PATH
    PATH=$work/bin:$PATH
    live --calls 50 && until_page "^L	201	" && [ "$(grep -c '^C	' "$work/live.html")" -eq 50 ] &&
        for line in 251 252 253 254 255 256; do sed -n ${line}p "$work/four.log" >>"$work/grows"; sleep 0.3; done && until_page '^L	207	'
    stopped $?
    status=$?
    PATH=$path
    [ $status -eq 0 ] && [ -z "$(uniq -d "$work/renamed")" ] && [ "$(wc -l <"$work/renamed")" -gt 1 ] &&
        [ "$(ls "$work" | grep -c 'live.html')" -eq 1 ]
}

# What plays where was followed from the saved state, and is what the whole log says.
live_queues() {
    second/generate 11 1500 cycles >"$work/grows" && ./wall --html <"$work/grows" >"$work/whole.html" && live --calls 5 &&
        until_page '^B	0	'
    stopped $? || return
    for made in whole live; do
        awk -F '\t' '$1 == "B" { last[$2] = $0 } END { for (c = 0; c < 4; c++) print last[c] }' "$work/$made.html" >"$work/$made.board"
    done
    grep -q 'plays [0-9]' "$work/whole.board" && diff "$work/whole.board" "$work/live.board"
}

check "a page of four channels" page four "$work/four.log"
check "a live page knows what plays where" live_queues
check "a live page has the last calls, and is renamed at most once a second" live_page
check "a page of eight channels" page eight "$work/eight.log" --channels 8
check "a page of document 01's log, opened at call 4" page sample second/sample.log --call 4
check "a page has no outside parts" no_outside
check "hostile bytes of a log are spelled out" harmless
check "a page of 20,000 calls with many waiting is small" small

# ---- The browser

browser=
find_browser() {
    for browser in "${CHROMIUM:-chromium}" chromium-headless-shell chromium-browser; do
        ! command -v "$browser" >/dev/null || return 0
    done
    return 1
}

# dom PAGE: the page after its script has run, with a plain minus. Chromium as root needs --no-sandbox.
dom() {
    HOME=$work $limited "$browser" --headless --no-sandbox --disable-gpu --user-data-dir="$work/profile" --window-size=1280,720 \
        --virtual-time-budget=4000 --dump-dom "file://$1" 2>"$work/browser" | sed "s/$(printf '\342\210\222')/-/g" >"$work/dom"
    [ -s "$work/dom" ] || { tail -n 5 "$work/browser"; return 1; }
}

# steered NAME SCRIPT: a copy of the page, in which a script behind its own works its controls as a person would.
steered() {
    { cat "$work/$1.html"; printf '<script>%s</script>\n' "$2"; } >"$work/steered.html"
}

# on_page BOARD LOG CALL PAGE: what the page shows there is what the right program writes there.
on_page() {
    dom "$4" && awk -f tests/wall/page.awk "$work/dom" >"$work/seen" || return
    "$right" --channels "$1" --show --display <"$2" |
        awk -v board="$1" -v room=64 -v only="$3" -v said=1 -f tests/wall/program.awk >"$work/expected"
    [ -s "$work/expected" ] && diff "$work/expected" "$work/seen"
}

by_fragment() {
    on_page "$1" "$2" "$4" "$work/$3.html#call=$4"
}

by_script() {
    steered "$3" "$5" && on_page "$1" "$2" "$4" "$work/steered.html"
}

press() {
    printf 'for (let i = 0; i < %s; i++) document.body.dispatchEvent(new KeyboardEvent("keydown", { key: "%s", bubbles: true }));' "$2" "$1"
}

slider='const s = document.getElementById("slider"); s.value = 203; s.dispatchEvent(new Event("input"));'
clicks='for (let i = 0; i < 60; i++) document.getElementById("on").click();
    for (let i = 0; i < 4; i++) document.getElementById("back").click();'
plays='const p = document.getElementById("play"); p.click(); setTimeout(() => p.click(), 1600);'   # 4 calls a second

# all_on_page BOARD LOG PAGE: the same of every call.
all_on_page() {
    steered "$3" "$(cat tests/wall/steps.js)" && dom "$work/steered.html" || return
    sed -n '/<pre id="seen">$/,/<.pre>/p' "$work/dom" | grep -v '<' >"$work/seen"
    "$right" --channels "$1" --show --display <"$2" | awk -v board="$1" -v room=64 -v said=1 -f tests/wall/program.awk >"$work/expected"
    [ "$(grep -c '^call' "$work/expected")" -eq 300 ] && diff "$work/expected" "$work/seen"
}

# The words that stand beside the marks of a call, and of its reply.
words_on_page() {
    dom "$work/sample.html" && grep -q "A's request 7 asks for 0+1 at precedence 20, without waiting: <b>it waits</b>" "$work/dom" &&
        grep -q '<li class="now" data-reply="C0060DF4010001">.*Lock 6 is in the way: channel 0 is wanted' "$work/dom"
}

shown_not_run() {
    dom "$work/hostile.html#call=2" && grep -q '<title>Channels, call by call</title>' "$work/dom" && ! grep -q '<img' "$work/dom" &&
        grep -q '"&lt;/pre&gt;&lt;script&gt;document' "$work/dom"
}

# A page whose numbers are not those of the log is found.
wrong_page() {
    sed 's/^\(B	0	.*	\)\([0-9]*\)	\([^	]*\)$/\17\2	\3/' "$work/four.html" >"$work/wrong.html"
    ! on_page 4 "$work/four.log" 203 "$work/wrong.html#call=203" && grep -q '^> channel 0 ' "$work/said"
}

# The page of 20,000 calls opens at its last, and was there before its time ran out.
quick() {
    on_page 4 "$work/long.log" 20000 "$work/long.html#call=20000"
}

# The layout: no leaf of a card ends outside it, on four screens, with four channels and eight; all in one run, in frames.
layout() {
    for made in four eight; do
        steered $made "$(cat tests/wall/layout.js)" && mv "$work/steered.html" "$work/layout-$made.html" || return
    done
    {
        echo '<!DOCTYPE html><body><pre id="seen"></pre>'
        echo '<script>onmessage = e => seen.append(e.data + String.fromCharCode(10));</script>'
        for made in four eight; do
            for size in 1920x1080 1280x800 1080x1920 390x844; do
                echo "<iframe src=\"layout-$made.html\" width=${size%x*} height=${size#*x} style=\"border: 0\"></iframe>"
            done
        done
    } >"$work/layout.html"
    dom "$work/layout.html" && sed -n '/id="seen"/,/<.pre>/p' "$work/dom" | grep -o '[0-9]*x[0-9]* [48] channels: .*' >"$work/seen"
    cat "$work/seen"
    [ "$(grep -c ': [1-9][0-9]* calls, all inside$' "$work/seen")" -eq 8 ]
}

# The page after the browser has had it open for 60 of its seconds, while the file was replaced: it shows what is new. It is replaced when
# the page has said that it is open; then it showed call 250.
reloads() {
    head -n 250 "$work/four.log" >"$work/grows" && live && until_page '^L	' || return
    stopped 0
    { cat "$work/live.html"; printf '<script>console.log("opened at " + find("number").textContent);</script>\n'; } >"$work/open.html"
    cp "$work/four.log" "$work/grows" && live && until_page '^L	'
    stopped $? || return
    HOME=$work $limited "$browser" --headless --no-sandbox --disable-gpu --user-data-dir="$work/profile" --window-size=1280,720 \
        --enable-logging=stderr --virtual-time-budget=60000 --dump-dom "file://$work/open.html" 2>"$work/browser" >"$work/dom" &
    opener=$!
    tries=0
    until grep -q 'opened at 250' "$work/browser" || [ $tries -eq 300 ]; do
        tries=$((tries + 1))
        sleep 0.1
    done
    mv "$work/live.html" "$work/open.html"
    wait $opener
    grep -q 'id="number">300<' "$work/dom" && grep -q 'opened at 250' "$work/browser"
}

# It opens at the present, in the Wall view; the alarm is an alert and in the title; a minute without a call is told.
live_words() {
    began=$(($(date +%s) - 4))      # the browser's clock runs up to four seconds ahead: dom
    cp "$work/alarm.log" "$work/grows" && touch -d '61 seconds ago' "$work/grows" && live --names "$work/names" && until_page '^A	' &&
        dom "$work/live.html"
    stopped $? || return
    grep -q '<html[^>]*class="[^"]*wall' "$work/dom" && grep -q 'id="number">5<' "$work/dom" && grep -q 'messages queued' "$work/dom" &&
        grep -q "<p id=\"alarm\" role=\"alert\">ALARM: B's request 40 waits since call 5 for Departures+Lounge or 2+3 at" "$work/dom" &&
        grep -q 'In its way: key 1 (Harbour office) at 120 on channels Departures+Lounge+2+3</p>' "$work/dom" &&
        grep -q "<title>ALARM: B's request 40" "$work/dom" && grep -q 'class="alarm"' "$work/dom" && grep -q 'wanted by' "$work/dom" &&
        told_age 61 '<p id="silence" role="alert">NO NEWS <span id="silent" aria-live="off">FOR' "$work/dom"
}

# Next warning stops where an alarm begins.
warned() {
    page alarm "$work/alarm.log" && steered alarm 'document.getElementById("warning").click();' && dom "$work/steered.html" &&
        grep -q 'id="number">5<' "$work/dom" && grep -q 'class="bar alarmed"' "$work/dom"
}

if ! find_browser; then
    install_packages chromium
fi
limited=
! command -v timeout >/dev/null || limited='timeout 120'
if ! find_browser; then
    leave "THE PAGE OF ./wall IN A BROWSER: THERE IS NO CHROMIUM HERE, AND IT COULD NOT BE INSTALLED. On Debian: apt-get install chromium"
else
    check "the page's words" words_on_page
    check "call 277, by the address" by_fragment 4 "$work/four.log" four 277
    check "call 203, by the slider" by_script 4 "$work/four.log" four 203 "$slider"
    check "call 57, by steps on and back" by_script 4 "$work/four.log" four 57 "$clicks"
    check "call 300, by the key End" by_script 4 "$work/four.log" four 300 "$(press End 1)"
    check "eight channels: call 192, by the address" by_fragment 8 "$work/eight.log" eight 192
    check "eight channels: call 150, by the arrow" by_script 8 "$work/eight.log" eight 150 "$(press ArrowRight 149)"
    check "eight channels: call 7, by playing" by_script 8 "$work/eight.log" eight 7 "$plays"
    check "each of 300 calls on the page" all_on_page 4 "$work/four.log" four
    check "eight channels: each of 300 calls on the page" all_on_page 8 "$work/eight.log" eight
    check "hostile bytes are shown and not run" shown_not_run
    check "a wrong page is found" wrong_page
    check "the page of 20,000 calls" quick
    check "no leaf of a card ends outside it, on four screens" layout
    check "a live page shows what is new by itself" reloads
    check "a live page opens at the present, with alarm, names and clock" live_words
    check "Next warning stops at an alarm" warned
fi
# ---- Mistakes

# A copy of ./wall and its parts, which plays by the right program.
copy() {
    rm -rf "$work/tree"
    mkdir "$work/tree" "$work/tree/include" && cp -R scripts wall "$work/tree" && cp include/qamhudeer.h "$work/tree/include"
}

# mistaken FILE SED TEST..: a copy in which this line is altered so is found by this test; one without a mistake is not.
mistaken() {
    file=$1
    edit=$2
    shift 2
    copy && sed "$edit" "$file" >"$work/tree/$file" || exit 2
    wall=$work/tree/wall
    if ! cmp -s "$file" "$work/tree/$file" && ! "$@" >"$work/said" 2>&1; then
        passed=$((passed + 1))
    else
        failed=$((failed + 1))
        echo "FAILED: not found, or nothing altered: $file, $edit"
    fi
    wall=./wall
}

unmistaken() {
    copy && wall=$work/tree/wall && alike 4 18 "$work/four.log" && alarmed && no_alarm && silent && rotated
    status=$?
    wall=./wall
    return $status
}

writes=no
check "a copy without a mistake" unmistaken
mistaken scripts/played.awk 's/^        since\[byte(text, 1)\] = call$/        since[byte(text, 1)] = call + 1/' alike 4 18 "$work/four.log"
mistaken scripts/played.awk 's/level\[order\[alarms + 1\]\] >= alarm/level[order[alarms + 1]] > alarm/' no_alarm
mistaken scripts/played.awk 's/precedence\[c\] >= level\[id\]$/precedence[c] > level[id] + 10/' picture alarm 5 "$work/alarm.log"
mistaken scripts/played.awk 's/^    begin_saved(file)$//' live_queues
mistaken scripts/played.awk 's/age < 60 ?/age < 600 ?/' silent
mistaken scripts/grown 's/^    rm -f facts first last$/    rm -f facts first last state/' rotated
if command -v script >/dev/null; then
    mistaken scripts/wall.awk 's/lay_out(size\[2\], size\[1\] - 1)/lay_out(size[2], size[1])/' terminal
    mistaken scripts/wall.awk 's/ring = ring || rung.*/ring = 1/' rings
fi
if find_browser; then
    mistaken scripts/wall.html 's/^  setInterval(look, 1000);$//' reloads
    mistaken scripts/wall.html 's/ || alarms(call, at);$/;/' warned
    sed 's/font-size: calc(1.2 \* var(--u)); gap: .5em;/font-size: calc(2.2 * var(--u)); gap: .5em;/' "$work/eight.html" >"$work/wider.html"
    cmp -s "$work/eight.html" "$work/wider.html" || mv "$work/wider.html" "$work/eight.html"
    check "a wrong layout is found" eval '! layout'
fi
echo "$passed passed, $failed failed"
[ $failed -eq 0 ] || exit 1
[ $left -eq 0 ] || exit $skipped
