#!/bin/sh
# A board's state carried by ./arbiter-log --save and --load (requests #106, #112): what is refused before the log is read, and with which
# line; a save that fails and leaves the old file; logs cut in two with a save between, also told by ./explain; the texts of
# docs/saved.md; both forms and both boards, and texts moved and told by ./saved. The last line is 'N passed, M failed'.
. "$(dirname "$0")/begin.sh"
text=$work/text
log=second/sample.log

# refuses WORDS..: with status 2, a message, nothing on standard output, and nothing of the log is read. The message is in $work/err.
refuses() {
    { ./arbiter-log "$@" >"$work/out" 2>"$work/err"; status=$?; cat >"$work/rest"; } <"$log"
    [ $status -eq 2 ] && [ ! -s "$work/out" ] && [ -s "$work/err" ] && cmp "$work/rest" "$log"
}

# refuses_text WORDS: the text at hand, of the form at hand, with these words in the message.
refuses_text() {
    refuses $form --load "$text" && grep -F "$text: $1" "$work/err"
}

# spoilt SCRIPT WORDS: a text of the page, changed by sed.
spoilt() {
    sed "$1" "$work/$good" >"$text"
    check "refused: the text '$good' after sed '$1'" refuses_text "$2"
}

# quoted NUMBER: a text of the page.
quoted() {
    awk -v number="$1" '$0 == "```text" { on = ++seen == number; next } /^```/ { on = 0 } on' docs/saved.md
}

frame() {
    echo "line $1 is no frame of its kind"
}

# again TEXT: it is loaded, and saved as it was. The file that is loaded stays.
again() {
    cp "$1" "$work/loaded" && ./arbiter-log $form --load "$work/loaded" --save "$work/again" </dev/null >"$work/out" &&
        [ ! -s "$work/out" ] && cmp "$1" "$work/again" && cmp "$1" "$work/loaded"
}

# keeps STATUS COMMAND..: the command ends so, the old file is as it was, and no part of a new one is left.
keeps() {
    wanted=$1
    shift
    echo old >"$work/file"
    "$@" >"$work/out" 2>"$work/err"
    status=$?
    [ $status -eq "$wanted" ] && [ "$(cat "$work/file")" = old ] && ! parts
}

# parts: there are files beside the one that is saved to.
parts() {
    ls "$work"/file.* >/dev/null 2>&1
}

unread() {
    ./arbiter-log --save "$work/file" <"$work"
}

unwritten() {
    ./arbiter-log --save "$work/file" <"$log" >/dev/full
}

# stopped SIGNAL: it is stopped while it waits for more of the log.
stopped() {
    rm -f "$work/pipe"
    mkfifo "$work/pipe" || return
    ./arbiter-log --save "$work/file" <"$work/pipe" &
    player=$!
    {
        cat "$log"
        waited=0
        while ! parts && [ $waited -lt 200 ]; do
            sleep 0.1
            waited=$((waited + 1))
        done
        kill "-$1" $player
    } >"$work/pipe"
    wait $player
}

# A crash: no one tidies up. The old file stands, and the next save is a save, which touches nothing of what was left.
crashed() {
    echo old >"$work/file"
    stopped KILL >/dev/null 2>&1
    left_behind=$(ls "$work"/file.*) && [ "$(cat "$work/file")" = old ] && ./arbiter-log --save "$work/file" <"$log" >/dev/null &&
        again "$work/file" && [ "$(ls "$work"/file.*)" = "$left_behind" ] && rm -f "$work"/file.*
}

# cut_at LINES LOG: played in two parts, with a save between, it comes to the same output and the same text as in one.
cut_at() {
    head -n "$1" "$2" | ./arbiter-log $form --show --save "$work/between" >"$work/parts" &&
        tail -n +$(($1 + 1)) "$2" | ./arbiter-log --save "$work/end" $form --load "$work/between" --show >>"$work/parts" &&
        ./arbiter-log $form --show --save "$work/end.whole" <"$2" >"$work/out" && cmp "$work/parts" "$work/out" &&
        cmp "$work/end" "$work/end.whole"
}

# told_at LINES LOG TOLD: the same of ./explain, but for the numbers of the lines.
told_at() {
    {
        head -n "$1" "$2" | ./explain $form --save "$work/between" && tail -n +$(($1 + 1)) "$2" | ./explain $form --load "$work/between"
    } >"$work/parts" || return
    sed 's/^ *[0-9]*  //' "$work/parts" >"$work/told" && sed 's/^ *[0-9]*  //' "$3" | cmp - "$work/told"
}

# moves WAY FROM TO: to the byte.
moves() {
    ./saved "$1" <"$2" >"$work/moved" && cmp "$work/moved" "$3"
}

# not_moved WORD NUMBER TEXT: with status 2, the number in a message, nothing on standard output.
not_moved() {
    ./saved "$1" <"$3" >"$work/out" 2>"$work/err"
    [ $? -eq 2 ] && [ ! -s "$work/out" ] && grep "refused $2: " "$work/err"
}

# tells TEXT WORDS: they are a line of what is shown.
tells() {
    ./saved show <"$1" >"$work/shown" && grep -Fx -- "$2" "$work/shown"
}

if ! ready || ! proved_program text_program || ! proved_program saved_program; then
    failed=$((failed + 1))
    echo "FAILED: the programs are not built"
    finish
fi
quoted 1 >"$work/fresh"
quoted 2 >"$work/fresh2"
quoted 3 >"$work/busy"
quoted 4 >"$work/busy2"
quoted 5 >"$work/eight"
form= good=busy

# ---- What is saved

check "a fresh board's text is the page's" sh -c './arbiter-log --save "$1/new" </dev/null && cmp "$1/new" "$1/fresh"' sh "$work"
check "it has 112 bytes" [ "$(wc -c <"$work/fresh")" -eq 112 ]
check "the page's fresh text is loaded" again "$work/fresh"
check "the page's busy text is loaded" again "$work/busy"
check "a file is loaded and saved to" sh -c 'cp "$1/busy" "$1/both" && ./arbiter-log --load "$1/both" --save "$1/both" </dev/null && cmp "$1/busy" "$1/both"' \
    sh "$work"
mkdir "$work/a folder" && cp "$work/busy" "$work/a folder/-text"
check "a name with a space and a hyphen" sh -c 'cd "$2/a folder" && "$1/arbiter-log" --load -text --save -new </dev/null && cmp ./-text ./-new' sh "$root" "$work"

# ---- What is refused

for words in --load --save '--show --load' "--load $work/nowhere" "--load $work" "--save $work" "--save $work/nowhere/file" \
    "--channels 8 --form 1 --save $work/new" "--channels 8 --form 1 --load $work/eight" "--form 1 --load $work/busy --channels 8" \
    "--channels 8 --form 1" "--form 3 --load $work/busy" "--form --load $work/busy" "--load $work/busy --form" "--load $work/busy --form 22" \
    "--channels 8 --load $work/busy" "--channels 8 --load $work/busy2" "--form 2 --load $work/busy" "--form 2 --load $work/eight" \
    "--load $work/busy2" "--load $work/eight" "--load $work/busy --loud" "--load $work/busy --save"; do
    check "refused: $words" refuses $words
done
check "refused: --load with an empty name" refuses --load ''
check "refused: --save with an empty name" refuses --save ''
mkfifo "$work/pipe"
check "refused: what is no file is not replaced" refuses --save "$work/pipe"
check "no file is left of a refused save" [ ! -e "$work/nowhere" ]
: >"$text"
check "refused: an empty text" refuses_text "$(frame 1)"
spoilt 1d "$(frame 1)"
spoilt 1s/1/2/ "$(frame 1)"
spoilt 1s/D001/D00100/ "$(frame 1)"
spoilt 1s/D/d/ "$(frame 1)"
spoilt '1s/^/ /' "$(frame 1)"
spoilt 2s/C/c/ "$(frame 2)"
spoilt 2s/..$// "$(frame 2)"
spoilt 3s/$/00/ "$(frame 3)"
spoilt 4s/.$// "$(frame 4)"
spoilt 5s/D1/D8/ "$(frame 5)"
spoilt 5s/.*// "$(frame 5)"
spoilt 6s/0102030C/0103030C/ "$(frame 6)"
spoilt 7s/..$// "$(frame 7)"
spoilt 8s/D3/00/ "$(frame 8)"
spoilt '9s/$/ /' "$(frame 9)"
spoilt 10s/01$/0101/ "$(frame 10)"
spoilt 11s/D5/D6/ "$(frame 11)"
spoilt 16s/D7/D5/ "$(frame 16)"
spoilt '$s/$/\r/' "$(frame 16)"
spoilt '$a\
' "$(frame 17)"
spoilt '$a\
D0' "$(frame 17)"
printf %s "$(cat "$work/busy")" >"$text"
check "refused: no LF behind the last line" refuses_text "$(frame 16)"
{ cat "$work/busy"; printf 'D7'; } >"$text"
check "refused: bytes behind the last line" refuses_text "$(frame 17)"
head -c 100000 /dev/zero >"$text"
check "refused: many NULs" refuses_text "$(frame 1)"
sound='every line is a frame, and the whole is no sound state'
spoilt '$d' "$sound"
spoilt '$p' "$sound"
spoilt 2d "$sound"
spoilt 5p "$sound"
spoilt 2s/A01/A02/ "$sound"
spoilt '6{h;d;};7G' "$sound"
spoilt '8{h;d;};10G' "$sound"
spoilt 8s/06/05/ "$sound"
spoilt 8s/06/40/ "$sound"
spoilt 8s/0001/0003/ "$sound"
spoilt 11s/00/04/ "$sound"
spoilt 13s/0001/0000/ "$sound"

# ---- The second form

form='--form 2' good=busy2
check "a fresh board's text in the second form is the page's" sh -c './arbiter-log --form 2 --save "$1/new" </dev/null && cmp "$1/new" "$1/fresh2"' sh "$work"
check "it has 153 bytes" [ "$(wc -c <"$work/fresh2")" -eq 153 ]
check "the page's fresh text of the second form is loaded" again "$work/fresh2"
check "the page's busy text of the second form is loaded" again "$work/busy2"
: >"$text"
check "refused: an empty text, in the second form" refuses_text "$(frame 1)"
spoilt 1s/2/1/ "$(frame 1)"
spoilt 1s/D002/D00200/ "$(frame 1)"
spoilt 2s/$/00/ "$(frame 2)"
spoilt 2s/04// "$(frame 2)"
spoilt 7s/..$// "$(frame 7)"
spoilt 17s/D7/DA/ "$(frame 17)"
spoilt 18s/..$// "$(frame 18)"
spoilt '$s/$/00/' "$(frame 21)"
printf %s "$(cat "$work/busy2")" >"$text"
check "refused: no LF behind the last line, in the second form" refuses_text "$(frame 21)"
spoilt 2d "$sound"
spoilt 2s/04/08/ "$sound"
spoilt 2s/04/05/ "$sound"
spoilt '2{h;d;};3G' "$sound"
spoilt '$d' "$sound"
spoilt '$p' "$sound"
spoilt '18{h;d;};19G' "$sound"
spoilt 18s/0202/0302/ "$sound"
spoilt 18s/0202/0201/ "$sound"
spoilt 21s/03/02/ "$sound"
spoilt 13d "$sound"
form= good=busy
spoilt '2i\
D804' "$(frame 2)"
spoilt '$a\
D9000202' "$(frame 17)"
form='--channels 8'
check "the page's text of eight channels is loaded" again "$work/eight"
check "and it is saved so" sh -c '
    printf "%s\n" F000000000000000 200101000A00010130 030A00200000010600030000C840 20280000000000023070 |
        ./arbiter-log --channels 8 --save "$1/new" >/dev/null && cmp "$1/new" "$1/eight"' sh "$work"
form=

# ---- Moved and told

check "fresh, to the new form" moves new "$work/fresh" "$work/fresh2"
check "fresh, and back" moves old "$work/fresh2" "$work/fresh"
check "busy, to the new form" moves new "$work/busy" "$work/busy2"
check "busy, and back" moves old "$work/busy2" "$work/busy"
check "eight channels do not move back" not_moved old 10 "$work/eight"
check "a new text is none of the first form" not_moved new 9 "$work/busy2"
check "nor is one of eight channels" not_moved new 9 "$work/eight"
check "an old text is none of the second form" not_moved old 9 "$work/busy"
for bad in 18s/0202/0302/ '$d' 2d 1d; do
    sed "$bad" "$work/busy2" >"$text"
    for way in new old show; do
        check "./saved $way refuses with 9: the busy text of the second form after sed '$bad'" not_moved $way 9 "$text"
    done
done
: >"$text"
for way in new old show; do
    check "./saved $way refuses an empty text with 9" not_moved $way 9 "$text"
done
awk '$0 == "```" { if (on) exit; on = 1; next } /^```text/ { getline; while ($0 != "```") getline; next } on' docs/saved.md >"$work/page"
check "the busy text in words is the page's" sh -c './saved show <"$1/busy2" >"$1/shown" && cmp "$1/shown" "$1/page"' sh "$work"
check "but for its form, so is that of the first" sh -c './saved show <"$1/busy" | sed "1s/first/second/" | cmp - "$1/page"' sh "$work"
check "eight channels in words" tells "$work/eight" 'channel 5     key 1, precedence 10, 1 write, wanted by 1'
for words in '' load 'new old' --new; do
    check "./saved $words: status 2" sh -c './saved $2 <"$1/busy" >"$1/out" 2>"$1/err"; [ $? -eq 2 ] && [ ! -s "$1/out" ] && [ -s "$1/err" ]' sh "$work" "$words"
done

# ---- A save that fails

check "a log that cannot be read to its end" keeps 1 unread
check "an output that cannot be written" keeps 1 unwritten
check "stopped while it plays" keeps 2 stopped TERM
check "a crash while it plays" crashed

# ---- A log in two parts

at=0
while [ $at -le "$(wc -l <"$log")" ]; do
    check "the sample, cut at line $at" cut_at $at "$log"
    at=$((at + 1))
done
for told in words cuts cycles desks; do
    for at in 1 7 12 16; do
        check "$told, cut at line $at" cut_at $at "scripts/explained/$told.log"
        check "$told, cut at line $at, in words" told_at $at "scripts/explained/$told.log" "scripts/explained/$told.txt"
    done
done
for form in '--form 2' '--channels 8'; do
    for at in 0 5 9; do
        check "the sample, cut at line $at, $form" cut_at $at "$log"
    done
    check "cycles, cut at line 7, $form" cut_at 7 scripts/explained/cycles.log
done
form='--form 2'
check "cycles, cut at line 7, in words, $form" told_at 7 scripts/explained/cycles.log scripts/explained/cycles.txt
form=
check "a long log, cut in the middle" cut_at $(($(wc -l <crates/arbiter_log/stdin) / 2)) crates/arbiter_log/stdin
finish
