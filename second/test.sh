#!/bin/sh
# Tests arbiter2 on the paper's sample log, on hand-worked cases and on malformed lines.
cd "$(dirname "$0")" || exit 1
LC_ALL=C
export LC_ALL
work=$(mktemp -d) || exit 1
trap 'rm -rf "$work"' EXIT
passed=0
failed=0

# check NAME [OPTION..]: plays $work/log with these options and compares the output with $work/expected.
check() {
    name=$1
    shift
    ./arbiter2 "$@" <"$work/log" >"$work/got"
    if [ $? -eq 0 ] && cmp -s "$work/got" "$work/expected"; then
        passed=$((passed + 1))
    else
        failed=$((failed + 1))
        echo "FAILED: $name"
        diff "$work/expected" "$work/got" | head -20
    fi
}

cp sample.log "$work/log"
cp sample.out "$work/expected"
check "sample.log"

# A case has document 01's two columns: a line with text at its start is a frame and its
# first output; an indented one is more output; # is a remark.
read_case() {
    awk '/^[^# ]/ { print $1 }' "$1" >"$work/log"
    awk '/^[^# ]/ { print $2 } /^ / { print $1 }' "$1" >"$work/expected"
}
for case in cases/*.txt; do
    read_case "$case"
    check "$case"
done

# The wall display, on each board; then the options in any order, and the channels between the answer and the display.
read_case cases/display/eight.txt
check "cases/display/eight.txt" --display --channels 8
check "the board first" --channels 8 --display
read_case cases/display/four.txt
check "cases/display/four.txt" --display
./arbiter2 --show <"$work/log" >"$work/channels"
awk -v channels="$work/channels" '
    /^E0/ { while ((getline line < channels) > 0 && line !~ /^B0/); print line; for (i = 1; i < 4; i++) { getline line < channels; print line } }
    { print }' "$work/expected" >"$work/both"
mv "$work/both" "$work/expected"
check "the channels, then the display" --show --channels 4 --display
check "the same, asked for in another order" --display --show
for wrong in "--display 4" "--displays" "--channels --display"; do
    if ./arbiter2 $wrong <"$work/log" >"$work/got" 2>"$work/said" || [ $? -ne 2 ] || [ -s "$work/got" ] || ! [ -s "$work/said" ]; then
        failed=$((failed + 1))
        echo "FAILED: arbiter2 $wrong is no option"
    else
        passed=$((passed + 1))
    fi
done
if ./arbiter2 --help </dev/null | grep -q -e --display; then
    passed=$((passed + 1))
else
    failed=$((failed + 1))
    echo "FAILED: --help tells of --display"
fi

# Old logs: without F4 and the commands 11, 12 and 14, with every WRITE of n 0 and with the ids of one desk, the output is that of
# before request #101.
for out in old/*.out; do
    name=${out%.out}
    board=${name#*-}
    show=
    case $name in *-shown) show=--show ;; esac
    if awk -f old/premise.awk "$name.log" | cmp -s - "$name.log" &&
        ./arbiter2 --channels ${board%%-*} $show <"$name.log" | cmp -s - "$out"; then
        passed=$((passed + 1))
    else
        failed=$((failed + 1))
        echo "FAILED: $name.log is no old log, or no longer gives its output"
    fi
done

# Logs of two desks are outside that premise. Where a call replies to both, the same lines stand in another order; READ no longer
# shows the other's write, as the fourth line of that output did.
changed() {
    ! awk -f old/premise.awk "$1.log" | cmp -s - "$1.log" && ./arbiter2 <"$1.log" | cmp -s - "$1.now" &&
        ! cmp -s "$1.then" "$1.now" || return
    case $1 in
    */both) sort "$1.then" >"$work/then" && sort "$1.now" | cmp -s - "$work/then" ;;
    */read) sed '4s/02$/FF/' "$1.then" | cmp -s - "$1.now" ;;
    esac
}
for now in old/changed/*.now; do
    if changed "${now%.now}"; then
        passed=$((passed + 1))
    else
        failed=$((failed + 1))
        echo "FAILED: ${now%.now}.log does not give what it gives since request #109"
    fi
done

# Malformed lines: each is answered 7, and the next line is read as usual.
bad=A007000000FF
zeros=$(awk 'BEGIN { for (i = 0; i < 510; i++) printf "0" }')

# malformed NAME FORMAT: the line is written by printf, between two good ones.
malformed() {
    { echo F000000000000000; printf "$2\n"; echo F000000000000000; } >"$work/log"
    printf 'A000000001FF\n%s\nA000000002FF\n' $bad >"$work/expected"
    check "malformed: $1"
}
malformed "empty" ''
malformed "one digit" 'F'
malformed "odd" 'F00000000000000'
malformed "odd, one too many" 'F0000000000000000'
malformed "seven bytes" 'F0000000000000'
malformed "lower case" 'f000000000000000'
malformed "bad character" 'G000000000000000'
malformed "colon" ':000000000000000'
malformed "at sign" '@000000000000000'
malformed "slash" 'F00000000000000/'
malformed "CR" 'F000000000000000\r'
malformed "space before" ' F000000000000000'
malformed "space between" 'F000 000000000000'
malformed "NUL" 'F0\00000000000000000'
malformed "NUL at the end" 'F000000000000000\000'
malformed "high byte" '\3600000000000000000'
malformed "one combination missing" 'F00000000000000201'
malformed "one combination too many" 'F00000000000000000'
malformed "527 characters" "F0000000000000FF${zeros}0"
malformed "528 characters" "F0000000000000FF${zeros}00"

# The longest good line: 255 combinations are well formed, and -4.
echo "F0000000000000FF$zeros" >"$work/log"
echo A0FC000000FF >"$work/expected"
check "526 characters"

: >"$work/log"
: >"$work/expected"
check "a log of no bytes has no line"

printf 'F000000000000000\nF000000000000000' >"$work/log"
printf 'A000000001FF\nA000000002FF\n' >"$work/expected"
check "the last LF may be absent"

printf 'F000000000000000\nF0000000000' >"$work/log"
printf 'A000000001FF\n%s\n' $bad >"$work/expected"
check "the log ends in the middle of a line"

printf '\n\n' >"$work/log"
printf '%s\n%s\n' $bad $bad >"$work/expected"
check "two empty lines"

# Eight megabytes without an LF are one malformed line.
{ dd if=/dev/zero bs=1048576 count=8 2>/dev/null; printf '\nF000000000000000\n'; } >"$work/log"
printf '%s\nA000000001FF\n' $bad >"$work/expected"
check "a line of megabytes"

# 32 opens, each with a new key; then -1. ALLOCATE takes all other keys; then they come round, over the keys of the openers,
# of which the eleventh is closed.
awk 'BEGIN {
    for (i = 1; i <= 33; i++) print "F000000000000000"
    for (i = 33; i <= 65535; i++) print "2000010000000000"
    print "F100000000000B00"; print "2000010000000000"; print "2000010000000000"; print "F100000000000B00"
}' >"$work/log"
awk 'BEGIN {
    for (i = 1; i <= 32; i++) printf "A00000%04XFF\n", i
    print "A0FF000000FF"
    for (i = 33; i <= 65535; i++) printf "A00000%04XFF\n", i
    print "A00000000BFF"; print "A00000000BFF"; print "A000000021FF"; print "A00200000BFF"
}' >"$work/expected"
check "32 open keys and the keys' round"

# The generator: same seed, same log; another seed, another log.
./generate 7 500 >"$work/one"
./generate 7 500 >"$work/two"
./generate 8 500 >"$work/three"
if cmp -s "$work/one" "$work/two" && ! cmp -s "$work/one" "$work/three"; then
    passed=$((passed + 1))
else
    failed=$((failed + 1))
    echo "FAILED: generate is not a function of its seed"
fi

# The service port: however a log is cut, its output is that of the log in one.
cuts_agree() {
    for style in mix malformed lists; do
        for seed in 1 2 3 4; do
            ./generate $seed 300 $style >"$work/log"
            ./arbiter2 <"$work/log" >"$work/one"
            ./cut $seed <"$work/log" | cmp - "$work/one" || return
        done
    done
    # At its end the wall display shows the same, too.
    for board in 4 8; do
        for seed in 1 2 3 4; do
            ./generate $seed 300 display $board >"$work/log"
            ./arbiter2 --channels $board <"$work/log" >"$work/one"
            ./arbiter2 --channels $board --display <"$work/log" |
                awk '/^E0/ { last = "" } /^E/ { last = last $0 "\n" } END { printf "%s", last }' >>"$work/one"
            ./cut $seed $board display <"$work/log" | cmp - "$work/one" || return
        done
    done
}
if cuts_agree; then
    passed=$((passed + 1))
else
    failed=$((failed + 1))
    echo "FAILED: a log in fragments is answered otherwise than in one"
fi

# The wall display: in every style, on both boards, the kept numbers are those of a count, from a fresh device; and from any numbers,
# on states that are not at rest, they stay as far from it as they were. recount.c has the rest of what it tries.
for style in mix locks nowait queues full aborts precedences refusals lists bytes ties cuts cycles desks opens many-steals many-waiting \
    display saved; do
    for board in 4 8; do
        wrong=
        for seed in 1 2 3; do
            ./generate $seed 600 $style $board >"$work/log"
            ./recount $board <"$work/log" || wrong=fresh
            ./recount $board $seed <"$work/log" || wrong="seed $seed"
        done
        if [ -z "$wrong" ]; then
            passed=$((passed + 1))
        else
            failed=$((failed + 1))
            echo "FAILED: the numbers of style $style on $board channels, $wrong"
        fi
    done
done

# ---- Saved states

# verdict NAME: the last command's status.
verdict() {
    if [ $? -eq 0 ]; then
        passed=$((passed + 1))
    else
        failed=$((failed + 1))
        echo "FAILED: $1"
    fi
}

free=D10000000000000000000000
printf '%s\n' D001 $free $free $free $free D70000 >"$work/fresh"
./arbiter2 --save "$work/saved" </dev/null && cmp "$work/saved" "$work/fresh" && [ ! -e "$work/saved.part" ]
verdict "a fresh board's text"

# Worked out by hand: key 1 takes channels 0 and 1 at precedence 10, locks channel 0, plays an endless message on channel 1 and cuts it at
# the cycle's end; a request of precedence -1 waits; then two desks have opened.
printf '%s\n' F000000000000000 200501000A000102030C 0D06000100000100 0321000200000106000000010040 0E22000200000100 0B07210200000100 \
    20080000FF0000020F03 F000000000000000 >"$work/log"
printf '%s\n' A000000001FF A000030001FF A100000001FF A100000001FF A100000001FF A000020001FF A100000000FF A000000002FF >"$work/expected"
check "a board with something of every kind" --save "$work/saved"
printf '%s\n' D001 D100010A0100000000000000 D100010A0000010000000000 $free $free D2080000FF00020F03 D306000101 D422000102 \
    D50121000000010040 D60001 D60002 D70002 >"$work/text"
cmp "$work/saved" "$work/text"
verdict "its saved text"

# It plays on: the cycle ends, so the WAITCYCLE is answered, and the write is cut; FREE ends the lock, and all four channels, now
# free, go to the waiting request under key 3.
printf '%s\n' F300000200000000 0909010300000100 >"$work/log"
printf '%s\n' C0220E00020001 C02103FE000001 A000020000FF C0060D00000001 C00820000F0003 A000030001FF >"$work/expected"
check "the log goes on" --load "$work/text" --save "$work/saved"
taken=D10003FF0000000000000000
printf '%s\n' D001 $taken $taken $taken $taken D60001 D60002 D70003 >"$work/text"
cmp "$work/saved" "$work/text"
verdict "the text after it"
: >"$work/log"
: >"$work/expected"
check "no log, to the file that is loaded" --save "$work/saved" --load "$work/saved"
cmp "$work/saved" "$work/text"
verdict "loaded and saved it is the same"

# The display after a load: counted numbers, looks 0 until a call settles. A refused call leaves them: 4, id 64.
printf '%s\n' D001 D100010A0100000000000000 D100010A0000000000000000 $free $free D2080000FF00020F03 D2090000FE00010C D306000101 \
    D50121000000010040 D50122000000010040 D60001 D70001 >"$work/text"
printf '%s\n' 0540010000000100 F300000800000000 >"$work/log"
printf '%s\n' A004000001FF E00001020100020002''0000 E108FF0000 E109FE0000 C00920000C0002 A000000000FF E00001020100010001''0003 E108FF0000 \
    >"$work/expected"
check "the display after a load, and a state that is not at rest" --load "$work/text" --display

# Status 2, a message, nothing on standard output, the log unread: refuses_all NAME OPTION..
refuses_all() {
    name=$1
    shift
    ./generate 1 40 >"$work/log"
    rm -f "$work/new" "$work/new.part"
    { ./arbiter2 "$@" >"$work/got" 2>"$work/said"; status=$?; cat >"$work/rest"; } <"$work/log"
    [ $status -eq 2 ] && [ ! -s "$work/got" ] && [ -s "$work/said" ] && cmp -s "$work/rest" "$work/log" && [ ! -e "$work/new" ] &&
        [ ! -e "$work/new.part" ]
    verdict "$name"
}
refuses_all "--load without a file" --load
refuses_all "--load of no name" --load ''
refuses_all "--save without a file" --load "$work/fresh" --save
refuses_all "--save of no name" --save ''
refuses_all "a file that is not there" --load "$work/nowhere" --save "$work/new"
refuses_all "a folder is no file" --load "$work"
refuses_all "a folder that is not there" --save "$work/nowhere/new"
refuses_all "a wrong option behind a good file" --load "$work/fresh" --loud
refuses_all "eight channels have no first form to save" --channels 8 --form 1 --save "$work/new"
grep -q 'four-channel board' "$work/said"
verdict "and that is told"
refuses_all "eight channels have no first form to load" --load "$work/fresh" --form 1 --channels 8
refuses_all "nor one that is not asked for" --form 1 --channels 8
refuses_all "left out, eight channels have the second form" --load "$work/fresh" --channels 8
grep -q 'line 1 ' "$work/said"
verdict "and D001 is none of its lines"
refuses_all "no loader guesses: D001 in the second form" --load "$work/fresh" --form 2
refuses_all "--form without a number" --load "$work/fresh" --form
refuses_all "a form that there is not" --load "$work/fresh" --form 3
sed 4s/D1/d1/ "$work/fresh" >"$work/bad"
refuses_all "a refused text" --load "$work/bad" --save "$work/new"
grep -q 'line 4 ' "$work/said"
verdict "the line is told"
sed 6s/D7/D60000D7/ "$work/fresh" | sed 's/D60000D7/D60000\
D7/' >"$work/bad"
refuses_all "a text of no sound state" --load "$work/bad"
grep -q 'no sound state' "$work/said"
verdict "and that is told"
{ cat "$work/fresh"; head -c 5000 /dev/zero; } >"$work/bad"
refuses_all "a text with much behind it" --load "$work/bad"
grep -q 'line 7 ' "$work/said"
verdict "the line behind the last is told"

# A log that cannot be read is not played to its end, so nothing is saved.
./arbiter2 --save "$work/new" <. >"$work/got" 2>"$work/said"
[ $? -eq 1 ] && [ ! -e "$work/new" ] && [ ! -e "$work/new.part" ]
verdict "a log that cannot be read saves nothing"

# The second form of both fresh boards.
{ printf '%s\n' D002 D804 $free $free $free $free D70000; for c in 0 1 2 3; do echo "D90${c}0000"; done; } >"$work/fresh4"
{ printf '%s\n' D002 D808 $free $free $free $free $free $free $free $free D70000; for c in 0 1 2 3 4 5 6 7; do echo "D90${c}0000"; done; } >"$work/fresh8"
./arbiter2 --form 2 --save "$work/saved" </dev/null && cmp "$work/saved" "$work/fresh4" && ./convert new <"$work/fresh" | cmp - "$work/fresh4" &&
    ./convert old <"$work/fresh4" | cmp - "$work/fresh"
verdict "a fresh board of four in the second form, there and back"
./arbiter2 --channels 8 --save "$work/saved" </dev/null && cmp "$work/saved" "$work/fresh8" &&
    ./arbiter2 --channels 8 --form 2 --load "$work/fresh8" --save "$work/saved" </dev/null && cmp "$work/saved" "$work/fresh8"
verdict "a fresh board of eight"
refuses_all "a text of four on eight channels" --channels 8 --load "$work/fresh4"
grep -q 'line 2 ' "$work/said"
verdict "and the line is told"
refuses_all "a text of eight on four channels" --form 2 --load "$work/fresh8"
refuses_all "the old loader refuses D002" --load "$work/fresh4"
sed 's/D9020000/D9020001/' "$work/fresh4" >"$work/bad"
refuses_all "numbers that are not those of a count" --form 2 --load "$work/bad"
grep -q 'a count' "$work/said"
verdict "and that is told"

# refuses_move NUMBER new|old TEXT
refuses_move() {
    ./convert $2 <"$3" >"$work/got" 2>"$work/said"
    [ $? -eq 2 ] && [ ! -s "$work/got" ] && grep -q "^refused $1" "$work/said"
    verdict "convert $2 refuses ${3##*/} with $1"
}
refuses_move 9 new "$work/fresh4"
refuses_move 9 new "$work/fresh8"
refuses_move 9 old "$work/fresh"
refuses_move 10 old "$work/fresh8"
refuses_move 9 old "$work/bad"
sed s/D808/D804/ "$work/fresh8" >"$work/eight-as-four"
refuses_move 9 old "$work/eight-as-four"
sed s/D9070000/D9070100/ "$work/fresh8" >"$work/eight-with-a-wrong-number"
refuses_move 9 old "$work/eight-with-a-wrong-number"
./convert </dev/null >"$work/got" 2>"$work/said"
[ $? -eq 2 ] && [ ! -s "$work/got" ] && grep -q usage "$work/said"
verdict "convert without a word"

# A log cut in two with a save between gives the output of the whole, and the same saved text in the end. The looks are not saved.
# cut_in_two STYLE SEED FORM CHANNELS
cut_in_two() {
    ./generate $2 240 $1 $4 >"$work/log"
    set -- "$2" --channels $4 --form $3
    ./arbiter2 $2 $3 $4 $5 --show --display --save "$work/end" <"$work/log" >"$work/whole" || return
    for at in $((1 + $1 * 7 % 100)) $((100 + $1 * 31 % 139)); do
        head -n $at "$work/log" | ./arbiter2 $2 $3 $4 $5 --show --display --save "$work/between" >"$work/one" || return
        tail -n +$((at + 1)) "$work/log" |
            ./arbiter2 $2 $3 $4 $5 --show --display --load "$work/between" --save "$work/last" >>"$work/one" || return
        # An old text goes to the new form and back; a new one of four channels to the old form and back.
        case $3$5 in
        41) ./convert new <"$work/between" >"$work/moved" && ./convert old <"$work/moved" | cmp - "$work/between" || return ;;
        42) ./convert old <"$work/between" >"$work/moved" && ./convert new <"$work/moved" | cmp - "$work/between" || return ;;
        esac
        cmp "$work/last" "$work/end" || return
        for out in whole one; do sed '/^E0/s/....$//' "$work/$out" >"$work/$out.seen"; done
        cmp "$work/one.seen" "$work/whole.seen" || return
    done
}
for style in mix locks nowait queues full aborts precedences lists ties cuts cycles desks opens display many-locks saved; do
    for seed in 1 2 3; do
        cut_in_two $style $seed 1 4 && cut_in_two $style $seed 2 4 && cut_in_two $style $seed 2 8
        verdict "a log of $style, seed $seed, cut in two with a save between"
    done
done

# Spoilt texts: a kind that never gives a good one is refused, others are loaded or refused; what is loaded is saved as it was.
# second/coverage.sh has many more. Seeds 1 to 3 are of the first form, 4 and 5 of the second, 6 and 7 of eight channels.
words_of() {
    case $1 in
    [123]) words='--form 1' ;;
    [45]) words='--form 2' ;;
    *) words='--channels 8' ;;
    esac
}
for seed in 1 2 3 4 5 6 7; do
    words_of $seed
    board=4
    [ $seed -lt 6 ] || board=8
    ./generate $seed 260 saved $board | ./arbiter2 $words --save "$work/good.$seed" >"$work/got"
done
for kind in $(./spoil 2>&1 | sed -n 's/^kinds: //p'); do
    wrong=
    for seed in 1 2 3 4 5 6 7; do
        words_of $seed
        ./spoil $seed $kind <"$work/good.$seed" >"$work/spoilt"
        if ./arbiter2 $words --load "$work/spoilt" --save "$work/again" </dev/null >"$work/got" 2>"$work/said"; then
            cmp -s "$work/spoilt" "$work/again" || wrong="seed $seed"
            case " lower all-lower nul high strange cr bytes last-lf behind cut cut-line empty blank join long form channels mark id same-id \
                period volume order free-write not-free unlocked key count none seventeen map open-zero opens-33 \
                board shown shown-channel shown-lines " in
            *" $kind "*) cmp -s "$work/spoilt" "$work/good.$seed" || wrong="seed $seed is accepted" ;;
            esac
        elif [ $? -ne 2 ] || [ -s "$work/got" ] || [ ! -s "$work/said" ]; then
            wrong="seed $seed"
        else
            case $kind in opens-32 | last-key | numbers | counted) wrong="seed $seed is refused" ;; esac
            case $kind-$seed in sixteen-[123] | list-[123]) wrong="seed $seed is refused" ;; esac
        fi
    done
    [ -z "$wrong" ]
    verdict "spoilt by $kind: $wrong"
done

echo "test.sh: $passed passed, $failed failed"
[ $failed -eq 0 ]
