#!/bin/sh
# Plays generated logs, damaged logs and random bytes under the address and undefined
# sanitizers, and compares every output with that of the optimised program.
cd "$(dirname "$0")" || exit 1
LC_ALL=C
export LC_ALL
: "${CC:=gcc}" "${SEEDS:=10}"
work=$(mktemp -d) || exit 1
trap 'rm -rf "$work"' EXIT
checks="-std=c99 -Wall -Wextra -pedantic -O1 -g"
checks="$checks -fsanitize=address,undefined -fno-sanitize-recover=all"
parts="arbiter.c log.c chance.c saved.c"
$CC $checks -o "$work/arbiter2" arbiter2.c $parts &&
    $CC $checks -o "$work/generate" generate.c $parts &&
    $CC $checks -o "$work/recount" recount.c $parts &&
    $CC $checks -o "$work/spoil" spoil.c spoilt.c $parts &&
    $CC $checks -o "$work/convert" convert.c $parts &&
    $CC $checks -o "$work/test" test.c stereo.c $parts || exit 1
played=0

# play NAME: $work/log through both programs.
play() {
    "$work/arbiter2" --display <"$work/log" >"$work/checked" && ./arbiter2 --display <"$work/log" >"$work/plain" &&
        cmp "$work/checked" "$work/plain" || { echo "FAILED: $1"; exit 1; }
    played=$((played + 1))
}

# Spoilt texts, with what lies behind them, and their way into the other form: spoil_all OPTION..
spoil_all() {
    for kind in $(./spoil 2>&1 | sed -n 's/^kinds: //p'); do
        for seed in 1 2 3; do
            "$work/spoil" $seed $kind <"$work/good" >"$work/spoilt" && ./spoil $seed $kind <"$work/good" | cmp - "$work/spoilt" || return
            "$work/arbiter2" "$@" --load "$work/spoilt" --save "$work/again" </dev/null 2>"$work/said"
            [ $? -le 2 ] && ! grep -q ERROR "$work/said" || { cat "$work/said"; return 1; }
            for way in new old; do
                "$work/convert" $way <"$work/spoilt" >"$work/again" 2>"$work/said"
                [ $? -le 2 ] && ! grep -q ERROR "$work/said" || { cat "$work/said"; return 1; }
            done
        done
    done
}

"$work/test" || exit 1
"$work/generate" 3 400 saved | ./arbiter2 --save "$work/good" >"$work/plain" && spoil_all || exit 1
"$work/generate" 3 400 saved | ./arbiter2 --form 2 --save "$work/good" >"$work/plain" && spoil_all --form 2 || exit 1
"$work/generate" 3 400 saved 8 | ./arbiter2 --channels 8 --save "$work/good" >"$work/plain" && spoil_all --channels 8 || exit 1
"$work/generate" 1 2000 display 8 >"$work/log" && "$work/recount" 8 1 <"$work/log" || exit 1
seed=0
while [ $seed -lt "$SEEDS" ]; do
    seed=$((seed + 1))
    for style in mix locks nowait queues full aborts precedences refusals malformed lists bytes ties cuts cycles desks opens keys \
        many-locks many-steals many-entries many-waiting display saved; do
        "$work/generate" $seed 2000 $style >"$work/log" || exit 1
        ./generate $seed 2000 $style | cmp - "$work/log" || exit 1
        play "style $style, seed $seed"
        cp "$work/log" "$work/whole"
        for odds in 1 30 1000; do
            ./damage $seed $odds <"$work/whole" >"$work/log"
            play "style $style, seed $seed, damaged at 1 in $odds"
        done
    done
done
for style in mix keys; do
    "$work/generate" 1 72000 $style >"$work/log" || exit 1
    play "style $style, long"
done
head -c 5000000 /dev/zero >"$work/log"
play "one line of NULs"
echo "sanitize.sh: $played logs played, no difference"
