#!/bin/sh
# Counts what the generated logs reach: seeds 1 to 20 at 1000 lines on each board, the wall display on each, saved
# texts, then the long styles.
cd "$(dirname "$0")" || exit 1
work=$(mktemp -d) || exit 1
trap 'rm -rf "$work"' EXIT

for seed in 1 2 3 4 5 6 7 8 9 10 11 12 13 14 15 16 17 18 19 20; do
    ./generate $seed 1000 >"$work/short.$seed"
done
echo "Seeds 1 to 20, 1000 lines each"
./coverage-count SHORT "$work"/short.* || exit 1

for seed in 1 2 3 4 5 6 7 8 9 10 11 12 13 14 15 16 17 18 19 20; do
    ./generate $seed 1000 mix 8 >"$work/eight.$seed"
done
echo
echo "The same on eight channels"
./coverage-count EIGHT "$work"/eight.* || exit 1

for board in 4 8; do
    for seed in 1 2 3 4 5 6 7 8 9 10; do
        ./generate $seed 1000 display $board >"$work/display.$seed"
    done
    rows=DISPLAY
    [ $board -eq 4 ] || rows=DISPLAY8
    echo
    echo "The wall display: style display, seeds 1 to 10, 1000 lines each, on $board channels"
    ./coverage-count $rows "$work"/display.* || exit 1
done

for seed in 1 2 3 4 5 6 7 8 9 10; do
    ./generate $seed 1000 saved >"$work/saved.$seed"
done
echo
echo "Saved texts: style saved, seeds 1 to 10, 1000 lines each"
./coverage-count SAVED "$work"/saved.* || exit 1
echo
echo "The same in the second form"
./coverage-count SAVED2 "$work"/saved.* || exit 1
for seed in 1 2 3 4 5 6 7 8 9 10; do
    ./generate $seed 1000 saved 8 >"$work/saved.$seed"
done
echo
echo "The same on eight channels"
./coverage-count SAVED8 "$work"/saved.* || exit 1

for seed in 1 2 3 4 5 6; do
    ./generate $seed 70000 keys >"$work/long.keys.$seed"
    ./generate $seed 90000 >"$work/long.mix.$seed"
done
echo
echo "Seeds 1 to 6: style keys at 70,000 lines, the mix at 90,000"
./coverage-count LONG "$work"/long.*
