#!/bin/sh
# Makes the old logs and their outputs again: by the generator and the second program of the commit before request #101, of
# which premise.awk keeps the lines that an old log may have. Long lines and strange bytes are left out, to keep them short.
# The logs of changed/ were written by hand; here only their outputs of then are made.
cd "$(dirname "$0")" || exit 1
LC_ALL=C
export LC_ALL
before=7f7d449
work=$(mktemp -d) || exit 1
trap 'rm -rf "$work"' EXIT
git -C ../.. archive $before second | tar -x -C "$work" && make -s -C "$work/second" all || exit 1
rm -f ./*.log ./*.out

# half A|B: each id of up to 63 becomes the one of this half.
half() {
    case $1 in
    A) sed 's/^\(..\)2/\10/; s/^\(..\)3/\11/' ;;
    B) sed 's/^\(..\)0/\12/; s/^\(..\)1/\13/' ;;
    esac
}

# old SEED LINES STYLE BOARD HALF [shown]: with the channels shown, or not.
old() {
    name=$3-$4${6:+-$6}
    "$work/second/generate" "$1" "$2" "$3" "$4" | tr -cd '\n -~' | awk 'length($0) <= 120' | half $5 |
        awk -f premise.awk >"$name.log"
    "$work/second/arbiter2" --channels "$4" ${6:+--show} <"$name.log" >"$name.out"
}
old 1 170 queues 4 A
old 2 170 queues 8 B
old 3 150 mix 4 B
old 4 150 mix 8 A
old 5 120 full 4 A
old 6 120 aborts 8 B
old 7 150 refusals 4 A
old 8 120 malformed 8 A
old 9 120 locks 4 B
old 10 60 queues 4 B shown
old 11 40 queues 8 A shown

for log in changed/*.log; do
    "$work/second/arbiter2" <"$log" >"${log%.log}.then"
done
