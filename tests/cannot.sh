#!/bin/sh
# The logs of the inspector's first page, examples/cannot: each is played by the proved program and by the second program, and told by
# ./explain --brief, and must give what stands beside it. Of the two pairs of logs, what one party is told must be the same in both. The
# old engine, which reads sixteen of seventeen combinations, must be found. And the wall of README.md's picture, examples/ferry.log, has
# its alarm. The last line is 'N passed, M failed'.
#
#   sh tests/cannot.sh [write]     write: writes the outputs anew, to be read before they are committed
#
# POSIX sh and awk.
. "$(dirname "$0")/begin.sh"
case ${1:-} in '' | write) ;; *) die "tests/cannot.sh [write]" ;; esac
writes=${1:-}
logs=examples/cannot
make -C second -s ${CC:+CC="$CC"} arbiter2 >"$work/made" 2>&1 || { cat "$work/made"; die "second/arbiter2 does not build"; }

# played PROGRAM NAME: its output of the log is the one beside it
played() {
    "$1" <$logs/"$2".log >"$work/out" || return
    [ -z "$writes" ] || cp "$work/out" $logs/"$2".out
    diff $logs/"$2".out "$work/out"
}

told() {
    ./explain --brief <$logs/"$1".log >"$work/out" || return
    [ -z "$writes" ] || cp "$work/out" $logs/"$1".txt
    diff $logs/"$1".txt "$work/out"
}

# Every log that stands there is named on the page, and every one that it names stands there.
on_the_page() {
    ls $logs | sed -n 's/\.log$//p' >"$work/there"
    grep -o "$logs/[0-9a-z-]*\.log" docs/inspector.md | sed 's,.*/,,; s/\.log$//' | sort -u | diff "$work/there" -
}

# What A and the channels of A are told, in words: without the calls' numbers, and without who waits, which may be B's.
to_desk_a() {
    awk '$2 != "cycle-end" && $3 != "A" { next } { sub(/^ *[0-9]+ +/, ""); sub(/; [0-9]+ waits?$/, ""); print }' "$logs/$1.txt"
}

undisturbed() {
    to_desk_a 09-others-quiet >"$work/quiet" && to_desk_a 09-others-busy | diff "$work/quiet" - && [ "$(wc -l <"$work/quiet")" -eq 6 ]
}

# The inserted call is the sixth, its answer one line: the only one with its key, 77 or 4D.
not_slipped_in() {
    [ "$(grep -c '^A0F600004DFF$' $logs/10-stray-with.out)" -eq 1 ] &&
        grep -v '^A0F600004DFF$' $logs/10-stray-with.out | diff $logs/10-stray-without.out -
}

# A program that does what the old engine did: it drops the seventeenth combination, and says nothing.
old_engine() {
    sed 's/^\(20............\)11\(................................\)..$/\110\2/' | second/arbiter2
}

found() {
    ! diff $logs/01-seventeen.out "$work/wrong" >/dev/null
}

# The picture itself is not compared: docs/wall.png is the Wall view of this page, at its last call, in a window of 1280 by 800.
ferry() {
    ./wall --call 13 --names examples/ferry.names <examples/ferry.log >"$work/ferry" &&
        grep -q "^ALARM: B's request 40 waits since call 13 for Tickets+Arrivals+Car deck+Quay" "$work/ferry" &&
        grep -q 'In its way: key 1 (Harbour' "$work/ferry" && [ "$(wc -l <examples/ferry.log)" -eq 13 ]
}

for log in $logs/*.log; do
    of=${log##*/}
    of=${of%.log}
    check "$of, by the proved program" played ./arbiter-log "$of"
    check "$of, by the second program" played second/arbiter2 "$of"
    check "$of, in words" told "$of"
done
check "the inspector's page names these logs" on_the_page
check "the others do not disturb A" undisturbed
check "a stray command changes nothing for the others" not_slipped_in
old_engine <$logs/01-seventeen.log >"$work/wrong"
check "the engine that reads sixteen of seventeen is found" found
check "the wall of examples/ferry.log has its alarm" ferry
finish
