#!/bin/sh
# The stereo lists of request #108: the library for C beside the second program (tests/stereo.c says how), then wrong second
# programs, each of which must be found, then the command ./stereo. The last line is 'N passed, M failed'. What cannot be run here
# is told by a line 'NOT RUN: ..', and counts as neither.
. "$(dirname "$0")/begin.sh"

pass() {
    passed=$((passed + 1))
}

fail() {
    failed=$((failed + 1))
    echo "FAILED: $*"
}

# ---- The library beside the second program

# agree KIND NAME
agree() {
    if run_c "$work/stereo" "$1" >"$work/said" 2>&1; then
        pass
        echo "$2: $(cat "$work/said")"
    else
        tail -n 5 "$work/said"
        fail "$2"
    fi
}

# wrong NAME KIND OLD NEW: in a copy of the second program OLD, which stands there once, is NEW. The trial of this kind finds it.
wrong() {
    if ! altered second/stereo.c "$3" "$4" >"$work/wrong.c"; then
        fail "not once in second/stereo.c: $3"
    elif ! link_c "$work/wrong" -Isecond tests/stereo.c second/chance.c "$work/wrong.c" >"$work/said" 2>&1; then
        cat "$work/said"
        fail "does not build: $1"
    elif run_c "$work/wrong" "$2" >"$work/said" 2>&1 || ! grep -q '^DIFFERENT: ' "$work/said"; then
        fail "not found: $1"
    else
        pass
        echo "found: $1: $(sed -n 's/^DIFFERENT: //p' "$work/said")"
    fi
}

if ! library_ready; then
    fail "the library is not built"
elif ! linker_ready; then
    left=1
    not_run "stereo lists from C: the library is for x86-64, and no $linker or no emulator is here, and none could be installed"
elif ! link_c "$work/stereo" tests/stereo.c second/chance.c second/stereo.c >"$work/said" 2>&1; then
    cat "$work/said"
    fail "tests/stereo.c does not build"
else
    agree make "the maker on every wish and room"
    agree lists "the checker on every short list"
    agree damaged "the checker on damaged lists"
    agree long "the checker on long lists"
    wrong "channel 2 sounds left" make '{1u << 0, 1u << 3}, {1u << 1, 1u << 2}' '{1u << 0, 1u << 2}, {1u << 1, 1u << 3}'
    wrong "12 before 11" make 'return STEREO_NUMBER;' 'return room < STEREO_MOST ? STEREO_SHORT : STEREO_NUMBER;'
    wrong "room for three is enough" make 'room < STEREO_MOST' 'room < STEREO_MOST - 1'
    wrong "a map may stand twice" damaged 'met[m] != wanted[m]' '(met[m] > 0) != wanted[m]'
    wrong "maps from 10 on are not looked at" lists 'met[m] != wanted[m]' 'm < 16 && met[m] != wanted[m]'
    wrong "a count of one byte" long 'size_t met[PLACES]' 'uint8_t met[PLACES]'
    wrong "a count of two bytes" long 'size_t met[PLACES]' 'uint16_t met[PLACES]'
    wrong "the empty list is accepted for 3" lists '(left, right, wanted) == 0' '(left, right, wanted) == 9'
fi

# ---- The command

# says STATUS OUTPUT WORDS..: the command with these words. A status of 2 comes with a word on standard error alone.
says() {
    status=$1
    output=$2
    shift 2
    ./stereo "$@" >"$work/out" 2>"$work/err" </dev/null
    got=$?
    case $status in
    2) : >"$work/expected" && [ -s "$work/err" ] ;;
    *) printf '%s\n' "$output" >"$work/expected" && [ ! -s "$work/err" ] ;;
    esac && [ $got -eq "$status" ] && cmp -s "$work/expected" "$work/out" && pass && return
    cat "$work/out" "$work/err"
    fail "./stereo $*: status $got, not $status, or another output than '$output'"
}

# wish LEFT RIGHT LIST BACKWARD: the list is made, and accepted in both orders.
wish() {
    says 0 "$3" "$1" "$2"
    says 0 accepted check "$1" "$2" "$3"
    says 0 accepted check "$1" "$2" "$4"
    says 1 'not accepted' check "$1" "$2" "${3}10"
}

# refused WORDS..: with 11, and told so.
refused() {
    says 2 '' "$@"
    if grep -q 'refused 11' "$work/err"; then pass; else fail "./stereo $* does not tell 11"; fi
}

if ! proved_program stereo_program; then
    fail "./stereo is not built"
else
    wish 0 0 00 00
    wish 0 1 0204 0402
    wish 0 2 06 06
    wish 1 0 0108 0801
    wish 1 1 03050A0C 0C0A0503
    wish 1 2 070E 0E07
    wish 2 0 09 09
    wish 2 1 0B0D 0D0B
    wish 2 2 0F 0F
    for list in '' 03 03050A 03050A0A 03050A0C03 03050A0C00 030C 06 FF; do says 1 'not accepted' check 1 1 "$list"; done
    says 1 'not accepted' check 0 0 ''
    says 1 'not accepted' check 0 0 0000
    says 1 'not accepted' check 3 0 ''
    says 1 'not accepted' check 0 3 00
    says 1 'not accepted' check 2 1 09
    says 0 03050A0C 0001 1
    says 0 03050A0C 1 00000000000000000001
    says 0 accepted check 0001 01 0C0A0503
    says 1 'not accepted' check 0003 1 0C0A0503
    refused 0003 1
    refused 3 0
    refused 0 3
    refused 255 255
    refused 256 0
    refused 1 99999999999999999999
    for words in '' 1 '1 1 1' 'x 1' '1 x' '-1 1' '1 1.0' 'check' 'check 1 1' 'check 1 1 03 05' 'check x 1 03' '--channels 8' '--channels 8 1 1' '--loud'; do
        says 2 '' $words
    done
    for list in 0 030 0a 0G ' 03' 03,05 -; do says 2 '' check 1 1 "$list"; done
    says 2 '' '' ''
fi

echo "$passed passed, $failed failed"
[ $failed -eq 0 ] || exit 1
[ $left -eq 0 ] || exit $skipped
