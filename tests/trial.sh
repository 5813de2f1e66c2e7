# A trial of the library beside the second program, over logs, and the wrong programs that it must find. POSIX sh; it is read by '.'
# behind begin.sh. The test that reads it says these:
#
#   what           what is tried, in words
#   programs       the programs of second/ that it needs
#   usual          how many logs, where no number is given
#   parts          the parts of its program in C, folder/name, its own first
#   play_wrong     the wrong programs: prepare_wrong, then each
#   lines, tries   how many lines a log has; how often each of its calls is tried, for play
#
# and has these, of which it may say the first five otherwise:
#
#   styles                     those of second/generate, for log
#   log NUMBER                 makes a log in $work/log, of each style and for both boards in turn, and says in $made how; also $chance
#                              and $board, for play
#   play PROGRAM               plays the log: status 0 where there is no difference, and what the program said in $work/said
#   tell_counts                what was tried, by sums: status 1 where something was never met
#   reaches                    status 1 where something else was never met
#   three_ways WORDS..         the trial, by the words of the command: [SEED [COUNT]], gate or wrong
#   sums                       what was counted in $work/counts, in all
#   tell_logs                  how many logs were played
#   prepare                    the library, the programs, and the trial as $work/trial
#   play_logs                  $count logs of $seed; what was counted in $work/counts
#   prepare_wrong              what the wrong programs are made from
#   must_differ NAME WORDS..   the program made from these finds a difference in one of forty logs
#   objects_but PART           those of all other parts
#   wrong NAME FILE OLD NEW    in a copy of the file OLD, which stands there once, is NEW: that must differ
styles='mix locks nowait queues full aborts precedences refusals malformed lists bytes ties opens cuts cycles desks display'
styles="$styles many-locks many-steals many-entries many-waiting"

log() {
    number=$1
    set -- $styles
    # At each round the boards change places.
    board=$((4 + (number % $# + number / $#) % 2 * 4))
    shift $((number % $#))
    chance=$((seed * 100000 + number))
    made="generate $chance $lines $1 $board"
    second/$made >"$work/log" || die "second/$made fails"
}

play() {
    run_c "$1" $chance $tries $board <"$work/log" >"$work/said" 2>&1
}

# sums: 'NUMBER NAME' for each name that was counted, in the order in which they were met.
sums() {
    awk '
        { name = $0; sub(/^count [0-9]* /, "", name) }
        !(name in sum) { order[++names] = name }
        { sum[name] += $2 }
        END { for (i = 1; i <= names; i++) print sum[order[i]], order[i] }' "$work/counts"
}

tell_logs() {
    echo "seed $seed, $count logs, $failed of them with a difference:"
}

tell_counts() {
    tell_logs
    sums | awk '
        { number = $1; sub(/^[0-9]* /, ""); printf "%9d %s\n", number, $0; missing += !number }
        END { exit missing > 0 || NR == 0 }'
}

reaches() {
    :
}

three_ways() {
    case ${1:-} in
    gate)
        prepare
        seed=1 count=$usual
        play_logs
        if tell_counts && reaches; then
            passed=$((passed + 1))
        else
            failed=$((failed + 1))
            echo "FAILED: some kind of call was never made"
        fi
        play_wrong
        finish
        ;;
    wrong)
        prepare
        seed=1
        play_wrong
        finish
        ;;
    *)
        seed=${1:-1} count=${2:-$usual}
        case $seed$count in *[!0-9]*) die "usage: $0 [SEED [COUNT]], $0 gate or $0 wrong" ;; esac
        prepare
        play_logs
        tell_counts
        [ $failed -eq 0 ]
        ;;
    esac
}

prepare() {
    if ! linker_ready; then
        not_run "$what: the library is for x86-64, and no $linker or no emulator is here, and none could be installed"
        echo "0 passed, 0 failed"
        exit $skipped
    fi
    library_ready && make -C second -s ${CC:+CC="$CC"} $programs >"$work/made" 2>&1 &&
        link_c "$work/trial" $(printf '%s.c ' $parts) >>"$work/made" 2>&1 && return
    [ ! -f "$work/made" ] || cat "$work/made"
    echo "FAILED: the library or its trial does not build"
    echo "0 passed, 1 failed"
    exit 1
}

# limit SECONDS: a library that hangs is a difference too.
limit() {
    ! command -v timeout >/dev/null || how="timeout $1"
}

play_logs() {
    at=0
    : >"$work/counts"
    limit 300
    while [ $at -lt "$count" ]; do
        log $at
        if play "$work/trial"; then
            passed=$((passed + 1))
            cat "$work/said" >>"$work/counts"
        else
            failed=$((failed + 1))
            echo "DIFFERENT: log $at of seed $seed: $made"
            [ $failed -gt 3 ] || grep -v '^count' "$work/said"
        fi
        at=$((at + 1))
    done
}

prepare_wrong() {
    mkdir -p "$work/tree/tests" "$work/tree/second" && cp tests/*.h "$work/tree/tests" && cp second/*.h "$work/tree/second" || exit 2
    for part in $parts; do
        $linker -std=c99 -O2 -Iinclude -c -o "$(object $part)" $part.c || die "$part.c does not compile"
    done
    limit 60
}

# object PART: two parts of one name stand in two folders.
object() {
    echo "$work/${1%%/*}-${1#*/}.o"
}

must_differ() {
    name=$1
    shift
    link_c "$work/wrong" -w "$@" >"$work/said" 2>&1 || { cat "$work/said"; die "does not build: $name"; }
    at=0
    log 0
    while [ $at -lt 40 ] && play "$work/wrong"; do
        at=$((at + 1))
        log $at
    done
    if [ $at -lt 40 ] && grep -q '^DIFFERENT: ' "$work/said"; then
        passed=$((passed + 1))
        echo "found: $name: $(sed -n 's/^DIFFERENT: //p' "$work/said" | head -n 1)"
    else
        failed=$((failed + 1))
        echo "FAILED: not found: $name"
    fi
}

objects_but() {
    for part in $parts; do
        [ $part = "$1" ] || object $part
    done
}

wrong() {
    altered "$2" "$3" "$4" >"$work/tree/$2" || die "not once in $2: $3"
    must_differ "$1" "$work/tree/$2" $(objects_but "${2%.c}")
}
