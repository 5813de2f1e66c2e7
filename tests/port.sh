#!/bin/sh
# The service port of request #107, through the library: logs cut at random, then any bytes as port, room, state and table, held
# against the second program (tests/port.c says how).
#
#   tests/port.sh [SEED [COUNT]]   COUNT logs; 1 and 64 where not given
#   tests/port.sh gate             the fixed set of the gate, then the wrong programs. Its last line is 'N passed, M failed'
#   tests/port.sh wrong            only the wrong programs
#
# A log is made by second/generate, in each of its styles, for both boards in turn; every other one is damaged, so that lines are
# joined, cut or too long. The output of its fragments, put together, must be what arbiter2 writes of the whole. The same words
# give the same calls on every machine.
#
# Where the library cannot be run it says 'NOT RUN: ..', and passes nothing.
. "$(dirname "$0")/begin.sh"
. tests/trial.sh

what='the service port'
programs='arbiter2 generate damage'
usual=64
styles='mix locks queues full malformed lists bytes cuts cycles desks display many-waiting'
kinds='long join cut end'
lines=60
tries=3
parts='tests/port tests/states tests/lent second/port second/chance second/log second/arbiter'

# ---- The logs

# What arbiter2 writes of the log is in $work/whole.
log() {
    number=$1
    board=$((4 + number % 2 * 4))
    chance=$((seed * 100000 + number))
    set -- $styles
    shift $((number / 2 % $#))
    made="generate $chance $lines $1 $board"
    second/$made >"$work/log" || die "second/$made fails"
    if [ $((number % 4)) -gt 1 ]; then
        set -- $kinds
        shift $((number / 4 % $#))
        mv "$work/log" "$work/undamaged"
        second/damage $chance 200 $1 <"$work/undamaged" >"$work/log" || die "second/damage fails"
        made="$made | damage $chance 200 $1"
    fi
    second/arbiter2 --channels $board <"$work/log" >"$work/whole" || die "second/arbiter2 fails"
}

# play PROGRAM: the log, in fragments.
play() {
    run_c "$1" $chance $tries $board "$work/pieces" <"$work/log" >"$work/said" 2>&1 || return
    cmp -s "$work/pieces" "$work/whole" && return
    echo "DIFFERENT: the output of the fragments is not that of the whole log" >>"$work/said"
    return 1
}

# ---- The wrong programs

# spoilt NAME STATEMENT: a library that does this after each fragment.
spoilt() {
    {
        echo '#include "qamhudeer.h"'
        echo '#define WORDS uint8_t *fragment, size_t fragment_len, uint8_t *port, size_t port_len, uint8_t *state, size_t state_len, \'
        echo '    uint8_t *table, size_t table_len, uint8_t *display, size_t display_len, uint8_t *out, size_t out_len, \'
        echo '    size_t *used, size_t *written'
        echo 'uint8_t __real_qamhudeer_feed(WORDS); uint8_t __wrap_qamhudeer_feed(WORDS);'
        echo 'uint8_t __wrap_qamhudeer_feed(WORDS) {'
        echo '    uint8_t r = __real_qamhudeer_feed(fragment, fragment_len, port, port_len, state, state_len, table, table_len,'
        echo '                                      display, display_len, out, out_len, used, written);'
        echo "    $2; return r; }"
    } >"$work/spoilt.c"
    must_differ "$1" -Wl,--wrap=qamhudeer_feed "$work/spoilt.c" $(objects_but none)
}

play_wrong() {
    prepare_wrong
    port=second/port.c
    wrong "the line after the LF is lost" $port 'return i + 1;' 'return length;'
    wrong "a line is cut at 526 characters" $port 'p->started < PORT_LINE' 'p->started < PORT_LINE - 1'
    wrong "the last line stays in the port" $port 'p->started = 0;' ';'
    wrong "nothing standing is a last line" $port 'p->started == 0 ? 0 : answer_line(p, a, text)' 'answer_line(p, a, text)'
    wrong "a frame on no state is malformed" $port 'answer.error = REFUSED_UNSOUND;' ';'
    wrong "B's replies are written first" second/log.c 'for (unsigned desk = 0; desk < DESKS; desk++)' 'for (unsigned desk = DESKS; desk-- > 0;)'
    wrong "every frame is A's" second/log.c 'f->desk = (uint8_t)arbiter_desk(f->id);' 'f->desk = DESK_A;'
    wrong "the output stands, and the state does not" tests/port.c 'if (memcmp(before, after, sizeof *before) != 0)' 'if (0)'
    wrong "room of 972 bytes is enough" tests/port.c 'length < LONGEST_OUTPUT)' 'length < LONGEST_OUTPUT - 1)'
    wrong "528 characters may stand" tests/port.c 'byte[1] > PORT_LINE)' 'byte[1] > PORT_LINE + 1)'
    wrong "528 bytes are a port" tests/port.c 'length != QAMHUDEER_PORT_SIZE ||' 'length < QAMHUDEER_PORT_SIZE - 1 ||'
    wrong "a display of 17 bytes is one" tests/port.c 'length != QAMHUDEER_DISPLAY_SIZE)' 'length < 17)'
    spoilt "a malformed line moves the display" 'if (r == 0 && *written == 13 && out[3] == 55 && display_len == 18) display[17] ^= 1'
    spoilt "a byte behind the output is written" 'if (r == 0 && *written < out_len) out[*written] ^= 1'
    spoilt "a byte of the fragment is written" 'if (fragment_len > 0) fragment[0] ^= 1'
    spoilt "a refused port moves" 'if (r != 0 && port_len > 9) port[9] ^= 1'
    spoilt "what is used is told after a refusal" 'if (r != 0) *used = fragment_len'
}

three_ways "$@"
