#!/bin/sh
# Any bytes through the library, held against the second program (tests/fuzz.c says how).
#
#   tests/fuzz.sh [SEED [COUNT]]   COUNT logs of 150 lines; 1 and 150 where not given
#   tests/fuzz.sh gate             the fixed set of the gate, then the wrong programs. Its last line is 'N passed, M failed'
#   tests/fuzz.sh wrong            only the wrong programs
#
# The logs are made by second/generate, in each of its styles, for both boards in turn, and lead through good states. Each of their calls is also
# made on eight damaged copies. The same words give the same calls on every machine. At a difference it says how to make it
# again, and shows the call.
#
# A wrong program has one mistake: in the second program, in the translation of states, or in a library that touches what it
# should not. Each must be found: they show that the trial can fail.
#
# Where the library cannot be run it says 'NOT RUN: ..', and passes nothing.
. "$(dirname "$0")/begin.sh"
. tests/trial.sh

what='any bytes'
programs='generate'
usual=150
lines=150
tries=8
parts='tests/fuzz tests/states tests/lent second/chance second/log second/arbiter'

# What was tried, and which numbers came back.
tell_counts() {
    tell_logs
    sums | awk '
        $2 !~ /^(answer|outstanding|reply)$/ { number = $1; sub(/^[0-9]* /, ""); printf "%9d %s\n", number, $0; next }
        $1 { met[$2] = met[$2] sprintf("%s %s: %d", met[$2] ? "," : "", $3, $1) }
        END { printf "answers, by error:%s\noutstanding:%s\nreplies, by error:%s\n", met["answer"], met["outstanding"], met["reply"] }'
}

# reaches: every number that a call can give back has come back, and every kind of call was made.
reaches() {
    sums | awk '
        { number = $1; sub(/^[0-9]* /, ""); sum[$0] = number }
        END {
            want = "answer 0,answer 1,answer 2,answer 3,answer 4,answer 5,answer 8,answer -1,answer -3,answer -4,answer -5,answer -10,answer -11"
            want = want ",outstanding 0,reply 0,reply -2,reply -3,reply -4,reply -5,reply -10,reply -11,reply -12"
            want = want ",sound: accepted,sound: refused,sound: state or table was damaged,not sound,no state: a length or a mark"
            want = want ",no room for an answer,replies to both desks,accepted from A,accepted from B,accepted from no desk"
            want = want ",READs of the other\047s write,cycles ended,writes given up,fresh devices"
            want = want ",numbers on the display that no count gives,more looks than requests wait,lists: not sound"
            want = want ",lists: fewer than 64 records,lists: requests told,lists: held requests told"
            count = split(want, wanted, ",")
            for (i = 1; i <= count; i++)
                if (!sum[wanted[i]]) {
                    print "never met: " wanted[i]
                    missing = 1
                }
            exit missing
        }'
}

# ---- The wrong programs

# spoilt NAME STATEMENT: a library that does this after each call.
spoilt() {
    {
        echo '#include "qamhudeer.h"'
        echo '#define WORDS uint8_t desk, uint8_t op, uint8_t id, uint8_t flags, uint8_t map, uint8_t prec, uint16_t key, \'
        echo '    uint8_t *combos, size_t combos_len, uint8_t *state, size_t state_len, uint8_t *table, size_t table_len, \'
        echo '    uint8_t *display, size_t display_len, uint8_t *replies, size_t replies_len, uint8_t *answer, size_t answer_len'
        echo 'size_t __real_qamhudeer_call(WORDS); size_t __wrap_qamhudeer_call(WORDS); volatile uint8_t seen;'
        echo 'size_t __wrap_qamhudeer_call(WORDS) {'
        echo '    size_t n = __real_qamhudeer_call(desk, op, id, flags, map, prec, key, combos, combos_len, state, state_len,'
        echo '                                     table, table_len, display, display_len, replies, replies_len, answer, answer_len);'
        echo "    $2; return n; }"
    } >"$work/spoilt.c"
    must_differ "$1" -Wl,--wrap=qamhudeer_call "$work/spoilt.c" $(objects_but none)
}

play_wrong() {
    prepare_wrong
    arbiter=second/arbiter.c
    wrong "equal precedence steals" $arbiter 'cost.highest < precedence' 'cost.highest <= precedence'
    wrong "the last of equal costs wins" $arbiter 'costs_less(cost, least)) {' '!costs_less(least, cost)) {'
    wrong "the number stolen is ignored" $arbiter 'return one.stolen < other.stolen;' 'return 0;'
    wrong "more stolen win" $arbiter 'return one.stolen < other.stolen;' 'return one.stolen > other.stolen;'
    wrong "the number weighs before the precedence" $arbiter 'if (one.highest != other.highest)' 'if (one.stolen == other.stolen)'
    wrong "free channels are counted" $arbiter 'cost.stolen++;' 'cost.stolen = (unsigned)__builtin_popcount(combination);'
    wrong "a stolen lock unlocks" $arbiter 'if ((map & chosen) != 0)' 'if ((map & chosen) != 0 && (a->channel[lowest_channel(map)].locked = 0, 1))'
    wrong "65,535 is followed by 2" $arbiter 'LAST_OF_KEYS ? 1' 'LAST_OF_KEYS ? 2'
    wrong "63 records are enough" $arbiter 'r->capacity < REQUESTS' 'r->capacity < REQUESTS - 1'
    wrong "a key of an opener is issued again" $arbiter 'return find_open(&a->open, key) < a->open.count;' 'return 0;'
    wrong "CLOSE removes the newest entry" $arbiter 'unsigned at = find_open(&a->open, f->key);' 'unsigned at = a->open.count; for (unsigned i = 0; i < a->open.count; i++) if (a->open.key[i] == f->key) at = i;'
    wrong "31 entries are the most" $arbiter 'if (a->open.count == MOST_OPENS)' 'if (a->open.count == MOST_OPENS - 1)'
    wrong "an entry of 0 is sound" $arbiter 'if ((open->key[at] != 0) != (at < open->count))' 'if (open->key[at] != 0 && at >= open->count)'
    wrong "sixteen combinations are too many" $arbiter 'f->length > COMBINATIONS' 'f->length >= COMBINATIONS'
    wrong "a map of 16 is beyond eight channels" $arbiter 'return (1u << a->channels) - 1u;' 'return 15u;'
    wrong "five channels are a board" $arbiter 'a->channels != 4 && a->channels != 8' 'a->channels < 4 || a->channels > 8'
    wrong "a channel behind the board need not be free" $arbiter '(c >= a->channels && a->channel[c].key != 0)' '(c > 8 && a->channel[c].key != 0)'
    wrong "any bytes behind a queue are sound" $arbiter 'return all_zero(&list->id[list->count], REQUESTS - list->count);' 'return 1;'
    wrong "an id in two places is sound" $arbiter 'id >= REQUESTS || met[id] ||' 'id >= REQUESTS ||'
    wrong "any order of the waiting is sound" $arbiter 'precedence < q->precedence' 'precedence < -128'
    wrong "an endless write is counted down" $arbiter 'else if (front->cycles > 1)' 'else'
    wrong "the last cycle comes before FINISH" $arbiter 'if (channel->finish) {' 'if (channel->finish && front->cycles != 1) {'
    wrong "a remembered PERVOL is dropped" $arbiter 'front->period = channel->period;' ';'
    wrong "a remembered PERVOL stays" $arbiter 'forget(channel);' ';'
    wrong "a cycle ends while the channel is stopped" $arbiter 'if (in_progress(&a->channel[c])) {' 'if (a->channel[c].writes.count > 0) {'
    wrong "the bit is answered only where something was replied" $arbiter 'return answer(DONE, met, f->key);' 'return answer(DONE, arbiter_replied(r) > 0 ? met : 0, f->key);'
    wrong "F4 answers waiters 0" $arbiter 'end_waiters(a, 1u << c, IOERR_ABORTED, r);' 'end_waiters(a, 1u << c, DONE, r);'
    wrong "F4 needs an open device" $arbiter 'return event(a, f, r);' 'return f->operation == CALL_GAVE_UP && a->open.count == 0 ? refuse(f, REFUSED_CLOSED) : event(a, f, r);'
    wrong "8 before 4" $arbiter 'if (f->id >= REQUESTS)' 'if (arbiter_desk(f->id) == f->desk && f->id >= REQUESTS)'
    wrong "8 after 3" $arbiter 'default: return command(a, f, r);' 'default: return f->id < REQUESTS && a->request[f->id].command != 0 ? refuse(f, REFUSED_OUTSTANDING) : command(a, f, r);'
    wrong "8 after 2" $arbiter 'default: return command(a, f, r);' 'default: return f->id < REQUESTS && a->open.count == 0 && a->request[f->id].command == 0 ? refuse(f, REFUSED_CLOSED) : command(a, f, r);'
    wrong "8 before 5" $arbiter 'r->capacity < REQUESTS' 'r->capacity < REQUESTS && arbiter_desk(f->id) == f->desk'
    wrong "ABORT names any id" $arbiter 'return arbiter_desk(f->id) == f->desk ? DONE' 'return arbiter_desk(f->id) == f->desk || f->operation == CALL_ABORT ? DONE'
    wrong "desk 2 is A" $arbiter 'return arbiter_desk(f->id) == f->desk ? DONE' 'return arbiter_desk(f->id) == f->desk % 2 ? DONE'
    wrong "OPEN asks for a desk" $arbiter 'case CALL_OPEN: return' 'case CALL_OPEN: return f->desk > DESK_B ? refuse(f, REFUSED_DESK) :'
    wrong "id 32 is A's" $arbiter 'return id < HALF ? DESK_A' 'return id <= HALF ? DESK_A'
    wrong "READ shows the other's write" $arbiter '&& arbiter_desk(channel->writes.id[0]) == f->desk' ''
    wrong "B's replies stand behind A's without a gap" $arbiter 'size_t at = desk * HALF + r->count[desk];' 'size_t at = arbiter_replied(r);'
    wrong "the two numbers are swapped" tests/fuzz.c 'b[QAMHUDEER_ANSWER_REPLIES_A] = (uint8_t)replies->count[DESK_A];' 'b[QAMHUDEER_ANSWER_REPLIES_A] = (uint8_t)replies->count[DESK_B];'
    wrong "257 combinations are one" tests/fuzz.c '(n < 255 ? n : 255)' 'n'
    wrong "a table of 65 entries is a table" tests/states.c 'table->length != QAMHUDEER_TABLE_SIZE' 'table->length < QAMHUDEER_TABLE_SIZE'
    wrong "the sixteenth combination is lost" tests/states.c 'memcpy(b + 7, q->combination, COMBINATIONS);' 'memcpy(b + 7, q->combination, COMBINATIONS - 1);'
    wrong "a write that ended is taken away twice" $arbiter '(uint8_t)(r->display->writes[c] + by);' '(uint8_t)(r->display->writes[c] + (by < 0 ? 2 * by : by));'
    wrong "each combination counts" $arbiter '(uint8_t)(r->display->naming[c] + by);' '(uint8_t)(r->display->naming[c] + by * (int)q->length);'
    wrong "the head is no look" $arbiter 'looks++;' 'looks += at > 0;'
    wrong "looks begin anew after a grant" $arbiter 'end_waiting(a, at, DONE, chosen, r);' 'end_waiting(a, at, DONE, chosen, r), looks = 0;'
    wrong "a failing request is told as held" $arbiter '&chosen) == LOOK_HELD;' '&chosen) != LOOK_GRANTED;'
    wrong "63 records of who waits are enough" $arbiter 'if (capacity < REQUESTS)' 'if (capacity < REQUESTS - 1)'
    wrong "a display of 17 bytes is one" tests/fuzz.c 'c->piece[DISPLAY].length != QAMHUDEER_DISPLAY_SIZE)' 'c->piece[DISPLAY].length < 17)'
    wrong "the looks have the low byte first" tests/states.c 'put_key(b + QAMHUDEER_DISPLAY_LOOKS, d->looks);' 'put_key(b + QAMHUDEER_DISPLAY_LOOKS, (uint16_t)(d->looks << 8 | d->looks >> 8));'
    spoilt "a number of the display is counted anew" 'if (n != 255 && state_len == 823) display[0] = state[5]'
    spoilt "a refused call moves the display" 'if (answer_len == 8 && answer[1] == 4 && display_len == 18) display[17] ^= 1'
    spoilt "a byte behind the display is written" 'display[display_len] ^= 1'
    spoilt "a byte behind the table is read" 'seen = table[table_len]'
    spoilt "a byte before the state is written" 'state[-1] ^= 1'
    spoilt "a byte behind the answer is written" 'answer[answer_len] ^= 1'
    spoilt "a record behind A's last is written" 'if (answer_len == 8 && answer[6] < 32 && replies_len >= 384) replies[6 * answer[6] + 5] ^= 1'
    spoilt "a record behind B's last is written" 'if (answer_len == 8 && answer[7] < 32 && replies_len >= 384) replies[6 * (32 + answer[7])] ^= 1'
    spoilt "the result is A's number" 'if (answer_len == 8) n = answer[6]'
    spoilt "a combination is written" 'if (combos_len > 0) combos[0] ^= 1'
    spoilt "an unsound table moves" 'if (answer_len == 8 && answer[1] == 1 && table_len > 9) table[9] ^= 1'
    spoilt "an answer without room is written" 'if (n == 255 && answer_len > 0) answer[0] ^= 1'
}

three_ways "$@"
