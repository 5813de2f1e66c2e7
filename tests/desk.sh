#!/bin/sh
# The functions of include/qamhudeer_desk.h beside the plain call (tests/desk.c says how).
#
#   tests/desk.sh [SEED [COUNT]]   COUNT logs of 200 lines; 1 and 46 where not given
#   tests/desk.sh gate             the fixed set of the gate, in C and in C++, then the mistakes. Its last line is 'N passed, M failed'
#   tests/desk.sh wrong            only the mistakes
#
# The logs are made by second/generate, in each of its styles, for both boards in turn. A mistake is one in a copy of the header, or a
# library with another size; each must be found: they show that the trial can fail.
#
# Where the library cannot be run it says 'NOT RUN: ..', and passes nothing.
. "$(dirname "$0")/begin.sh"
. tests/trial.sh

what="the desk's header"
programs='generate'
usual=46
lines=200
tries=4
parts='tests/desk second/chance second/log second/arbiter'

# ---- In C++

in_cxx() {
    $cxx -std=c++11 -O2 -Wall -Wextra -pedantic -Werror -Iinclude -o "$work/in-c++" -x c++ tests/desk.c \
        -x none $(objects_but tests/desk) "$library" && log 0 && play "$work/in-c++"
}

try_cxx() {
    if find_cxx || { install_packages g++ && find_cxx; }; then
        check "the trial in C++11" in_cxx
    else
        leave "the desk's header in C++: no C++ compiler for x86-64 is here, and none could be installed"
    fi
}

# ---- A library that answers nothing

# silent FOLDER: with the header of this folder a call that the library has not answered is told as an error, without replies.
silent() {
    cat >"$work/silent.c" <<'END'
#include "qamhudeer_desk.h"
size_t __wrap_qamhudeer_call(void);
size_t __wrap_qamhudeer_call(void) { return QAMHUDEER_UNANSWERED; }
static struct qamhudeer_device device;
int main(void)
{
    struct qamhudeer_answer answer;
    struct qamhudeer_reply reply;

    device.answer[QAMHUDEER_ANSWER_OUTSTANDING] = device.answer[QAMHUDEER_ANSWER_REPLIES_A] = device.answer[QAMHUDEER_ANSWER_REPLIES_B] = 1;
    answer = qamhudeer_desk_close(&device, 258);
    return answer.outstanding || answer.error != QAMHUDEER_UNSOUND || answer.key != 258 ||
        qamhudeer_desk_reply(&device, QAMHUDEER_DESK_A, 0, &reply) || qamhudeer_desk_reply(&device, QAMHUDEER_DESK_B, 0, &reply);
}
END
    link_c "$work/silent" -iquote "$1" -Wl,--wrap=qamhudeer_call "$work/silent.c" && run_c "$work/silent"
}

# ---- The mistakes

# wrong_header NAME OLD NEW: tests/desk.c with such a copy of the header, which it finds beside itself.
wrong_header() {
    altered include/qamhudeer_desk.h "$2" "$3" >"$work/tree/tests/qamhudeer_desk.h" || die "not once in the header: $2"
    must_differ "$1" "$work/tree/tests/desk.c" $(objects_but tests/desk)
}

# wrong_word NAME COMMAND OTHER: a function sends the other one.
wrong_word() {
    wrong_header "$1" "qamhudeer_desk_command(device, $2, request)" "qamhudeer_desk_command(device, $3, request)"
}

# other_library FUNCTION TYPE MORE: a library in which this function returns so much more.
other_library() {
    echo "#include \"qamhudeer.h\"
$2 __real_$1(void); $2 __wrap_$1(void); $2 __wrap_$1(void) { return __real_$1() + $3; }" >"$work/other.c"
    must_differ "$1 is another" -Wl,--wrap="$1" "$work/other.c" $(objects_but none)
}

not() {
    ! "$@"
}

play_wrong() {
    prepare_wrong
    try_cxx
    cp tests/desk.c "$work/tree/tests" || exit 2
    check "a library that answers nothing" silent include
    altered include/qamhudeer_desk.h "put_error(device, QAMHUDEER_UNSOUND, request->key)" "channels(device)" \
        >"$work/tree/tests/qamhudeer_desk.h" ||
        die "not once in the header: put_error"
    check "a library that answers nothing, and an answer that is left as it was, is found" not silent "$work/tree/tests"
    wrong_header "a precedence is made to fit" 'if (prec < ADALLOC_MINPREC || prec > ADALLOC_MAXPREC) {' 'if (prec < -32768) {'
    wrong_header "127 is refused" 'prec > ADALLOC_MAXPREC)' 'prec >= ADALLOC_MAXPREC)'
    wrong_header "-128 is refused" 'prec < ADALLOC_MINPREC ||' 'prec <= ADALLOC_MINPREC ||'
    wrong_header "a precedence is handed over plus 128" '(uint8_t)(prec & 255)' '(uint8_t)(prec + 128)'
    wrong_header "a refused precedence leaves the old replies" 'put_error(device, QAMHUDEER_DESK_BADPREC, request->key)' 'channels(device)'
    wrong_header "a refusal tells no key" 'device->answer[QAMHUDEER_ANSWER_KEY + 1] = (uint8_t)(key & 255);' ';'
    wrong_header "SETPREC has precedence 0" 'ADCMD_SETPREC, request, prec, NULL, 0' 'ADCMD_SETPREC, request, 0, NULL, 0'
    wrong_header "ALLOCATE has precedence 0" 'ADCMD_ALLOCATE, request, prec,' 'ADCMD_ALLOCATE, request, 0,'
    wrong_header "OPEN has precedence 0" 'QAMHUDEER_OPEN, 0, key, prec,' 'QAMHUDEER_OPEN, 0, key, 0,'
    wrong_header "OPEN takes no combinations" 'QAMHUDEER_OPEN, 0, key, prec, combos, length' 'QAMHUDEER_OPEN, 0, key, prec, combos, 0'
    wrong_header "OPEN always has a new key" 'QAMHUDEER_OPEN, 0, key,' 'QAMHUDEER_OPEN, 0, 0,'
    wrong_header "CLOSE has no key" 'QAMHUDEER_CLOSE, 0, key,' 'QAMHUDEER_CLOSE, 0, 0,'
    wrong_header "a cycle ends on channel 0" 'QAMHUDEER_CYCLE_ENDED, map,' 'QAMHUDEER_CYCLE_ENDED, 1,'
    wrong_header "the events are swapped" 'QAMHUDEER_GAVE_UP, map,' 'QAMHUDEER_CYCLE_ENDED, map,'
    wrong_word "FLUSH resets" CMD_FLUSH CMD_RESET
    wrong_word "STOP starts" CMD_STOP CMD_START
    wrong_word "START stops" CMD_START CMD_STOP
    wrong_word "RESET flushes" CMD_RESET CMD_FLUSH
    wrong_word "UPDATE reads" CMD_UPDATE CMD_READ
    wrong_word "CLEAR flushes" CMD_CLEAR CMD_FLUSH
    wrong_word "READ updates" CMD_READ CMD_UPDATE
    wrong_word "FREE locks" ADCMD_FREE ADCMD_LOCK
    wrong_word "LOCK frees" ADCMD_LOCK ADCMD_FREE
    wrong_word "FINISH waits" ADCMD_FINISH ADCMD_WAITCYCLE
    wrong_word "WAITCYCLE finishes" ADCMD_WAITCYCLE ADCMD_FINISH
    wrong_word "ABORT flushes" QAMHUDEER_ABORT CMD_FLUSH
    wrong_header "PERVOL writes" '(device, ADCMD_PERVOL, request, 0,' '(device, CMD_WRITE, request, 0,'
    wrong_header "a write is endless" 'CMD_WRITE, request, cycles, period' 'CMD_WRITE, request, 0, period'
    wrong_header "cycles have the low byte first" '(cycles >> 8 & 255)' '(cycles & 255)'
    wrong_header "a period of 65,536 is 0" '(uint8_t)(period >> 16 & 255)' '0'
    wrong_header "65,537 cycles are one" 'cycles > 65535 ||' ''
    wrong_header "a period is taken modulo 2^24" 'period > 16777215 ||' ''
    wrong_header "a volume of 320 is 64" '|| volume > 255 ?' '?'
    wrong_header "the desk is always A" 'qamhudeer_call(request->desk, op,' 'qamhudeer_call(QAMHUDEER_DESK_A, op,'
    wrong_header "the id is lost" 'op, request->id, request->flags' 'op, 0, request->flags'
    wrong_header "the flags are lost" 'request->id, request->flags, request->map' 'request->id, 0, request->map'
    wrong_header "the key has one byte" '(uint8_t)(prec & 255), request->key,' '(uint8_t)(prec & 255), request->key & 255,'
    wrong_header "an answer's error is its byte" 'QAMHUDEER_ERROR(bytes[QAMHUDEER_ANSWER_ERROR])' 'bytes[QAMHUDEER_ANSWER_ERROR]'
    wrong_header "an answer's key has the low byte twice" 'bytes[QAMHUDEER_ANSWER_KEY] << 8' 'bytes[QAMHUDEER_ANSWER_KEY + 1] << 8'
    wrong_header "the numbers of replies are swapped" 'bytes[QAMHUDEER_ANSWER_REPLIES_A]' 'bytes[QAMHUDEER_ANSWER_REPLIES_B]'
    wrong_header "B walks over A's replies" 'desk == QAMHUDEER_DESK_B ? QAMHUDEER_FIRST_OF_B + n : n' 'n'
    wrong_header "B's replies begin a record later" 'QAMHUDEER_FIRST_OF_B + n' 'QAMHUDEER_FIRST_OF_B + n + 1'
    wrong_header "the walk goes one too far" 'n >= device->answer' 'n > device->answer'
    wrong_header "desk 2 has replies" 'if (desk > QAMHUDEER_DESK_B ||' 'if ((desk %= 2) > QAMHUDEER_DESK_B ||'
    wrong_header "a reply's error is its byte" 'QAMHUDEER_ERROR(bytes[QAMHUDEER_REPLY_ERROR])' 'bytes[QAMHUDEER_REPLY_ERROR]'
    wrong_header "a reply's map is lost" 'reply->map = bytes[QAMHUDEER_REPLY_MAP];' ';'
    wrong_header "a reply's key has one byte" 'bytes[QAMHUDEER_REPLY_KEY] << 8 |' ''
    wrong_header "two names are swapped" 'return "ADIOERR_ALLOCFAILED"' 'return "ADIOERR_NOALLOCATION"'
    wrong_header "a number above 12 has a name" 'default: return "unknown"' 'default: return "done"'
    wrong_header "260 channels are four" 'channels < 256 ? channels : 0' 'channels'
    wrong_header "a fresh device has replies" 'qamhudeer_desk_put_error(device, 0, 0);' ';'
    wrong_header "a board has its last key's channels" 'state[QAMHUDEER_OFFSET_OF_CHANNELS]' 'state[QAMHUDEER_OFFSET_OF_LAST]'
    for function in $(sed -n 's/^size_t \(qamhudeer_[a-z0-9_]*\)(void);$/\1/p' include/qamhudeer.h); do
        other_library $function size_t 1
    done
    other_library qamhudeer_version uint32_t 10000
}

three_ways "$@"
