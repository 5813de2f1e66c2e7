#!/bin/sh
# The C side: the headers by themselves as C99 and as C++, the prototypes and the library held against them, document 01's log and the
# example desks of examples/ and docs/desk.md through the library. The last line is 'N passed, M failed'. What cannot be run here is
# told by a line 'NOT RUN: ..', and counts as neither. scripts/library.sh says which compilers are used.
. "$(dirname "$0")/begin.sh"

# ---- The header by itself. Only its syntax is at stake, so that the machine's own compilers will do.

strict='-Wall -Wextra -pedantic -Werror -fsyntax-only'

find_cxx() {
    for cxx in ${CXX:-} g++ c++ clang++; do
        echo 'int main() { return 0; }' | $cxx -std=c++11 -fsyntax-only -x c++ - >/dev/null 2>&1 && return
    done
    return 1
}

# included HEADER COMPILER..: a source that has nothing else.
included() {
    echo "#include \"$1\"" >"$work/included"
    shift
    "$@" $strict -Wconversion -Iinclude "$work/included"
}

check "the header is C99" ${CC:-cc} -std=c99 $strict -x c include/qamhudeer.h
check "the desk's header is C99" included qamhudeer_desk.h ${CC:-cc} -std=c99 -x c
if find_cxx || { install_packages g++ && find_cxx; }; then
    check "the header is C++" $cxx -std=c++11 $strict -x c++ include/qamhudeer.h
    check "the desk's header is C++" included qamhudeer_desk.h $cxx -std=c++11 -x c++
else
    leave "the header as C++: no C++ compiler is here, and none could be installed"
fi

# ---- Beside other headers, and with a null pointer

# behind NAME VALUE: the header is taken behind one that gives this name this value.
behind() {
    printf '#define %s %s\n#include "qamhudeer.h"\n' "$1" "$2" >"$work/included"
    ${CC:-cc} -std=c99 $strict -Iinclude -x c "$work/included"
}

not() {
    ! "$@"
}

# The Amiga's own headers spell their numbers so.
beside_ndk() {
    cat >"$work/included" <<'END'
#define CMD_INVALID 0
#define CMD_RESET 1
#define CMD_READ 2
#define CMD_WRITE 3
#define CMD_UPDATE 4
#define CMD_CLEAR 5
#define CMD_STOP 6
#define CMD_START 7
#define CMD_FLUSH 8
#define CMD_NONSTD 9
#define IOB_QUICK 0
#define IOF_QUICK (1<<0)
#define ADALLOC_MINPREC -128
#define ADALLOC_MAXPREC 127
#define ADCMD_FREE (CMD_NONSTD+0)
#define ADCMD_SETPREC (CMD_NONSTD+1)
#define ADCMD_FINISH (CMD_NONSTD+2)
#define ADCMD_PERVOL (CMD_NONSTD+3)
#define ADCMD_LOCK (CMD_NONSTD+4)
#define ADCMD_WAITCYCLE (CMD_NONSTD+5)
#define ADCMD_ALLOCATE 32
#define ADIOB_PERVOL 4
#define ADIOF_PERVOL (1<<4)
#define ADIOB_SYNCCYCLE 5
#define ADIOF_SYNCCYCLE (1<<5)
#define ADIOB_NOWAIT 6
#define ADIOF_NOWAIT (1<<6)
#define ADIOB_WRITEMESSAGE 7
#define ADIOF_WRITEMESSAGE (1<<7)
#define IOERR_OPENFAIL (-1)
#define IOERR_ABORTED (-2)
#define IOERR_NOCMD (-3)
#define IOERR_BADLENGTH (-4)
#define IOERR_BADADDRESS (-5)
#define ADIOERR_NOALLOCATION -10
#define ADIOERR_ALLOCFAILED -11
#define ADIOERR_CHANNELSTOLEN -12
#include "qamhudeer_desk.h"
#if defined QAMHUDEER_NONNULL || defined QAMHUDEER_RESTRICT
#error "a name of the header's own is left"
#endif
END
    ${CC:-cc} -std=c99 $strict -Iinclude -x c "$work/included"
}

# pointer WORD: a source that lends this as a state.
pointer() {
    echo '#include "qamhudeer.h"' >"$work/included"
    echo "uint8_t s[9], t[9], d[9]; int main(void) { return qamhudeer_fresh(4, $1, 9, t, 9, d, 9); }" >>"$work/included"
    ${CC:-cc} -std=c99 -O2 $strict -Iinclude -x c "$work/included"
}

check "the headers behind the Amiga's own" beside_ndk
check "IOF_QUICK of the Amiga's number" behind IOF_QUICK '(1<<0)'
check "IOF_QUICK of another number is refused" not behind IOF_QUICK 2
check "CMD_NONSTD of another number is refused" not behind CMD_NONSTD 10
check "IOERR_BADADDRESS of another number is refused" not behind IOERR_BADADDRESS '(-6)'
check "a pointer is taken" pointer s
check "a null pointer is told" not pointer 0
# Not every compiler tells it.
if ${CC:-cc} -Werror -Wrestrict -fsyntax-only -x c /dev/null 2>/dev/null; then
    check "one piece lent twice is told" not pointer t
fi

# ---- The prototypes: the header's are those of the functions that the library exports.

# agrees HEADER: so many functions as there are names behind #[unsafe(no_mangle)], and each with the same words.
agrees() {
    awk -f tests/prototypes.awk crates/qamhudeer_c/src/lib.rt | sort >"$work/exported" &&
        awk -f tests/prototypes.awk "$1" | sort >"$work/declared" &&
        [ "$(wc -l <"$work/exported")" -eq "$(grep -c '^#\[unsafe(no_mangle)\]' crates/qamhudeer_c/src/lib.rt)" ] && [ -s "$work/exported" ] &&
        diff "$work/exported" "$work/declared"
}

# disagrees NAME OLD NEW: with this mistake in a copy of the header, alone.
disagrees() {
    altered include/qamhudeer.h "$2" "$3" >"$work/wrong.h" || die "not once in the header: $2"
    check "found: $1" eval '! agrees "$work/wrong.h" && [ -s "$work/declared" ] && ! cmp -s "$work/declared" "$work/as-it-is"'
}

check "the header's prototypes are those of the functions" agrees include/qamhudeer.h
awk -f tests/prototypes.awk include/qamhudeer.h | sort >"$work/as-it-is"
disagrees "a key of one byte" 'uint8_t prec, uint16_t key' 'uint8_t prec, uint8_t key'
disagrees "two bytes handed over in another order" 'uint8_t desk, uint8_t op, uint8_t id' 'uint8_t op, uint8_t desk, uint8_t id'
disagrees "a list that is written" 'const uint8_t *QAMHUDEER_RESTRICT combos' 'uint8_t *QAMHUDEER_RESTRICT combos'
disagrees "a list without its length" '*QAMHUDEER_RESTRICT combos, size_t combos_len,' '*QAMHUDEER_RESTRICT combos,'
disagrees "a length of four bytes" 'records, size_t records_len' 'records, uint32_t records_len'
disagrees "a result of one byte" 'size_t qamhudeer_call(' 'uint8_t qamhudeer_call('
disagrees "a function that is not there" 'qamhudeer_port_size(void)' 'qamhudeer_ports_size(void)'
disagrees "a function that is left out" 'size_t qamhudeer_room_size(void);' ''

# ---- With the library

# gives EXPECTED PROGRAM INPUT: it ends well, and writes just this.
gives() {
    run_c "$2" <"$3" >"$work/out" && cmp "$work/out" "$1"
}

# tried NAME EXPECTED SOURCE INPUT
tried() {
    made=$work/$(basename "$3" .c)
    check "$3 compiles" link_c "$made" "$3"
    [ ! -x "$made" ] || check "$1" gives "$2" "$made" "$4"
}

# quoted LANGUAGE NUMBER: the page's lines that stand between the fences of this language with this number, from 1.
quoted() {
    awk -v fence='```'"$1" -v number="$2" '$0 == fence { on = ++seen == number; next } /^```/ { on = 0 } on' docs/desk.md
}

# page NAME SOURCE EXPECTED [BEGINNING]: the page's source of the number BEGINNING, if any, then this one.
page() {
    { [ -z "${4:-}" ] || quoted c "$4"; quoted c "$2"; } >"$work/page$2.c"
    quoted text "$3" >"$work/page$2.out"
    tried "$1" "$work/page$2.out" "$work/page$2.c" /dev/null
}

if ! library_ready; then
    failed=$((failed + 1))
    echo "FAILED: the library is not built"
elif linker_ready; then
    tried "the header's numbers are the library's" /dev/null tests/header.c /dev/null
    tried "document 01's log through the library" tests/log.out tests/log.c tests/log.in
    tried "the example desk" examples/desk.out examples/desk.c /dev/null
    tried "the example desk on eight channels" examples/eight.out examples/eight.c /dev/null
    tried "the example desk that counts cycles" examples/cycles.out examples/cycles.c /dev/null
    tried "the example of two desks" examples/two_desks.out examples/two_desks.c /dev/null
    tried "the example of the wall display" examples/wall.out examples/wall.c /dev/null
    tried "the example of a state carried to the bench" examples/carry.out examples/carry.c /dev/null
    tried "the example desk that wants stereo" examples/stereo.out examples/stereo.c /dev/null
    tried "a log byte by byte through the service port" second/sample.out examples/port.c second/sample.log
    page "the desk of docs/desk.md in ten lines" 1 1
    page "the desk of docs/desk.md" 3 2 2
    page "the desk of docs/desk.md that cuts a message" 4 3 2
else
    leave "the library from C: it is for x86-64, and no $linker or no emulator is here, and none could be installed"
fi

echo "$passed passed, $failed failed"
[ $failed -eq 0 ] || exit 1
[ $left -eq 0 ] || exit $skipped
