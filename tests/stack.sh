#!/bin/sh
# The stack of the library: scripts/stack computes a bound from the machine code for each exported function; no function may be seen to
# take more (tests/stack.c), and docs/desk.md must quote the bounds. Before it, small pieces of assembly that scripts/stack must count to
# the byte, and others that it must refuse. The last line is 'N passed, M failed'. What cannot be run here is told by a line
# 'NOT RUN: ..', and counts as neither.
. "$(dirname "$0")/begin.sh"

# ---- Pieces of assembly

# piece F G [DATA]: a function f, which is exported, and g, which is not, of these lines; and what stands behind them.
piece() {
    printf '.text\n.globl f\n.type f, @function\nf: %s\n.type g, @function\ng: %s\n%s\n' "$1" "$2" "${3:-}"
}

# frames CALLED LINE [G]: f has a push, a frame of 24 bytes, this line, and a call; g has a frame of 40 bytes, or these lines.
frames() {
    piece "push %rbx; sub \$24, %rsp; $2; call $1; add \$24, %rsp; pop %rbx; ret" "${3:-sub \$40, %rsp; add \$40, %rsp; ret}"
}

# switch CASE LINE LINE: two cases through a table, as compilers make it, the second of them CASE; a line before the sum, one behind it.
switch() {
    piece "lea table(%rip), %rcx; movslq (%rcx,%rdi,4), %rax; $2; add %rcx, %rax; $3; jmp *%rax
        first: sub \$56, %rsp; add \$56, %rsp
        second: ret" ret ".section .rodata
        table: .long first - table, $1 - table"
}

# early REGISTER LINE LINE: the same in a loop, with the table's place in a register from before it; a line before that, one in the loop.
early() {
    piece "push %rbx; $2; lea table(%rip), $1
        again: $3; movslq ($1,%rdi,4), %rax; add $1, %rax; jmp *%rax
        first: dec %edi; jne again
        second: pop %rbx; ret" ret ".section .rodata
        table: .long first - table, second - table"
}

# behind BYTES: the same of one case, whose entry is read so many bytes behind the table's place.
behind() {
    piece "lea table(%rip), %r13; movslq $1(%r13,%rdi,4), %rax; add %r13, %rax; jmp *%rax
        first: ret" ret ".section .rodata
        table: .long first - table, first - table"
}

# pages LINE STEP LINE: a frame of five pages, made in a loop by steps; a line before it, and one before the comparison.
pages() {
    piece "$1; lea -20480(%rsp), %r11; 1: sub \$$2, %rsp; movq \$0, (%rsp); $3; cmp %r11, %rsp; jne 1b; add \$20480, %rsp; ret" ret
}

# takes BYTES: f takes so many.
takes() {
    sh scripts/stack "$work/piece.o" >"$work/out" && cat "$work/out" && grep -q -x -e "f $1" "$work/out"
}

# gives_none WHY: there is no number, and the message says why.
gives_none() {
    ! sh scripts/stack "$work/piece.o" >"$work/out" 2>"$work/error" && [ ! -s "$work/out" ] && cat "$work/error" &&
        grep -q -e "$1" "$work/error"
}

made() {
    "$@" >"$work/piece.s" && $linker -c -o "$work/piece.o" "$work/piece.s" || die "no assembler, or a wrong piece: $*"
}

# counted NAME BYTES PIECE.., refused NAME WHY PIECE..: one test.
counted() {
    piece_name=$1 piece_bytes=$2
    shift 2
    made "$@"
    check "counted: $piece_name" takes "$piece_bytes"
}

refused() {
    piece_name=$1 piece_why=$2
    shift 2
    made "$@"
    check "refused: $piece_name" gives_none "$piece_why"
}

# The first has 8 for the return address, 8 and 24 of f, then 8 and 40.
pieces_counted() {
    counted "frames, pushes and return addresses" 88 frames g nop
    counted "a frame that is 8 bytes deeper" 96 frames g nop 'sub $48, %rsp; add $48, %rsp; ret'
    counted "a frame that is made by adding" 136 piece 'add $-128, %rsp; sub $-128, %rsp; ret' ret
    counted "the allowance for the C library" 176 frames memcpy nop
    counted "arguments on the stack, to a multiple of 16" 120 frames g 'mov 56(%rsp), %rax'
    counted "what is written below the stack pointer" 104 frames g 'mov %rax, -60(%rsp)'
    counted "all that may stand there, where an address is taken" 168 frames g 'lea -8(%rsp), %rax'
    counted "a jump to another function, with its arguments" 32 \
        piece 'test %edi, %edi; je g; ret' 'push %rax; mov 24(%rsp), %rax; pop %rax; ret'
    counted "a loop" 8 piece '1: dec %edi; jne 1b; jmp 2f; 2: ret' ret
    counted "a frame of pages, made in a loop" 20488 pages nop 4096 ''
    counted "a switch" 64 switch second nop nop
    counted "a switch in a loop" 16 early %r9 nop 'imul $3, %rsi, %rdx'
    counted "a switch in a loop, with a call that keeps the register" 24 early %rbx nop 'call g'
    counted "a switch through a register that wants a displacement" 16 early %r13 nop nop
}

pieces_refused() {
    refused "a function that calls itself" recursion frames f nop
    refused "a function of the C library that the header does not name" memmove frames memmove nop
    refused "two that call each other" recursion frames g nop 'push %rax; call f; pop %rax; ret'
    refused "a call through a register" 'indirect call' frames '*%rax' nop
    refused "a call through memory" 'indirect call' frames '*8(%rdi)' nop
    refused "a jump to wherever the caller says" 'indirect jump' piece 'jmp *%rdi' ret
    refused "a jump through memory" 'indirect jump' piece 'jmp *8(%rdi)' ret
    refused "a frame of any size" 'no constant' frames g 'sub %rax, %rsp'
    refused "a frame that is rounded" 'no constant' frames g 'and $-32, %rsp'
    refused "another stack" 'no constant' frames g 'mov %rdi, %rsp'
    refused "another stack, exchanged" 'no constant' frames g 'xchg %rsp, %rdi'
    refused "a frame that is left by its pointer" 'unknown instruction' piece 'push %rbp; mov %rsp, %rbp; leave; ret' ret
    refused "a function that is not there" 'printf, which is not there' frames printf nop
    refused "a push that is not taken back" 'more is taken\|while a frame stands' frames g 'push %rax'
    refused "a push on one way alone" 'two depths' frames g 'test %edi, %edi; je 1f; push %rax; 1:'
    refused "pushes in a loop" 'two depths' frames g '1: push %rax; dec %edi; jne 1b'
    refused "a frame of pages that is made by others" 'two depths' pages nop 8192 ''
    refused "a frame of pages that is jumped into" 'two depths' pages 'test %edi, %edi; je 2f' 4096 '2:'
    refused "more taken back than was put there" 'more is taken' frames g 'add $48, %rsp'
    refused "a call into a function's middle" 'no function' frames g+1 nop
    refused "a jump away from a frame" 'while a frame stands' frames g 'jmp g'
    refused "a pointer to a function" 'address of a function is taken' frames g 'lea g(%rip), %rax'
    refused "a pointer to a function, in data" 'address of code in data' piece ret ret '.data; .quad g'
    refused "a switch that leads into another function" 'leads out of it' switch g nop nop
    refused "a switch that reads behind its table's place" 'through no table' behind 4
    refused "a switch whose entry is changed" 'through no table' switch second 'mov %edi, %eax' nop
    refused "a switch whose table is changed" 'through no table' switch second 'xor %ecx, %ecx' nop
    refused "a switch whose sum is changed" 'through no table' switch second nop 'mov %edi, %eax'
    refused "a jump to behind the sum of a switch" 'through no table' switch second nop 'dec %edi; jne 1f; 1:'
    refused "a switch in a loop, with a call that may change the register" 'on some way' early %r9 nop 'call g'
    refused "a switch in a loop whose table is changed" 'on some way' early %r9 nop 'test %edi, %edi; je 1f; mov %edi, %r9d; 1:'
    refused "a switch in a loop whose table a product changes" 'on some way' early %rdx nop 'mul %rsi; test %edi, %edi; je 1f; nop; 1:'
    refused "a switch whose table is there on one way alone" 'on some way' early %r9 'test %edi, %edi; je again' nop
    refused "a function that runs into the next" 'without a jump' piece nop ret
    refused "a call of the system" 'unknown instruction' piece 'int $128; ret' ret
    refused "nothing" 'no function here' printf ''
}

# ---- The library

# within BOUNDS USES: no use is above its bound, and every function that takes more than a return address has a use.
within() {
    awk 'NR == FNR { bound[$1] = $2; next }
        !($1 in bound) || $2 == 0 || $2 > bound[$1] { print $1 " is seen to take " $2 " bytes, the bound is " bound[$1]; wrong = 1 }
        { seen[$1] = 1 }
        END {
            for (name in bound)
                if (bound[name] > 8 && !(name in seen)) { print name " was not measured"; wrong = 1 }
            exit wrong + 0
        }' "$1" "$2"
}

# quoted PAGE: the table of the bounds stands in the page, line for line.
quoted() {
    awk 'NR == FNR { line[++count] = $0; next }
        { at = $0 == line[at + 1] ? at + 1 : ($0 == line[1]); if (at == count) found = 1 }
        END { exit !found }' "$work/table" "$1"
}

not() {
    ! "$@"
}

# A page and a measurement that are wrong by a byte must be found.
mistakes() {
    awk '/^\| `qamhudeer_call` \|/ { at = length($0) - 2; $0 = substr($0, 1, at - 1) (substr($0, at, 1) + 1) % 10 " |" } { print }' \
        docs/desk.md >"$work/wrong.md"
    check "a page whose bound is another is refused" not quoted "$work/wrong.md"
    grep -v '^| `qamhudeer_call` |' docs/desk.md >"$work/short.md"
    check "a page that leaves one out is refused" not quoted "$work/short.md"
    awk 'NR == FNR { if ($1 == "qamhudeer_call") most = $2; next } $1 == "qamhudeer_call" { $2 = most + 1 } { print }' \
        "$work/bounds" "$work/uses" >"$work/greater"
    check "a use of a byte more than the bound is refused" not within "$work/bounds" "$work/greater"
    grep -v qamhudeer_load2 "$work/uses" >"$work/fewer"
    check "a function that was not measured is refused" not within "$work/bounds" "$work/fewer"
}

# told: bench/run tells the calls, the size and the stack of this library and of another build, here itself.
told() {
    bench/run --against "$program" "$library" 100 5 >"$work/bench" || return
    size=$(size "$library" | awk 'NR == 2 { print $1 + $2 }')
    grep -q -x "The library: $size bytes of code and constants, second $size" "$work/bench" &&
        [ "$(grep -c '^ *[48] m' "$work/bench")" -eq 20 ] && awk 'FILENAME ~ /bounds$/ { bound[$1] = $2; next }
            FILENAME ~ /uses$/ { use[$1] = $2; next }
            /^qamhudeer_/ { lines++; if ($2 != bound[$1] || $4 != bound[$1] || $3 != use[$1] || $5 != use[$1]) exit 1 }
            END { if (lines < 13) exit 1 }' "$work/bounds" "$work/uses" "$work/bench"
}

bounds() { sh scripts/stack "$library" >"$work/bounds" && sh scripts/stack "$library" --table >"$work/table"; }
uses() { run_c "$work/stack" <crates/arbiter_log/stdin >"$work/uses"; }

if ! library_ready; then
    die "the library is not built"
elif ! linker_ready; then
    leave "the stack of the library: it is for x86-64, and no $linker or no emulator is here, and none could be installed"
    finish
fi
pieces_counted
pieces_refused
check "a bound for each function of the library" bounds
# Names are bound at the start: to bind one on the way takes a stack of its own, which differs from machine to machine.
check "tests/stack.c compiles" link_c "$work/stack" -pthread -Wl,-z,now tests/stack.c
check "tests/stack.c runs" uses
check "no function takes more than its bound" within "$work/bounds" "$work/uses"
check "docs/desk.md quotes the bounds" quoted docs/desk.md
mistakes
if [ "$(uname -m)" = x86_64 ] && ready; then
    check "bench/run tells the size and the stack of two builds" told
else
    leave "bench/run: the machine is not x86-64, or the log program is not built"
fi
finish
