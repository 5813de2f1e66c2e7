#!/bin/sh
# Failures that must be told as failures: a log that cannot be read, an output that cannot be written, saves beside another's files, a
# signal, two first uses at one time, messages that name the cure; and ./explain behind a state that is not at rest. Each is tried on the
# commands as they are, and then on commands with one mistake, which must be found. The last line is 'N passed, M failed'. What cannot be
# run here is told by a line 'NOT RUN: ..', and counts as neither.
. "$(dirname "$0")/begin.sh"
sample=$root/second/sample.log
tools=$root

# ---- Reading and writing

# fails WORDS MESSAGE: 'arbiter-log WORDS' with these redirections ends with status 1 and this message.
fails() {
    (cd "$tools" && eval "./arbiter-log $1") >"$work/out" 2>"$work/err"
    status=$?
    cat "$work/err"
    [ $status -eq 1 ] && grep -q -e "^arbiter-log: $2" "$work/err"
}

full() { fails '<"$sample" >/dev/full' 'the output could not be written: No space'; }
closed() { fails '<"$sample" >&-' 'the output could not be written'; }
no_input() { fails '<&-' 'the log could not be read'; }
folder() { fails '</' 'the log could not be read: Is a directory'; }
loaded_full() { fails '--load "$work/fresh" <"$sample" >/dev/full' 'the output could not be written: No space'; }
loaded_folder() { fails '--load "$work/fresh" </' 'the log could not be read: Is a directory'; }

# A pipe that would block: nothing stands in it, and its reader does not wait.
blocking() {
    (cd "$tools" && python3 -c '
import os, subprocess, sys
r, w = os.pipe()
os.set_blocking(r, False)
sys.exit(subprocess.run(["./arbiter-log"], stdin=r).returncode)') 2>"$work/err"
    [ $? -eq 1 ] && grep -q 'the log could not be read: ' "$work/err"
}

plain() { (cd "$tools" && ./arbiter-log <"$sample" 2>"$work/err") | cmp - second/sample.out && [ ! -s "$work/err" ]; }

# A closed pipe is no failure of the program's: whoever reads has enough.
head_alone() {
    [ "$({ "$tools/arbiter-log" <crates/arbiter_log/stdin; } 2>"$work/err" | head -n 1)" = "$(head -n 1 crates/arbiter_log/stdout)" ] &&
        [ ! -s "$work/err" ]
}

# terminal: a log that is to be typed is told of, and read; so is a text.
terminal() {
    (cd "$tools" && python3 -c '
import os, pty, subprocess, sys
for words in (["./arbiter-log"], ["./saved", "show"]):
    here, there = pty.openpty()
    os.write(here, b"F000000000000000\n\x04")
    told = subprocess.run(words, stdin=there, stdout=subprocess.PIPE, stderr=subprocess.PIPE)
    if b"is read from the terminal" not in told.stderr or (words[0] == "./arbiter-log" and told.stdout != b"A000000001FF\n"):
        sys.exit(f"{words}: {told}")')
}

# ---- Saves

save() { "$tools/arbiter-log" --save "$1" <"$sample" >/dev/null; }

# beside: another's FILE.part stays, also where it is the one that is loaded.
beside() {
    rm -rf "$work/s" && mkdir "$work/s" && cp "$work/fresh" "$work/s/file.part" || return
    "$tools/arbiter-log" --load "$work/s/file.part" --save "$work/s/file" <"$sample" >/dev/null && cmp "$work/fresh" "$work/s/file.part" &&
        cmp "$work/s/file" "$work/played" && [ "$(ls "$work/s")" = "$(printf 'file\nfile.part')" ]
}

link() {
    rm -rf "$work/s" && mkdir -p "$work/s/there" && echo old >"$work/s/there/real" && ln -s there/real "$work/s/link" || return
    save "$work/s/link" && [ -L "$work/s/link" ] && cmp "$work/s/there/real" "$work/played" && [ "$(ls "$work/s" "$work/s/there" | grep -c .)" -eq 5 ]
}

mode() {
    rm -rf "$work/s" && mkdir "$work/s" && echo old >"$work/s/file" && chmod 640 "$work/s/file" && save "$work/s/file" &&
        [ "$(stat -c %a "$work/s/file")" = 640 ] && (umask 027 && save "$work/s/new") && [ "$(stat -c %a "$work/s/new")" = 640 ]
}

# owner: root saves for another.
owner() {
    rm -rf "$work/s" && mkdir "$work/s" && echo old >"$work/s/file" && chown 65534:65534 "$work/s/file" && save "$work/s/file" &&
        [ "$(stat -c %u:%g "$work/s/file")" = 65534:65534 ]
}

# pair: two that save to one file at one time, of two logs. What stands there then is one of the two texts, whole.
pair() {
    rm -rf "$work/s" && mkdir "$work/s" || return
    "$tools/arbiter-log" --save "$work/s/file" <"$sample" >/dev/null &
    one=$!
    "$tools/arbiter-log" --save "$work/s/file" </dev/null >/dev/null &
    two=$!
    wait $one && wait $two && { cmp -s "$work/s/file" "$work/played" || cmp "$work/s/file" "$work/fresh"; } && [ "$(ls "$work/s")" = file ]
}

# heard: a signal is heard at once, though the log goes on, and nothing is left; the program ends too.
heard() {
    rm -rf "$work/s" && mkdir "$work/s" && mkfifo "$work/s/pipe" && : >"$work/s/words" || return
    sleep 60 >"$work/s/pipe" &
    writer=$!
    "$tools/arbiter-log" --save "$work/s/file" <"$work/s/pipe" >"$work/s/words" 2>&1 &
    player=$!
    waited=0
    while ! ls "$work"/s/file.* >/dev/null 2>&1 && [ $waited -lt 100 ]; do
        sleep 0.1
        waited=$((waited + 1))
    done
    sleep 0.2
    kill $player
    (sleep 5 && kill -KILL $player) 2>/dev/null &
    late=$!
    wait $player
    ended=$?
    kill $late $writer 2>/dev/null
    wait $late $writer 2>/dev/null
    [ $ended -eq 2 ] && [ "$(ls "$work/s")" = "$(printf 'pipe\nwords')" ]
}

# ---- Two first uses

# A tree with one program to prove, and an rt that another rt at the same time makes fail. The first waits a while for a second. It is
# called in the crate's folder, and leaves the program in the crate's out/.
first_uses() {
    rm -rf "$work/first" && mkdir -p "$work/first/bin" "$work/first/crates/arbiter_log" && cd "$work/first" &&
        cp -R "$tools/arbiter-log" "$tools/scripts" . && echo 'arbiter_log:' >crates.txt || return
    cat >bin/rt <<'END'
#!/bin/sh
[ "$*" = run ] && cd ../.. && [ -f crates.txt ] || { echo "rt $*"; exit 1; }
mkdir proving || { : >met; echo "another rt"; exit 1; }
echo "proved in ${TMPDIR:-the usual place}" >>proofs
waited=0
while [ ! -e met ] && ! cat one.err two.err | grep -q waits && [ $waited -lt 40 ]; do
    sleep 0.1
    waited=$((waited + 1))
done
out=crates/arbiter_log/out
mkdir -p $out && printf '#!/bin/sh\necho played\n' >$out/arbiter_log && chmod +x $out/arbiter_log
rmdir proving
echo "crate arbiter_log: modules loaded=0 checked=1
logic=proved functions=1" >&2
END
    chmod +x bin/rt
    unset TMPDIR
    expected='the usual place'
    ! in_memory || expected=/dev/shm
    PATH=$work/first/bin:$PATH ./arbiter-log </dev/null >one 2>one.err &
    one=$!
    PATH=$work/first/bin:$PATH ./arbiter-log </dev/null >two 2>two.err &
    two=$!
    wait $one
    first=$?
    wait $two
    [ $? -eq 0 ] && [ $first -eq 0 ] && [ "$(cat one two proofs)" = "$(printf 'played\nplayed\nproved in %s' "$expected")" ] &&
        [ "$(cat one.err two.err | grep -c waits)" -eq 1 ]
}

uses() { (first_uses); }

# The first use says how far it is and how much is left, by a clock that a minute passes on between two looks; the prover's notes, and no
# failure, go to the log alone.
progress() {
    for number in 1 2 3 4 5 6; do
        echo "rt: crate$number proved"
        echo "/tree/crates/crate$number/proofs/Proof.antt:76:112: note: large solution"
    done | awk -v crates=10 -v clock="echo - >>'$work/clock'; grep -c . '$work/clock' | sed 's/\$/ * 60/' | xargs expr" \
        -f "$tools/scripts/progress.awk" >"$work/out"
    rm -f "$work/clock"
    cat "$work/out"
    failure='Proof.antt:1:1: error: no'
    ! grep -q note "$work/out" && [ "$(echo "$failure" | awk -f "$tools/scripts/progress.awk")" = "$failure" ] &&
        [ "$(tail -n 2 "$work/out" | grep -c -x 'crate [56] of 10: crate[56] \[about 1 minute left\]')" -eq 2 ]
}

# ---- Messages

# cures TEXT WORDS MESSAGE: the text is refused with status 2, and the message names the cure.
cures() {
    "$tools/arbiter-log" $2 --load "$1" </dev/null >"$work/out" 2>"$work/err"
    status=$?
    cat "$work/err"
    [ $status -eq 2 ] && [ ! -s "$work/out" ] && grep -q -F -e "$3" "$work/err"
}

cr() { sed 's/$/\r/' "$work/played" >"$work/text" && cures "$work/text" '' "tr -d '\\r'"; }
lower() { tr A-F a-f <"$work/played" >"$work/text" && cures "$work/text" '' 'tr a-f A-F makes'; }
both() { sed 's/$/\r/' "$work/played" | tr A-F a-f >"$work/text" && cures "$work/text" '--form 2' 'mends both'; }
other_form() { cures "$work/played2" '' '--form 2 takes it' && cures "$work/played" '--form 2' '--form 1 takes it'; }
other_board() { cures "$work/eight" '' '--channels 8 takes it' && cures "$work/played2" '--channels 8' 'without --channels 8'; }
no_cure() { sed 1d "$work/played" >"$work/text" && cures "$work/text" '' 'line 1 is no frame' && [ "$(grep -c . "$work/err")" -eq 1 ]; }

# log_note SED MESSAGE: the log so changed is played, with a note.
log_note() {
    sed "$1" "$sample" >"$work/changed.log" && "$tools/arbiter-log" <"$work/changed.log" >"$work/out" 2>"$work/err" &&
        grep -q -F -e "$2" "$work/err"
}

log_cr() { log_note 's/$/\r/' "tr -d '\\r'"; }
log_lower() { log_note y/ABCDEF/abcdef/ 'tr a-f A-F'; }

# A log with a few such lines among others gets no note.
quiet() {
    "$tools/arbiter-log" <crates/arbiter_log/stdin 2>"$work/err" | cmp - crates/arbiter_log/stdout && [ ! -s "$work/err" ]
}

# ---- A WAITCYCLE that its own call has ended: behind a state that is not at rest, in which a request waits that could have the channel.

over() {
    printf '%s\n' D001 D10001000000000000000000 D10000000000000000000000 D10000000000000000000000 D10000000000000000000000 \
        D20700001400010"1" D50003000200012C40 D60001 D70001 >"$work/text" && printf '0E09000100000100\n' >"$work/one.log" || return
    "$tools/explain" --load "$work/text" <"$work/one.log" >"$work/out" && cat "$work/out" &&
        grep -q 'id 9 ADCMD_WAITCYCLE: IOERR_ABORTED' "$work/out" && ! grep -q waiters "$work/out"
}

# ---- The commands as they are

if ! ready || ! proved_program text_program || ! proved_program saved_program; then
    failed=$((failed + 1))
    echo "FAILED: the programs are not built"
    finish
fi
./arbiter-log --save "$work/fresh" </dev/null && ./arbiter-log --save "$work/played" <"$sample" >/dev/null &&
    ./arbiter-log --form 2 --save "$work/played2" <"$sample" >/dev/null &&
    ./arbiter-log --channels 8 --save "$work/eight" </dev/null || exit 2

check "a log is played as before" plain
check "a reader that has enough" head_alone
check "the output is full" full
check "the output is closed" closed
check "the input is closed" no_input
check "the input is a folder" folder
if command -v python3 >/dev/null || { install_packages python3 && command -v python3 >/dev/null; }; then
    check "the input would block" blocking
    check "the input is a terminal" terminal
else
    leave "an input that would block or is a terminal: no python3 is here, and none could be installed"
fi
check "the output is full, behind --load" loaded_full
check "the input is a folder, behind --load" loaded_folder
check "another's FILE.part stays" beside
check "a link stays a link" link
check "the mode stays" mode
[ "$(id -u)" -ne 0 ] || check "the owner stays" owner
check "two savers of one file" pair
check "a signal is heard at once" heard
check "two first uses" uses
check "how much is left of a proof" progress
check "a text with CR" cr
check "a text in lower case" lower
check "a text with both" both
check "a text of the other form" other_form
check "a text of the other board" other_board
check "a text that nothing cures" no_cure
check "a log with CR" log_cr
check "a log in lower case" log_lower
check "a log with a few such lines" quiet
check "a WAITCYCLE that its own call has ended" over

# ---- Commands with a mistake: the programs beside them are the same

mkdir "$work/wrong" && cp -R arbiter-log explain saved scripts "$work/wrong" && mkdir "$work/wrong/programs" "$work/wrong/include" &&
    cp target/bin/arbiter_log target/bin/text_program target/bin/saved_program "$work/wrong/programs" || exit 2
tools=$work/wrong

not() { ! "$@"; }

# wrong CHECK FILE OLD NEW: with NEW for OLD the check fails, where it passed.
wrong() {
    altered "$2" "$3" "$4" >"$work/altered" || die "not once in $2: $3"
    cat "$work/altered" >"$work/wrong/$2"
    check "found by '$1': $4" not "$1"
    cat "$2" >"$work/wrong/$2"
}

check "the copy is right" plain
program=scripts/program.sh
wrong full $program '        run=1' '        run=0'
wrong folder $program '        run=1' '        run=2'
wrong closed $program '2>"$carried/said" &' '2>/dev/null &'
wrong no_input $program 'if [ ! -e /dev/fd/0 ] && [ -e /dev/fd/2 ]; then' 'if false; then'
wrong plain $program '<&6 6<&- 3<' '6<&- 3<'
! command -v python3 >/dev/null || wrong terminal $program '    [ ! -t 0 ] ||' '    true ||'
wrong beside $program 'part=$(mktemp "$target.part.XXXXXX" 2>/dev/null) || part=' 'part=$target.part && rm -f "$part" && : >"$part"'
wrong link $program 'target=$(readlink -f -- "$log_save") && [ -n "$target" ] || target=$log_save' 'target=$log_save'
wrong mode $program 'chmod "$mode" "$part"' ':'
[ "$(id -u)" -ne 0 ] || wrong owner $program 'chown "$(stat -c %u:%g -- "$target")" "$part" 2>/dev/null' ':'
wrong heard $program '    wait "$player"' '    while kill -0 "$player"; do sleep 12; done; wait "$player"'
wrong uses $program 'flock -n 9 ||' 'true ||'
! (unset TMPDIR && in_memory) || wrong uses $program '(! in_memory ||' '(true ||'
wrong uses $program '    stale || return 0' '    :'
wrong uses $program 'complain "$what: another command proves here at this moment; this one waits for it"' ':'
wrong progress scripts/progress.awk 'note: / { next }' 'notes: / { next }'
wrong progress scripts/progress.awk 'note: / { next }' '(error|note): / { next }'
wrong progress scripts/progress.awk 'left = crates + edits - proved - tried' 'left = crates + edits'
wrong cr $program "tr -d '\\r' <\"\$1\" >\"\$1.no-cr\"" 'cp "$1" "$1.no-cr"'
wrong lower $program 'tr a-f A-F <"$1" >"$1.upper"' 'cp "$1" "$1.upper"'
wrong both $program 'tr a-f A-F <"$1.no-cr" >"$1.both"' 'cp "$1" "$1.both"'
wrong other_form $program '14) complain' '15) complain'
wrong other_board $program '8?) complain' '9?) complain'
wrong log_cr $program 'cr { crs++ }' 'cr { small++ }'
wrong log_lower $program '/[a-f]/ { small++ }' '/[a-f]/ { crs++ }'
wrong quiet $program 'exit 2 * wrong <= NR ?' 'exit wrong == 0 ?'
wrong over scripts/queues.awk '!= 161 || id in ended && ended[id] == byte(call, 0))' '!= 161)'
check "the copy is right again" plain
finish
