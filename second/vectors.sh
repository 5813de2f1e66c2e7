#!/bin/sh
# Writes crates/vectors/specs/Vectors.antt to standard output: generated logs and generated
# calls, each with what this program makes of it. The machine must compute the same.
# vectors.sh saved writes crates/saved_vectors/specs/SavedVectors.antt: generated logs, each with the
# saved text of the state after it, in both forms.
cd "$(dirname "$0")" || exit 1
LC_ALL=C
export LC_ALL

# on CHANNELS: the program of that board
on() {
    if [ "$1" = 8 ]; then echo ./vectors8; else echo ./vectors; fi
}

# ---- Saved texts

# saved NAME SEED STYLE; saved2 NAME SEED STYLE CHANNELS
saved() {
    ./generate "$2" 26 "$3" | ./vectors saved "$1" || exit 1
}
saved2() {
    ./generate "$2" 26 "$3" "$4" | "$(on "$4")" saved2 "$1" || exit 1
}

saved_vectors() {
    cat <<'HEAD'
-- Saved vectors: generated logs with the text that the second program saves after each. The definition computes the same.
-- Written by second/vectors.sh saved, not by hand; the gate writes it again and compares.
-- Assumes nothing.
--
--   Keeps t s           the lines of a log, each with what the second program writes, and the lines of a saved text: the state
--                       after the log has that text
--   Keeps2 w t s        the same in the second form, on a board of w channels
--
-- The texts have every kind of line: waiting requests with and without NOWAIT, locks and WAITCYCLEs of any age, writes of several
-- channels, FINISH and PERVOL remembered, open keys. The first of a form and a board is a fresh board's.
use Prim.Native.String.{String}
use Rattle.std.specs.Prelude.{◌≡◌, refl, List, [], ◌∷◌, ℕ}
use Rattle.machine.specs.Text.{bytes, page}
use Rattle.machine.specs.State.{fresh, frees, fresh_on}
use Rattle.machine.specs.Log.{lines, run}
use Rattle.machine.specs.Drawn.{Talk, given}
use Rattle.machine.specs.Machine.{machine}
use Rattle.display.specs.Display.{names, writes_on, naming}
use Rattle.saved2.specs.saved.Saved.{text, kept, channel_frame, request_frame, span_frame, write_frame, write_frames, key_frame, frames, spelt}
use Rattle.saved2.specs.Saved2.{number_frame, number_frames, frames2, text2}

abbrev pub Keeps : Talk → List String → Type 0
Keeps t s = text (run fresh (lines (page (given t)))).next ≡ page s

abbrev pub Keeps2 : ℕ → Talk → List String → Type 0
Keeps2 w t s = text2 (run (fresh_on w) (lines (page (given t)))).next ≡ page s

-- ---- The first form
HEAD
    ./vectors saved fresh_board </dev/null || exit 1
    saved of_everything 39 saved
    saved of_everything_again 130 saved
    saved of_cuts 77 cuts
    saved of_cycles 95 cycles
    saved of_desks 41 desks
    saved of_locks 46 locks
    saved of_nowait 39 nowait
    saved of_many_waiting 13 display
    saved of_opens 120 opens
    saved of_many_writes 64 full
    saved of_queues 77 queues

    printf '\n%s\n' '-- ---- The second form, of four channels'
    ./vectors saved2 fresh_board_2 </dev/null || exit 1
    saved2 of_everything_2 39 saved 4
    saved2 of_cuts_2 77 cuts 4
    saved2 of_many_waiting_2 13 display 4

    printf '\n%s\n' '-- ---- The second form, of eight channels'
    ./vectors8 saved2 fresh_board_of_8 </dev/null || exit 1
    saved2 of_everything_of_8 39 saved 8
    saved2 of_cuts_of_8 77 cuts 8
    saved2 of_desks_of_8 41 desks 8
    saved2 of_locks_of_8 46 locks 8
    saved2 of_many_waiting_of_8 13 display 8
}
if [ "${1:-}" = saved ]; then
    saved_vectors
    exit
fi

cat <<'HEAD'
-- Vectors: generated calls with what the second program answers to each. The machine computes the same.
-- Written by second/vectors.sh, not by hand; the gate writes it again and compares.
-- Assumes nothing.
--
--   Answers w t         the lines of a log, each with the lines that the second program writes: on a board of w channels the log gives
--                       these
--   shown s d ls        the output of lines where those of the wall display follow each answer; s and d are the state and the display
--   Shows w t           the lines of a log, each with the lines that the second program writes and those of its display
--   Computes vs         each call, on its state, gives the outcome beside it. Its words, as `stands`, are those of the machine's
--                       Walks.antt
--
-- Of the generated logs, lines that cannot be quoted here are left out: bytes that are not printable, and more than 600
-- characters. The calls start from sound states that are not at rest, which no log reaches: a waiting request could be
-- granted, or fails with NOWAIT, or has chosen a channel under an outstanding lock.
use Rattle.std.specs.Prelude.{◌≡◌, refl, true, false, List, [], ◌∷◌, ◌++◌, ℕ}
use Rattle.machine.specs.State.{State, OPEN, CLOSE, ABORT, EVENT, CYCLE_ENDED, GAVE_UP, COMMAND, free, frees, fresh_on}
use Rattle.machine.specs.Text.{bytes, page}
use Rattle.machine.specs.Log.{lines, unhex, frame, outcome_of, told, run}
use Rattle.machine.specs.Drawn.{Talk, given, written}
use Rattle.machine.specs.Walks.{Vector, vector, Computes, plays, cuts, tunes, both, chan, lock, wait, stands, asks, asks_from, reply, says, gets}
use Rattle.machine.specs.Machine.{machine}
use Rattle.display.specs.Looks.{beyond, reached, look_on, looks_in, looks, acting, looks_after, looked_by, looked}
use Rattle.display.specs.Display.{blank, names, writes_on, naming, number, numbers_from, corrected, displayed, displayed_by, holds, record_of, load_line, request_lines, display_lines}

abbrev pub Answers : ℕ → Talk → Type 0
Answers w t = (run (fresh_on w) (lines (page (given t)))).output ≡ page (written t)

unfoldable pub shown : State → List ℕ → List (List ℕ) → List ℕ
shown s d [] = []
shown s d (l ∷ ls) =
    let c = frame (unhex l) in
    let o = outcome_of s c in
    let e = displayed_by s c d in
    told o ++ display_lines o.next e ++ shown o.next e ls

abbrev pub Shows : ℕ → Talk → Type 0
Shows w t = shown (fresh_on w) blank (lines (page (given t))) ≡ page (written t)

-- ---- Logs: second/generate, one of each short style, and two of the mix, of the cycles and of the desks
HEAD

# log NAME SEED STYLE [CHANNELS]; shown NAME SEED STYLE CHANNELS
log() {
    ./generate "$2" 36 "$3" "${4:-4}" | "$(on "${4:-4}")" log "$1" || exit 1
}
shown() {
    ./generate "$2" 24 "$3" "$4" | "$(on "$4")" shown "$1" || exit 1
}
log mixed 1 mix
log mixed_again 2 mix
log of_locks 3 locks
log of_nowait 4 nowait
log of_queues 5 queues
log of_many_writes 6 full
log of_aborts 7 aborts
log of_precedences 8 precedences
log of_refusals 9 refusals
log of_malformed_lines 10 malformed
log of_lists 11 lists
log of_bytes 12 bytes
log of_ties 14 ties
log of_opens 15 opens
log of_cuts 39 cuts
log of_cycles 48 cycles
log of_cycles_again 1 cycles
log of_desks 142 desks
log of_desks_again 90 desks

printf '\n%s\n' '-- ---- Logs on a board of eight channels'
log mixed_of_8 1 mix 8
log of_locks_of_8 3 locks 8
log of_nowait_of_8 4 nowait 8
log of_lists_of_8 11 lists 8
log of_ties_of_8 14 ties 8
log of_cuts_of_8 39 cuts 8
log of_cycles_of_8 48 cycles 8
log of_desks_of_8 142 desks 8

printf '\n%s\n' '-- ---- Logs with the wall display, on both boards'
shown mixed_shown 1 mix 4
shown of_display_shown 13 display 4
shown of_nowait_shown 4 nowait 4
shown mixed_shown_of_8 1 mix 8
shown of_display_shown_of_8 13 display 8

printf '\n%s\n' '-- ---- Calls on a board of four channels'
./vectors calls 1 || exit 1

printf '\n%s\n' '-- ---- Calls on a board of eight channels'
./vectors8 calls 2
