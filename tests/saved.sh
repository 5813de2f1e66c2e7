#!/bin/sh
# The saved texts of requests #106 and #112, through the library: saves of good and damaged states in every room, loads of good and
# spoilt texts over any bytes, texts moved from one form into the other, held against the second program (tests/saved.c says how).
#
#   tests/saved.sh [SEED [COUNT]]   COUNT logs; 1 and 48 where not given
#   tests/saved.sh gate             the fixed set of the gate, then the wrong programs. Its last line is 'N passed, M failed'
#   tests/saved.sh wrong            only the wrong programs
#
# The logs are made by second/generate and lead through good states, on four channels and, one in four, on eight; each is played on
# the other board beside it. The same words give the same calls on every machine.
#
# A wrong program has one mistake: in the second program's texts, or in a library that touches what it should not. Each must be
# found: they show that the trial can fail.
#
# Where the library cannot be run it says 'NOT RUN: ..', and passes nothing.
. "$(dirname "$0")/begin.sh"
. tests/trial.sh

what='saved texts'
programs='generate'
usual=48
styles='saved display saved cuts desks saved full locks saved opens mix cycles'
lines=100
tries=8
parts='tests/saved tests/states tests/lent second/spoilt second/saved second/chance second/log second/arbiter'

# ---- The logs

log() {
    number=$1
    board=4
    [ $((number % 4)) -ne 3 ] || board=8
    chance=$((seed * 100000 + number))
    set -- $styles
    shift $((number % $#))
    # Every third one is long, so that the lists are.
    made="generate $chance $((number % 3 == 0 ? 3 * lines : lines)) $1 $board"
    second/$made >"$work/log" || die "second/$made fails"
}

# ---- The wrong programs

# spoilt save|save2|load|load2|to_new|to_old NAME STATEMENT: a library that does this after each such call.
spoilt() {
    {
        echo '#include <stddef.h>'
        echo '#include <stdint.h>'
        case $1 in
        save)
            echo '#define WORDS uint8_t *state, size_t state_len, uint8_t *table, size_t table_len, uint8_t *text, size_t text_len, size_t *written'
            echo '#define NAMES state, state_len, table, table_len, text, text_len, written'
            ;;
        save2)
            echo '#define WORDS uint8_t *state, size_t state_len, uint8_t *table, size_t table_len, uint8_t *display, size_t display_len, \'
            echo '    uint8_t *text, size_t text_len, size_t *written'
            echo '#define NAMES state, state_len, table, table_len, display, display_len, text, text_len, written'
            ;;
        to_*)
            echo '#define WORDS uint8_t *from, size_t from_len, uint8_t *text, size_t text_len, size_t *written'
            echo '#define NAMES from, from_len, text, text_len, written'
            ;;
        load*)
            echo '#define WORDS uint8_t channels, uint8_t *text, size_t text_len, uint8_t *state, size_t state_len, uint8_t *table, \'
            echo '    size_t table_len, uint8_t *display, size_t display_len'
            echo '#define NAMES channels, text, text_len, state, state_len, table, table_len, display, display_len'
            ;;
        esac
        echo "uint8_t __real_qamhudeer_$1(WORDS); uint8_t __wrap_qamhudeer_$1(WORDS); volatile uint8_t seen;"
        echo "uint8_t __wrap_qamhudeer_$1(WORDS) { uint8_t r = __real_qamhudeer_$1(NAMES); $3; return r; }"
    } >"$work/spoilt.c"
    must_differ "$2" -Wl,--wrap=qamhudeer_$1 "$work/spoilt.c" $(objects_but none)
}

play_wrong() {
    prepare_wrong
    saved=second/saved.c
    wrong "lower case is accepted" $saved 'const char *found = memchr(digits, c, 16);' "const char *found = memchr(digits, c >= 'a' && c <= 'f' ? c - 32 : c, 16);"
    wrong "the last LF may be absent" $saved "const char *end = r->left > 0 ? memchr(r->text, '\\n', r->left) : NULL;" "static char last[64]; const char *end = r->left > 0 ? memchr(r->text, '\\n', r->left) : NULL; if (end == NULL && r->left > 0 && r->left < 60) { memcpy(last, r->text, r->left); r->text = last; end = last + r->left++; }"
    wrong "bytes behind the end are read over" $saved 'return r->left == 0;' 'return 1;'
    wrong "what is not sound is loaded" $saved 'if (!arbiter_sound(&read))' 'if (0)'
    wrong "the order of the locks is turned" $saved 'for (unsigned at = 0; at < a->locks.count; at++)' 'for (unsigned at = a->locks.count; at-- > 0;)'
    wrong "the youngest WAITCYCLE comes first" $saved 'for (unsigned at = 0; at < a->cycles.count; at++)' 'for (unsigned at = a->cycles.count; at-- > 0;)'
    wrong "the open keys are turned" $saved 'for (unsigned at = 0; at < a->open.count; at++)' 'for (unsigned at = a->open.count; at-- > 0;)'
    wrong "writes of any order of channels" $saved 'if (c < *channel || c >= a->channels)' 'if (c >= a->channels)'
    wrong "a text just as long does not fit" $saved 'if (t->length > room)' 'if (t->length >= room)'
    wrong "a text a byte too long fits" $saved 'if (t->length > room)' 'if (t->length > room + 1)'
    wrong "the length is told after 12" $saved 'return REFUSED_ROOM;' 'return *written = t->length, REFUSED_ROOM;'
    wrong "10 before 1" tests/saved.c 'count[decodes(' 'if (c->piece[STATE].length == QAMHUDEER_STATE_SIZE && c->piece[STATE].byte[QAMHUDEER_OFFSET_OF_CHANNELS] == 8) c->result = 10; count[decodes('
    wrong "12 before 10" $saved 'if (a->channels != FORM_CHANNELS)' 'if (a->channels != FORM_CHANNELS && room < 112) return REFUSED_ROOM; if (a->channels != FORM_CHANNELS)'
    wrong "12 before 1" tests/saved.c 'count[decodes(' 'if (c->room.length < 112) c->result = 12; count[decodes('
    wrong "a mark of 02 is read as 00" $saved 'uint8_t mark = take_byte(r);' 'uint8_t mark = take_byte(r) & 1;'
    wrong "the precedence is saved plus 128" $saved 'put(t, (uint8_t)channel->precedence, 1);' 'put(t, (uint8_t)(channel->precedence + 128), 1);'
    wrong "the low byte of the cycles comes first" $saved 'put(t, q->cycles, 2);' 'put(t, (uint16_t)(q->cycles << 8 | q->cycles >> 8), 2);'
    wrong "what is remembered is not saved" $saved 'put(t, channel->finish, 1);' 'put(t, 0, 1);'
    wrong "D001 and D002 are one" $saved 'memcmp(r->text, line, length) != 0' 'memcmp(r->text, line, length - 2) != 0'
    wrong "any board loads" $saved 'if (channels != FORM_CHANNELS)' 'if (channels == 0)'
    wrong "31 open keys are the most" $saved 'open->count == MOST_OPENS)' 'open->count == MOST_OPENS - 1)'
    wrong "a load settles" $saved 'saved_count(a, d);' 'saved_count(a, d); { struct Reply record[64]; struct Replies told = {.record = record, .capacity = 64}; struct Frame f = {.operation = CALL_CYCLE_ENDED}; arbiter_call(a, &f, &told); }'
    wrong "the numbers are not counted" $saved 'd->writes[c] = a->channel[c].writes.count;' ';'
    wrong "each combination counts" $saved '+ (named >> c & 1));' '+ q->length * (named >> c & 1));'
    wrong "the looks stay" $saved 'memset(d, 0, sizeof *d);' 'memset(d, 0, 2 * MOST_CHANNELS);'
    wrong "the numbers behind the board stay" $saved 'memset(d, 0, sizeof *d);' 'memset(d, 0, sizeof *d), memset(d->naming + 4, 1, 4);'
    wrong "9 before 1" tests/saved.c 'count[WRONG_LENGTH]++;' 'c->result = saved_fault(c->from.text, c->from.length) != 0 ? 9 : 1;'
    wrong "the numbers are not compared" $saved 'return memcmp(d->writes, count.writes, sizeof count.writes) == 0 &&' 'return 1 ||'
    wrong "only the writes are compared" $saved '&& memcmp(d->naming, count.naming, sizeof count.naming) == 0;' ';'
    wrong "the looks are compared" $saved 'saved_count(a, &count);' 'saved_count(a, &count); if (d->looks != 0) return 0;'
    wrong "numbers behind the board are not compared" $saved 'saved_count(a, &count);' 'saved_count(a, &count); for (unsigned c = a->channels; c < 8; c++) count.writes[c] = d->writes[c], count.naming[c] = d->naming[c];'
    wrong "numbers that disagree are loaded" $saved 'if (!arbiter_sound(&read) || !shows_count(&read, &numbers))' 'if (!arbiter_sound(&read))'
    wrong "what is not sound is loaded in the second form" $saved 'if (!arbiter_sound(&read) || !shows_count(&read, &numbers))' 'if (!shows_count(&read, &numbers))'
    wrong "numbers that disagree are counted anew" $saved 'if (!arbiter_sound(&read) || !shows_count(&read, &numbers))' 'saved_count(&read, &numbers); if (!arbiter_sound(&read))'
    wrong "the new loader takes D001" $saved 'if (!read_text2(&r, channels, &read, &numbers))' 'if (saved_load(channels, text, length, a, d) == DONE) return DONE; if (!read_text2(&r, channels, &read, &numbers))'
    wrong "the channels of a line of numbers are read over" $saved 'take_byte(r) != c)' 'take_byte(r) > 7)'
    wrong "the other board's text is loaded" tests/saved.c 'c->result = (unsigned)(c->what == LOAD ? saved_load : saved_load2)(c->channels, c->from.text, c->from.length, &a, &d);' 'c->result = (unsigned)(c->what == LOAD ? saved_load : saved_load2)(c->channels, c->from.text, c->from.length, &a, &d); if (c->what == LOAD2 && c->channels == 8 && c->result == 9) c->result = (unsigned)saved_load2(4, c->from.text, c->from.length, &a, &d);'
    wrong "eight channels move back" $saved 'if (saved_load2(8, from, length, &a, &d) == DONE)' 'if (0)'
    wrong "10 before 9" $saved 'if (saved_load2(8, from, length, &a, &d) == DONE)' 'if (length > 9 && memcmp(from, "D002\nD808", 9) == 0)'
    wrong "12 before 10, moved back" $saved 'if (saved_load2(8, from, length, &a, &d) == DONE)' 'if (room < 112 && saved_load2(8, from, length, &a, &d) == DONE) return REFUSED_ROOM; if (saved_load2(8, from, length, &a, &d) == DONE)'
    wrong "12 before 9, moved to new" $saved 'if (saved_load(FORM_CHANNELS, from, length, &a, &d) != DONE)' 'if (room < 153) return REFUSED_ROOM; if (saved_load(FORM_CHANNELS, from, length, &a, &d) != DONE)'
    wrong "12 before 9, moved to old" $saved 'if (saved_load2(FORM_CHANNELS, from, length, &a, &d) != DONE)' 'if (room < 112) return REFUSED_ROOM; if (saved_load2(FORM_CHANNELS, from, length, &a, &d) != DONE)'
    wrong "moved without the numbers counted" $saved 'put_shown(&t, FORM_CHANNELS, &d);' 'put_shown(&t, FORM_CHANNELS, &(struct Display){{0}, {0}, 0});'
    spoilt save "a byte behind the text is written" 'if (r == 0 && *written < text_len) text[*written] ^= 1'
    spoilt save "a text that does not fit is begun" 'if (r == 12 && text_len > 0) text[0] ^= 1'
    spoilt save "the length is told after a refusal" 'if (r == 1) *written = 1'
    spoilt save "the state moves" 'if (state_len > 9) state[9] ^= 1'
    spoilt save "a byte behind the table is read" 'seen = table[table_len]'
    spoilt save "a byte behind the room is written" 'text[text_len] ^= 1'
    spoilt load "a refused text moves the state" 'if (r == 9) state[9] ^= 1'
    spoilt load "a refused text moves the table" 'if (r == 9) table[table_len - 1] ^= 1'
    spoilt load "a refused text moves the display" 'if (r == 9) display[17] ^= 1'
    spoilt load "a wrong length moves what has its length" 'if (r == 1 && display_len == 18) display[0] ^= 1'
    spoilt load "the text is written" 'if (text_len > 0) text[0] ^= 1'
    spoilt load "a byte behind the text is read" 'seen = text[text_len]'
    spoilt load "a wrong length is 9" 'if (r == 1) r = 9'
    spoilt load "the looks are not 0" 'if (r == 0) display[17] = 1'
    spoilt load "an idle entry keeps a byte" 'if (r == 0 && table[0] == 0) table[22] = 1'
    spoilt save2 "the numbers move" 'if (r == 0) display[0] ^= 1'
    spoilt save2 "a text of the second form that does not fit is begun" 'if (r == 12 && text_len > 0) text[text_len - 1] ^= 1'
    spoilt load2 "a refused text of the second form moves the display" 'if (r == 9) display[0] ^= 1'
    spoilt load2 "the looks of the second form are not 0" 'if (r == 0) display[16] = 1'
    spoilt to_new "a byte behind the new text is written" 'if (r == 0 && *written < text_len) text[*written] ^= 1'
    spoilt to_new "the length is told after a refused move" 'if (r != 0) *written = from_len'
    spoilt to_old "the text to be moved is written" 'if (from_len > 0) from[from_len - 1] ^= 1'
    spoilt to_old "a refused move writes" 'if (r == 10 && text_len > 0) text[0] ^= 1'
    spoilt to_old "a byte behind the text to be moved is read" 'seen = from[from_len]'
}

three_ways "$@"
