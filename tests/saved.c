/* Saved texts of both forms through the library, held against the second program: saved SEED TRIES CHANNELS <LOG.
 *
 * The log leads through good states. At each of its lines TRIES calls are made: saves of the state and of damaged copies of it, in rooms
 * of every size about the text's; loads of good texts, of spoilt ones and of any bytes, over any bytes, by the loader of either
 * form; and such texts moved into the other form. What must come back is worked out from the second program, and every byte
 * lent is compared. What is saved is loaded back, and what is moved is moved back: it must be the same bytes again. The same words
 * give the same calls on every machine.
 *
 * At a difference it says which byte, shows the call and ends with status 1. Otherwise it writes a line for each count. */
#include <stdio.h>
#include <stdlib.h>
#include <string.h>

#include "../second/chance.h"
#include "../second/saved.h"
#include "../second/spoilt.h"
#include "states.h"

#ifndef QAMHUDEER_TEXT_SIZE
#define QAMHUDEER_TEXT_SIZE 3344
#define QAMHUDEER_BADTEXT 9
#define QAMHUDEER_EIGHT 10
uint8_t qamhudeer_save(const uint8_t *state, size_t state_len, const uint8_t *table, size_t table_len, uint8_t *text, size_t text_len,
                       size_t *written);
uint8_t qamhudeer_load(uint8_t channels, const uint8_t *text, size_t text_len, uint8_t *state, size_t state_len, uint8_t *table,
                       size_t table_len, uint8_t *display, size_t display_len);
#endif
#ifndef QAMHUDEER_TEXT2_SIZE
#define QAMHUDEER_TEXT2_SIZE 3521
uint8_t qamhudeer_save2(const uint8_t *state, size_t state_len, const uint8_t *table, size_t table_len, const uint8_t *display,
                        size_t display_len, uint8_t *text, size_t text_len, size_t *written);
uint8_t qamhudeer_load2(uint8_t channels, const uint8_t *text, size_t text_len, uint8_t *state, size_t state_len, uint8_t *table,
                        size_t table_len, uint8_t *display, size_t display_len);
uint8_t qamhudeer_to_new(const uint8_t *from, size_t from_len, uint8_t *text, size_t text_len, size_t *written);
uint8_t qamhudeer_to_old(const uint8_t *from, size_t from_len, uint8_t *text, size_t text_len, size_t *written);
#endif

enum Piece { STATE, TABLE, DISPLAY, PIECES };
static const char *const piece_name[PIECES] = {"state", "table", "display"};

enum What { SAVE, SAVE2, LOAD, LOAD2, TO_NEW, TO_OLD };
static const char *const what_name[] = {"save", "save2", "load", "load2", "to_new", "to_old"};

/* What is handed to a call; or, after it, what the lent memory holds, and what the call gives back. */
struct Call {
    enum What what;
    unsigned channels;                      /* of the board that loads */
    struct Bytes piece[PIECES];             /* a save of the first form is handed no display; a move nothing of these */
    struct Spoilt from;                     /* the text to load or to move */
    struct Spoilt room;                     /* the room to save in, or to move to */
    unsigned result;
    size_t written;
};

static int saves(enum What what)
{
    return what == SAVE || what == SAVE2;
}

static int loads(enum What what)
{
    return what == LOAD || what == LOAD2;
}

/* ---- What was tried */

enum Count {
    SAVES, UNSOUND, NO_STATE, EIGHT, BAD_NUMBERS, BEHIND_BOARD, NO_ROOM, SAVED, SAVED2, SAVED_EIGHT, JUST_AS_LONG, LONG_TEXTS, DAMAGED_SAVED,
    LOADS, WRONG_LENGTH, WRONG_BOARD, OTHER_BOARD, OTHER_FORM, BAD_LINE, BAD_WHOLE, BAD_COUNT, LOADED, LOADED_EIGHT, LOADED_SPOILT,
    LOADED_UNSETTLED, MOVES, MOVE_BAD, MOVE_BAD_NO_ROOM, MOVE_EIGHT, MOVE_EIGHT_NO_ROOM, MOVE_EIGHT_BAD, MOVE_NO_ROOM, TO_NEW_DONE,
    TO_OLD_DONE, MOVED_JUST, COUNTS
};
static const char *const count_name[COUNTS] = {
    "saves", "saves of what is not sound: 1", "saves of no state, a length or a mark: 1", "saves of eight channels, first form: 10",
    "saves of numbers that disagree with a count: 1", "saves of numbers behind the board: 1", "saves without room: 12", "saved, first form: 0",
    "saved, second form: 0", "saved, eight channels: 0", "saved in room just as long", "saved texts of more than 2,000 bytes",
    "saved: a damaged state that is sound", "loads", "loads into a wrong length: 1", "loads on a board that there is not: 9",
    "loads of the other board's text: 9", "loads of the other form's text: 9", "loads of a wrong line: 9", "loads of what is not sound: 9",
    "loads of numbers that disagree with a count: 9", "loaded: 0", "loaded, eight channels: 0", "loaded: a spoilt text that is good",
    "loaded: the text of a damaged state that is sound", "moves", "moves of no such text: 9", "the same without room: 9",
    "moves of eight channels: 10", "the same without room: 10", "moves of eight channels with wrong numbers: 9", "moves without room: 12",
    "moved to the new form: 0", "moved to the old form: 0", "moved into room just as long"
};
static unsigned long count[COUNTS], *by_kind[2];

static struct Lent lent[PIECES + 2];
static unsigned board;

/* ---- What must come back */

static void expect_save(struct Call *c)
{
    struct Arbiter a;
    struct Display d, counted;

    count[SAVES]++;
    c->written = 0;
    if (!is_sound(&c->piece[STATE], &c->piece[TABLE], &a)) {
        c->result = QAMHUDEER_UNSOUND;
        count[decodes(&c->piece[STATE]) && c->piece[TABLE].length == QAMHUDEER_TABLE_SIZE ? UNSOUND : NO_STATE]++;
        return;
    }
    if (c->what == SAVE) {
        c->result = (unsigned)saved_save(&a, c->room.text, c->room.length, &c->written);
    } else if (c->piece[DISPLAY].length != QAMHUDEER_DISPLAY_SIZE) {
        c->result = QAMHUDEER_UNSOUND;
        count[NO_STATE]++;
        return;
    } else {
        read_display(&d, c->piece[DISPLAY].byte);
        c->result = (unsigned)saved_save2(&a, &d, c->room.text, c->room.length, &c->written);
        saved_count(&a, &counted);
        count[BEHIND_BOARD] += a.channels == 4 && memcmp(d.writes, counted.writes, 4) == 0 && memcmp(d.naming, counted.naming, 4) == 0
            && c->result == QAMHUDEER_UNSOUND;
    }
    count[BAD_NUMBERS] += c->result == QAMHUDEER_UNSOUND;
    count[EIGHT] += c->result == QAMHUDEER_EIGHT;
    count[NO_ROOM] += c->result == QAMHUDEER_TOOSMALL;
    count[SAVED] += c->result == 0 && c->what == SAVE;
    count[SAVED2] += c->result == 0 && c->what == SAVE2;
    count[SAVED_EIGHT] += c->result == 0 && a.channels == 8;
    count[LONG_TEXTS] += c->written > 2000;
    count[JUST_AS_LONG] += c->result == 0 && c->written == c->room.length;
}

/* 1 if this text of the second form, whose lines may all stand, is a sound state of the four-channel board but for its numbers. */
static int sound_lines(const struct Call *c)
{
    static char old[SPOILT_ROOM];
    struct Arbiter a;
    struct Display d;
    size_t head = strlen("D002\nD804\n"), tail = c->channels * strlen("D9000000\n");

    if (c->channels != 4)
        return 1;
    memcpy(old, "D001\n", 5);
    memcpy(old + 5, c->from.text + head, c->from.length - head - tail);
    return saved_load(4, old, 5 + c->from.length - head - tail, &a, &d) == DONE;
}

/* Why a text is refused with 9. */
static void count_refused(const struct Call *c)
{
    const char *text = c->from.text;
    size_t length = c->from.length;
    struct Arbiter a;
    struct Display d;
    size_t fault = c->what == LOAD ? saved_fault(text, length) : saved_fault2(c->channels, text, length);

    if (c->channels != 4 && (c->what == LOAD || c->channels != 8))
        count[WRONG_BOARD]++;
    else if (c->what == LOAD2 && saved_load2(12 - c->channels, text, length, &a, &d) == 0)
        count[OTHER_BOARD]++;
    else if (c->what == LOAD ? saved_load2(4, text, length, &a, &d) == 0 : saved_load(4, text, length, &a, &d) == 0)
        count[OTHER_FORM]++;
    else if (fault != 0)
        count[BAD_LINE]++;
    else
        count[c->what == LOAD || !sound_lines(c) ? BAD_WHOLE : BAD_COUNT]++;
}

static void expect_load(struct Call *c)
{
    struct Arbiter a;
    struct Display d;

    count[LOADS]++;
    c->result = QAMHUDEER_UNSOUND;
    if (c->piece[STATE].length != QAMHUDEER_STATE_SIZE || c->piece[TABLE].length != QAMHUDEER_TABLE_SIZE
        || c->piece[DISPLAY].length != QAMHUDEER_DISPLAY_SIZE) {
        count[WRONG_LENGTH]++;
        return;
    }
    read_display(&d, c->piece[DISPLAY].byte);
    c->result = (unsigned)(c->what == LOAD ? saved_load : saved_load2)(c->channels, c->from.text, c->from.length, &a, &d);
    if (c->result != 0) {
        count_refused(c);
        return;
    }
    put_all(c->piece[STATE].byte, c->piece[TABLE].byte, &a);
    put_display(c->piece[DISPLAY].byte, &d);
    count[LOADED]++;
    count[LOADED_EIGHT] += a.channels == 8;
}

static void expect_move(struct Call *c)
{
    count[MOVES]++;
    c->result = (unsigned)(c->what == TO_NEW ? saved_to_new : saved_to_old)(c->from.text, c->from.length, c->room.text, c->room.length,
                                                                            &c->written);
    count[MOVE_BAD] += c->result == QAMHUDEER_BADTEXT;
    count[MOVE_BAD_NO_ROOM] += c->result == QAMHUDEER_BADTEXT && c->room.length < 112;
    count[MOVE_EIGHT] += c->result == QAMHUDEER_EIGHT;
    count[MOVE_EIGHT_NO_ROOM] += c->result == QAMHUDEER_EIGHT && c->room.length < 112;
    count[MOVE_EIGHT_BAD] += c->what == TO_OLD && c->result == QAMHUDEER_BADTEXT && saved_fault2(8, c->from.text, c->from.length) == 0;
    count[MOVE_NO_ROOM] += c->result == QAMHUDEER_TOOSMALL;
    count[TO_NEW_DONE] += c->what == TO_NEW && c->result == 0;
    count[TO_OLD_DONE] += c->what == TO_OLD && c->result == 0;
    count[MOVED_JUST] += c->result == 0 && c->written == c->room.length;
}

/* ---- A call */

static void show_text(const char *name, const struct Spoilt *t, int whole)
{
    printf("    %s, %lu bytes: ", name, (unsigned long)t->length);
    for (size_t i = 0; i < t->length && whole; i++)
        printf(t->text[i] >= ' ' && t->text[i] <= '~' ? "%c" : "<%02X>", (uint8_t)t->text[i]);
    printf("\n");
}

static void different(const struct Call *c)
{
    printf("    in seed %lu, line %lu, try %lu: %s, board %u\n", where.seed, where.line, where.try, what_name[c->what], c->channels);
    show_text("text", &c->from, !saves(c->what));
    show_text("room", &c->room, 0);
    for (unsigned p = 0; p < PIECES; p++)
        show_bytes(piece_name[p], &c->piece[p]);
    exit(1);
}

static unsigned call_library(const struct Call *c, size_t *written)
{
    const struct Lent *s = &lent[STATE], *t = &lent[TABLE], *d = &lent[DISPLAY], *from = &lent[PIECES], *room = &lent[PIECES + 1];

    switch (c->what) {
    case SAVE: return qamhudeer_save(s->at, s->length, t->at, t->length, room->at, room->length, written);
    case SAVE2: return qamhudeer_save2(s->at, s->length, t->at, t->length, d->at, d->length, room->at, room->length, written);
    case LOAD:
        return qamhudeer_load((uint8_t)c->channels, from->at, from->length, s->at, s->length, t->at, t->length, d->at, d->length);
    case LOAD2:
        return qamhudeer_load2((uint8_t)c->channels, from->at, from->length, s->at, s->length, t->at, t->length, d->at, d->length);
    case TO_NEW: return qamhudeer_to_new(from->at, from->length, room->at, room->length, written);
    default: return qamhudeer_to_old(from->at, from->length, room->at, room->length, written);
    }
}

/* Makes the call through the library and compares. The call becomes what the memory holds after it. */
static void make_call(struct Call *c)
{
    static struct Call before;
    size_t written = below(2000);
    unsigned result;
    int same;

    before = *c;
    if (loads(c->what)) {
        expect_load(c);
        written = c->written = 0;
    } else if (saves(c->what)) {
        expect_save(c);
    } else {
        expect_move(c);
    }
    for (unsigned p = 0; p < PIECES; p++)
        lend(&lent[p], &before.piece[p]);
    lend_bytes(&lent[PIECES], (const uint8_t *)before.from.text, before.from.length);
    lend_bytes(&lent[PIECES + 1], (const uint8_t *)before.room.text, before.room.length);
    result = call_library(c, &written);
    same = same_number("the result", result, c->result) & same_number("written", written, c->written);
    for (unsigned p = 0; p < PIECES; p++)
        same &= lent_same(&lent[p], &c->piece[p], piece_name[p]);
    same &= lent_same_bytes(&lent[PIECES], (const uint8_t *)c->from.text, "text");
    same &= lent_same_bytes(&lent[PIECES + 1], (const uint8_t *)c->room.text, "room");
    if (!same)
        different(&before);
}

/* ---- What is lent */

static struct Call good;                    /* the log's state with its numbers */
static struct Spoilt texts[3];              /* good ones: of the first form, of the second on this board, of the second on the other one */

/* Once or twice; now and then any bytes, or another length. */
static void damage_copy(struct Call *c)
{
    unsigned odds = below(20);

    if (odds == 0)
        damage_all(&c->piece[STATE], &c->piece[TABLE]);
    else if (odds == 1)
        damage_state_length(&c->piece[STATE]);
    else if (odds == 2)
        damage_table_length(&c->piece[TABLE]);
    else
        for (unsigned times = 1 + below(2); times > 0; times--)
            damage_state(c->piece[STATE].byte, c->piece[TABLE].byte, board);
}

/* The display's numbers become those of a count over the state, where it is one. */
static void count_copy(struct Call *c)
{
    struct Arbiter a;
    struct Display d;

    if (!is_sound(&c->piece[STATE], &c->piece[TABLE], &a))
        return;
    saved_count(&a, &d);
    d.looks = (uint16_t)below(2081);
    put_display(c->piece[DISPLAY].byte, &d);
}

/* How long the text of this state is; 0 where it has none. Where it has one, it is text. */
static size_t text_of(const struct Call *c, struct Spoilt *text)
{
    struct Arbiter a;
    struct Display d;
    size_t written = 0;

    if (is_sound(&c->piece[STATE], &c->piece[TABLE], &a)) {
        saved_count(&a, &d);
        if (c->what == SAVE || c->what == LOAD)
            saved_save(&a, text->text, SPOILT_ROOM, &written);
        else
            saved_save2(&a, &d, text->text, SPOILT_ROOM, &written);
    }
    text->length = written;
    return written;
}

static void fill_text(struct Spoilt *t, size_t length)
{
    t->length = length;
    for (size_t i = 0; i < length; i++)
        t->text[i] = (char)((int)below(256) - 128);
}

/* Room of every size about this one. */
static void with_room(struct Call *c, size_t length)
{
    unsigned odds = below(10);

    if (length == 0)
        length = percent(50) ? 112 : QAMHUDEER_TEXT2_SIZE;
    if (odds == 0)
        length = 0;
    else if (odds == 1)
        length = below((unsigned)length);
    else if (odds < 4)
        length--;
    else if (odds == 4)
        length++;
    else if (odds == 5)
        length = (percent(50) ? QAMHUDEER_TEXT_SIZE : QAMHUDEER_TEXT2_SIZE) + below(3) - 1;
    else if (odds == 6)
        length += below(600);
    fill_text(&c->room, length);
}

/* What is lent to a load may hold anything. */
static void lend_anything(struct Call *c)
{
    unsigned odds = below(24);

    if (percent(60))
        damage_all(&c->piece[STATE], &c->piece[TABLE]);
    fill(&c->piece[DISPLAY], QAMHUDEER_DISPLAY_SIZE);
    if (odds == 0)
        damage_state_length(&c->piece[STATE]);
    else if (odds == 1)
        damage_table_length(&c->piece[TABLE]);
    else if (odds == 2)
        stretch(&c->piece[DISPLAY], any_length(QAMHUDEER_DISPLAY_SIZE) % 64);
}

/* ---- The tries */

/* What was saved comes back, over any bytes. */
static void load_back(const struct Call *saved)
{
    static struct Call c;

    c = *saved;
    c.what = saved->what == SAVE ? LOAD : LOAD2;
    c.channels = saved->piece[STATE].byte[QAMHUDEER_OFFSET_OF_CHANNELS];
    c.from = saved->room;
    c.from.length = saved->written;
    damage_all(&c.piece[STATE], &c.piece[TABLE]);
    fill(&c.piece[DISPLAY], QAMHUDEER_DISPLAY_SIZE);
    make_call(&c);
    for (unsigned p = STATE; p <= TABLE; p++)
        if (c.piece[p].length != saved->piece[p].length || memcmp(c.piece[p].byte, saved->piece[p].byte, c.piece[p].length) != 0) {
            printf("DIFFERENT: saved and loaded, the %s is another\n", piece_name[p]);
            different(saved);
        }
}

static void try_save(void)
{
    static struct Call c;
    static struct Spoilt text;
    int damaged = percent(70);

    c = good;
    c.what = percent(40) ? SAVE : SAVE2;
    if (damaged)
        damage_copy(&c);
    count_copy(&c);
    if (c.what == SAVE2 && percent(20)) {
        uint8_t *number = &c.piece[DISPLAY].byte[below(16)];

        *number = (uint8_t)(percent(70) ? *number + (percent(50) ? 1u : 255u) : below(256));
    } else if (c.what == SAVE2 && percent(5)) {
        stretch(&c.piece[DISPLAY], any_length(QAMHUDEER_DISPLAY_SIZE) % 64);
    }
    with_room(&c, text_of(&c, &text));
    make_call(&c);
    count[DAMAGED_SAVED] += damaged && c.result == 0;
    if (c.result == 0)
        load_back(&c);
}

/* The text that this call is about. */
static unsigned text_for(const struct Call *c)
{
    if (c->what == LOAD || c->what == TO_NEW)
        return 0;
    if (c->what == TO_OLD)
        return percent(70) == (board == 4) ? 1 : 2;     /* mostly one of four channels */
    return c->channels == board ? 1 : 2;
}

/* Mostly that one, else any of the three, good or spoilt; the result says whether it was spoilt. */
static int any_text(const struct Call *c, struct Spoilt *t)
{
    unsigned which = text_for(c), kind = below(spoilt_kinds()), odds = below(20), other = below(3), second;

    if (percent(15))
        which = other;
    second = which > 0;
    *t = texts[which];
    if (odds < 2) {
        fill_text(t, below(percent(50) ? 8 : QAMHUDEER_TEXT2_SIZE + 8));
        return 1;
    }
    if (odds < 6)
        return 0;
    by_kind[second][kind] += (unsigned)spoilt_by(kind, t);
    if (odds < 8)
        spoilt_by(below(spoilt_kinds()), t);
    return t->length != texts[which].length || memcmp(t->text, texts[which].text, t->length) != 0;
}

static void try_load(void)
{
    static struct Call c;
    static struct Spoilt text;
    int was_spoilt = 0;

    c = good;
    c.what = percent(45) ? LOAD : LOAD2;
    c.channels = percent(95) ? (c.what == LOAD || percent(50) ? 4 : 8) : percent(40) ? 8 : below(256);
    if (percent(15)) {
        damage_copy(&c);
        if (text_of(&c, &text) > 0) {
            c.from = text;
            c.channels = c.piece[STATE].byte[QAMHUDEER_OFFSET_OF_CHANNELS];
            count[LOADED_UNSETTLED]++;
        }
    } else {
        was_spoilt = any_text(&c, &c.from);
        /* At times on the board that the text speaks of, also where there is none. */
        if (c.what == LOAD2 && c.from.length > 9 && memcmp(c.from.text, "D002\nD80", 8) == 0 && percent(30))
            c.channels = (uint8_t)(c.from.text[8] - '0');
    }
    c.piece[STATE] = good.piece[STATE];
    c.piece[TABLE] = good.piece[TABLE];
    lend_anything(&c);
    make_call(&c);
    count[LOADED_SPOILT] += c.result == 0 && was_spoilt;
}

/* "There and back leaves an old text as it was, byte for byte." */
static void move_back(const struct Call *moved)
{
    static struct Call c;

    c = *moved;
    c.what = moved->what == TO_NEW ? TO_OLD : TO_NEW;
    c.from = moved->room;
    c.from.length = moved->written;
    fill_text(&c.room, moved->from.length);
    make_call(&c);
    if (c.result != 0 || c.written != moved->from.length || memcmp(c.room.text, moved->from.text, c.written) != 0) {
        printf("DIFFERENT: there and back, the text is another\n");
        different(moved);
    }
}

static void try_move(void)
{
    static struct Call c;
    static struct Spoilt text;
    size_t written;

    c = good;
    c.what = percent(50) ? TO_NEW : TO_OLD;
    any_text(&c, &c.from);
    (c.what == TO_NEW ? saved_to_new : saved_to_old)(c.from.text, c.from.length, text.text, SPOILT_ROOM, &written);
    with_room(&c, written);
    make_call(&c);
    if (c.result == 0)
        move_back(&c);
}

/* ---- A run */

/* The texts of a state: in the first form where it has one, and in the second. */
static void keep_texts(const struct Arbiter *a, struct Spoilt *first, struct Spoilt *second)
{
    struct Display d;
    size_t written;

    saved_count(a, &d);
    if (saved_save(a, first->text, SPOILT_ROOM, &written) == DONE)
        first->length = written;
    if (saved_save2(a, &d, second->text, SPOILT_ROOM, &written) == DONE)
        second->length = written;
}

static void follow(struct Arbiter *a, struct Arbiter *other, const struct Frame *f)
{
    static struct Reply record[REQUESTS];
    struct Replies replies = {.record = record, .capacity = REQUESTS};

    arbiter_call(a, f, &replies);
    arbiter_call(other, f, &replies);
    put_all(good.piece[STATE].byte, good.piece[TABLE].byte, a);
    keep_texts(a, &texts[0], &texts[1]);
    keep_texts(other, &texts[0], &texts[2]);
}

int main(int words, char **word)
{
    static struct Arbiter a, other;
    struct Frame f;
    enum Line line;
    unsigned long tries;

    board = words == 4 ? (unsigned)strtoul(word[3], NULL, 10) : 0;
    for (unsigned form = 0; form < 2; form++)
        by_kind[form] = calloc(spoilt_kinds(), sizeof *by_kind[form]);
    if ((board != 4 && board != 8) || by_kind[0] == NULL || by_kind[1] == NULL) {
        fputs("usage: saved SEED TRIES 4|8 <LOG\n", stderr);
        return 2;
    }
    where.seed = strtoul(word[1], NULL, 10);
    tries = strtoul(word[2], NULL, 10);
    chance_seed(where.seed);
    lent_pages(lent, PIECES + 2);
    good.piece[STATE].length = QAMHUDEER_STATE_SIZE;
    good.piece[TABLE].length = QAMHUDEER_TABLE_SIZE;
    good.piece[DISPLAY].length = QAMHUDEER_DISPLAY_SIZE;
    arbiter_fresh(&a, board);
    arbiter_fresh(&other, 12 - board);      /* the same log on the other board */
    while ((line = log_read(stdin, &f)) != LINE_NONE) {
        if (line != LINE_FRAME)
            continue;
        where.line++;
        follow(&a, &other, &f);
        for (where.try = 1; where.try <= tries; where.try++) {
            unsigned odds = below(100);

            if (odds < 40)
                try_save();
            else if (odds < 75)
                try_load();
            else
                try_move();
        }
    }
    for (unsigned i = 0; i < COUNTS; i++)
        printf("count %lu %s\n", count[i], count_name[i]);
    for (unsigned form = 0; form < 2; form++)
        for (unsigned kind = 0; kind < spoilt_kinds(); kind++)
            if (spoilt_applies(kind, form + 1, 4))
                printf("count %lu form %u spoilt by %s\n", by_kind[form][kind], form + 1, spoilt_name(kind));
    return ferror(stdin) || fflush(stdout) != 0 || ferror(stdout);
}
