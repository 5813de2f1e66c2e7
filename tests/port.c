/* The service port with any bytes, held against the second program: port SEED TRIES CHANNELS OUTPUT <LOG.
 *
 * The log is cut into fragments of random lengths, some of them empty, and fed through a good port, state and table; what comes
 * back, put together, goes to the file OUTPUT, which must be the output of the log in one. Before each call it is made TRIES times
 * on copies whose port, room, state, table, display or lengths are damaged. What must come back is worked out from the second program's
 * port. Every byte lent is compared, and so are the two numbers. The same words give the same calls on every machine.
 *
 * At a difference it says which byte, shows the call and ends with status 1. Otherwise it writes a line for each count. */
#include <stdio.h>
#include <stdlib.h>
#include <string.h>

#include "../second/chance.h"
#include "../second/port.h"
#include "states.h"

enum Piece { FRAGMENT, PORT, STATE, TABLE, DISPLAY, OUT, PIECES };
static const char *const piece_name[PIECES] = {"fragment", "port", "state", "table", "display", "output"};

/* What is handed to a call; or, after it, what the lent memory holds, and what the call gives back. */
struct Call {
    int end;                                /* the log has ended: no fragment is handed over */
    struct Bytes piece[PIECES];
    unsigned result;
    size_t used, written;
};

/* ---- What was tried */

enum Count {
    CALLS, ENDS, NO_PORT, NO_DISPLAY, NO_ROOM, TAKEN, EMPTY, ANSWERED, ANSWERED_UNSOUND, MALFORMED, OVERLONG, LAST_LINES, COUNTS
};
static const char *const count_name[COUNTS] = {
    "calls", "ends of a log", "no port: 1", "a display of another size: 1", "room below 973 bytes: 12", "taken: 0", "empty fragments", "lines answered",
    "lines answered 1", "malformed lines", "lines of more than 526 characters", "last lines without LF"
};
static unsigned long count[COUNTS];

static struct Lent lent[PIECES];
static unsigned board;

/* ---- What must come back */

/* The state as the second program's; NULL where the bytes hold none. */
static struct Arbiter *struct_of(const struct Call *c, struct Arbiter *a)
{
    return is_sound(&c->piece[STATE], &c->piece[TABLE], a) ? a : NULL;
}

static void read_port(struct Port *p, const uint8_t *b)
{
    p->started = 256u * b[0] + b[1];
    memcpy(p->line, b + QAMHUDEER_PORT_LINE, PORT_LINE);
}

static void put_port(uint8_t *b, const struct Port *p)
{
    b[0] = (uint8_t)(p->started >> 8);
    b[1] = (uint8_t)(p->started & 255);
    memcpy(b + QAMHUDEER_PORT_LINE, p->line, PORT_LINE);
}

/* A state that a refused or malformed line has left is written as it was: its bytes are not touched. */
static void put_state(struct Call *c, const struct Arbiter *before, const struct Arbiter *after)
{
    if (memcmp(before, after, sizeof *before) != 0)
        put_all(c->piece[STATE].byte, c->piece[TABLE].byte, after);
}

static void count_line(const struct Port *before, const struct Call *c, const char *text)
{
    count[ANSWERED]++;
    count[OVERLONG] += before->started == PORT_LINE;
    count[LAST_LINES] += (unsigned)c->end;
    if (c->written == ANSWER_LINE && memcmp(text, "A007", 4) == 0)
        count[MALFORMED]++;
    if (c->written == ANSWER_LINE && memcmp(text, "A001", 4) == 0)
        count[ANSWERED_UNSOUND]++;
}

/* The call becomes what the lent memory must hold after it, and what must be given back. */
static void expect(struct Call *c)
{
    static struct Arbiter a, before;
    static struct Port port, started;
    static struct Display display;
    static char text[LONGEST_OUTPUT];
    struct Arbiter *s;

    c->used = c->written = 0;
    count[CALLS]++;
    count[ENDS] += (unsigned)c->end;
    c->result = QAMHUDEER_UNSOUND;
    if (c->piece[PORT].length != QAMHUDEER_PORT_SIZE || 256u * c->piece[PORT].byte[0] + c->piece[PORT].byte[1] > PORT_LINE) {
        count[NO_PORT]++;
        return;
    }
    if (c->piece[DISPLAY].length != QAMHUDEER_DISPLAY_SIZE) {
        count[NO_DISPLAY]++;
        return;
    }
    c->result = QAMHUDEER_TOOSMALL;
    if (c->piece[OUT].length < LONGEST_OUTPUT) {
        count[NO_ROOM]++;
        return;
    }
    c->result = 0;
    count[TAKEN]++;
    count[EMPTY] += !c->end && c->piece[FRAGMENT].length == 0;
    read_port(&port, c->piece[PORT].byte);
    read_display(&display, c->piece[DISPLAY].byte);
    port.display = &display;
    s = struct_of(c, &a);
    before = a;
    if (c->end) {
        started = port;
        port_end(&port, s, text, &c->written);
    } else {
        c->used = port_feed(&port, s, (const char *)c->piece[FRAGMENT].byte, c->piece[FRAGMENT].length, text, &c->written);
        started = port;
    }
    if (c->written > 0)
        count_line(&started, c, text);
    put_port(c->piece[PORT].byte, &port);
    if (s != NULL) {
        put_state(c, &before, &a);
        put_display(c->piece[DISPLAY].byte, &display);
    }
    memcpy(c->piece[OUT].byte, text, c->written);
}

/* ---- A call */

static void different(const struct Call *c)
{
    printf("    in seed %lu, fragment %lu, try %lu%s\n", where.seed, where.line, where.try, c->end ? ", at the end" : "");
    for (unsigned p = 0; p < PIECES; p++)
        show_bytes(piece_name[p], &c->piece[p]);
    exit(1);
}

/* Makes the call through the library and compares. The call becomes what the memory holds after it. */
static void make_call(struct Call *c)
{
    static struct Call before;
    size_t used = below(2000), written = below(2000);
    unsigned result;
    int same;

    before = *c;
    expect(c);
    for (unsigned p = 0; p < PIECES; p++)
        lend(&lent[p], &before.piece[p]);
    if (c->end) {
        used = 0;
        result = qamhudeer_feed_end(lent[PORT].at, lent[PORT].length, lent[STATE].at, lent[STATE].length, lent[TABLE].at,
                                    lent[TABLE].length, lent[DISPLAY].at, lent[DISPLAY].length, lent[OUT].at, lent[OUT].length,
                                    &written);
    } else {
        result = qamhudeer_feed(lent[FRAGMENT].at, lent[FRAGMENT].length, lent[PORT].at, lent[PORT].length, lent[STATE].at,
                                lent[STATE].length, lent[TABLE].at, lent[TABLE].length, lent[DISPLAY].at, lent[DISPLAY].length,
                                lent[OUT].at, lent[OUT].length, &used, &written);
    }
    same = same_number("the result", result, c->result) & same_number("used", used, c->used)
        & same_number("written", written, c->written);
    for (unsigned p = 0; p < PIECES; p++)
        same &= lent_same(&lent[p], &c->piece[p], piece_name[p]);
    if (!same)
        different(&before);
}

/* ---- Damage */

/* Near the ends of a line's length, and any. */
static void damage_port(struct Bytes *port)
{
    static const uint16_t lengths[8] = {0, 1, 16, 525, 526, 527, 528, 65535};
    unsigned odds = below(4), length = lengths[below(8)];

    if (odds == 0)
        length = below(percent(50) ? 600 : 65536);
    if (odds == 3) {
        stretch(port, any_length(QAMHUDEER_PORT_SIZE));
        return;
    }
    put_key(port->byte, (uint16_t)length);
    if (percent(50))
        port->byte[QAMHUDEER_PORT_LINE + below(PORT_LINE)] = (uint8_t)below(256);
}

static void damage_once(struct Call *c)
{
    unsigned odds = below(12);

    if (odds == 10)
        damage_display(&c->piece[DISPLAY]);
    else if (odds == 11)
        stretch(&c->piece[DISPLAY], any_length(QAMHUDEER_DISPLAY_SIZE) % 64);
    else if (odds < 3)
        damage_port(&c->piece[PORT]);
    else if (odds < 4)
        stretch(&c->piece[OUT], any_length(LONGEST_OUTPUT));
    else if (odds < 5)
        damage_state_length(&c->piece[STATE]);
    else if (odds < 6)
        damage_table_length(&c->piece[TABLE]);
    else if (c->piece[STATE].length == QAMHUDEER_STATE_SIZE && c->piece[TABLE].length == QAMHUDEER_TABLE_SIZE)
        damage_state(c->piece[STATE].byte, c->piece[TABLE].byte, board);
}

/* ---- A run */

static struct Call good;                    /* the log's port, state and table */

static void with_room(struct Call *c)
{
    fill(&c->piece[OUT], LONGEST_OUTPUT + (percent(50) ? 0 : below(100)));
}

static void try_damaged(unsigned long tries)
{
    static struct Call c;

    for (where.try = 1; where.try <= tries; where.try++) {
        c = good;
        with_room(&c);
        for (unsigned times = 1 + below(2); times > 0; times--)
            damage_once(&c);
        c.end = percent(20) ? !good.end : good.end;
        make_call(&c);
    }
    where.try = 0;
}

static void feed(FILE *output, unsigned long tries)
{
    where.line++;
    try_damaged(tries);
    with_room(&good);
    make_call(&good);
    fwrite(good.piece[OUT].byte, 1, good.written, output);
}

/* What the call has not used is its next fragment. */
static void feed_all(const uint8_t *bytes, size_t length, FILE *output, unsigned long tries)
{
    struct Bytes *fragment = &good.piece[FRAGMENT];

    fragment->length = length;
    memcpy(fragment->byte, bytes, length);
    do {
        feed(output, tries);
        fragment->length -= good.used;
        memmove(fragment->byte, fragment->byte + good.used, fragment->length);
    } while (fragment->length > 0);
}

static size_t any_cut(void)
{
    unsigned odds = below(10);

    return below(odds < 2 ? 2 : odds < 8 ? 40 : 1200);
}

int main(int words, char **word)
{
    static uint8_t bytes[1200];
    unsigned long tries;
    FILE *output = words == 5 ? fopen(word[4], "wb") : NULL;

    if (words == 5)
        board = (unsigned)strtoul(word[3], NULL, 10);
    if (output == NULL || (board != 4 && board != 8)) {
        fputs("usage: port SEED TRIES 4|8 OUTPUT <LOG\n", stderr);
        return 2;
    }
    where.seed = strtoul(word[1], NULL, 10);
    tries = strtoul(word[2], NULL, 10);
    chance_seed(where.seed);
    lent_pages(lent, PIECES);
    good.piece[PORT].length = QAMHUDEER_PORT_SIZE;
    good.piece[STATE].length = QAMHUDEER_STATE_SIZE;
    good.piece[TABLE].length = QAMHUDEER_TABLE_SIZE;
    good.piece[DISPLAY].length = QAMHUDEER_DISPLAY_SIZE;
    if (qamhudeer_fresh((uint8_t)board, good.piece[STATE].byte, QAMHUDEER_STATE_SIZE, good.piece[TABLE].byte, QAMHUDEER_TABLE_SIZE,
                        good.piece[DISPLAY].byte, QAMHUDEER_DISPLAY_SIZE) != 0)
        return 2;
    while (!feof(stdin) && !ferror(stdin))
        feed_all(bytes, fread(bytes, 1, any_cut(), stdin), output, tries);
    good.end = 1;
    feed(output, tries);
    for (unsigned i = 0; i < COUNTS; i++)
        printf("count %lu %s\n", count[i], count_name[i]);
    return ferror(stdin) || fclose(output) != 0 || fflush(stdout) != 0 || ferror(stdout);
}
