/* The functions of qamhudeer_desk.h beside the plain call: desk SEED TRIES CHANNELS <LOG. CHANNELS is 4 or 8, the board's.
 *
 * Each frame of the log is called on two devices of the same bytes: on one by qamhudeer_call with the frame's own numbers, on the
 * other by the function of its name. Then every byte of state, table, display, replies and answer must be the same; so must the
 * struct that was returned, and the walk over each desk's replies. TRIES times more this is done on a copy, with other numbers or
 * a damaged state. Only a precedence that is no signed byte has no plain call: there this file says what must stand.
 *
 * At a difference it says where, and ends with status 1. Otherwise it writes a line for each count. It is C99, and C++11 too. */
#include <stdio.h>
#include <stdlib.h>
#include <string.h>

#ifdef __cplusplus
extern "C" {
#endif
#include "../second/chance.h"
#include "../second/log.h"
#ifdef __cplusplus
}
#endif
#include "qamhudeer_desk.h"

struct Call {
    uint8_t desk, op, id, flags, map;
    int prec;
    uint16_t key;
    size_t length;
    uint8_t list[300];
};

static unsigned long line;
static struct qamhudeer_device plain, inlined;

/* ---- What was tried */

enum { BAD_PRECEDENCES, WIDE_NUMBERS, REPLIES_WALKED, UNSOUND_STATES, OTHER_OPERATIONS, COUNTS };
static const char *const count_name[COUNTS] = {
    "precedences that are no byte", "numbers that six bytes cannot spell", "replies walked over", "states that are not sound",
    "operations without a function"
};
static unsigned long count[COUNTS], called[256];

static void differs(const struct Call *c, const char *what, long is, long must)
{
    printf("DIFFERENT: %s is %ld and must be %ld\n", what, is, must);
    printf("    in line %lu: desk %u, operation %02X, id %u, flags %02X, map %02X, precedence %d, key %u, a list of %lu\n", line, c->desk,
           c->op, c->id, c->flags, c->map, c->prec, c->key, (unsigned long)c->length);
    exit(1);
}

static void same(const struct Call *c, const char *what, long is, long must)
{
    if (is != must)
        differs(c, what, is, must);
}

static void same_bytes(const struct Call *c, const char *what, const uint8_t *is, const uint8_t *must, size_t length)
{
    for (size_t at = 0; at < length; at++)
        if (is[at] != must[at]) {
            printf("byte %lu:\n", (unsigned long)at);
            differs(c, what, is[at], must[at]);
        }
}

/* ---- One call, in both ways */

static int reads_precedence(uint8_t op)
{
    return op == QAMHUDEER_OPEN || op == ADCMD_ALLOCATE || op == ADCMD_SETPREC;
}

/* The events' functions take no key: it is 0, which the answer tells. */
static void call_plain(const struct Call *c)
{
    int event = c->op == QAMHUDEER_CYCLE_ENDED || c->op == QAMHUDEER_GAVE_UP;
    uint16_t key = event ? 0 : c->key;

    if (reads_precedence(c->op) && (c->prec < -128 || c->prec > 127)) {
        uint8_t refused[QAMHUDEER_ANSWER_SIZE] = {0, QAMHUDEER_DESK_BADPREC, 0, 0, 0, 255, 0, 0};

        refused[3] = (uint8_t)(key / 256);
        refused[4] = (uint8_t)(key % 256);
        memcpy(plain.answer, refused, sizeof refused);
        count[BAD_PRECEDENCES]++;
        return;
    }
    qamhudeer_call(c->desk, c->op, c->id, c->flags, c->map, (uint8_t)c->prec, key, c->list, c->length, plain.state, sizeof plain.state,
                   plain.table, sizeof plain.table, plain.display, sizeof plain.display, plain.replies, sizeof plain.replies,
                   plain.answer, sizeof plain.answer);
}

/* A list of neither 0 nor 6 bytes is refused, and has no other way to be said than by a number that is too wide. */
static struct qamhudeer_answer call_numbers(const struct Call *c, const struct qamhudeer_request *r)
{
    const uint8_t *n = c->list;
    unsigned long cycles = 1, period = 124, volume = 64;

    if (c->length == QAMHUDEER_NUMBERS_SIZE) {
        cycles = 256ul * n[0] + n[1];
        period = 65536ul * n[2] + 256ul * n[3] + n[4];
        volume = n[5];
    } else if (c->length != 0) {
        unsigned which = c->op == ADCMD_PERVOL ? 1 + (unsigned)(c->length % 2) : (unsigned)(c->length % 3);

        cycles += which == 0 ? 65536 : 0;
        period += which == 1 ? 16777216 : 0;
        volume += which == 2 ? 256 : 0;
        count[WIDE_NUMBERS]++;
    }
    return c->op == CMD_WRITE ? qamhudeer_desk_write(&inlined, r, cycles, period, volume)
                              : qamhudeer_desk_pervol(&inlined, r, period, volume);
}

static struct qamhudeer_answer call_inlined(const struct Call *c)
{
    struct qamhudeer_request r = {c->desk, c->id, c->flags, c->map, c->key};
    const uint8_t *list = c->length > 0 ? c->list : NULL;

    switch (c->op) {
    case QAMHUDEER_OPEN: return qamhudeer_desk_open(&inlined, c->key, c->prec, list, c->length);
    case QAMHUDEER_CLOSE: return qamhudeer_desk_close(&inlined, c->key);
    case QAMHUDEER_ABORT: return qamhudeer_desk_abort(&inlined, &r);
    case QAMHUDEER_CYCLE_ENDED: return qamhudeer_desk_cycle_ended(&inlined, c->map);
    case QAMHUDEER_GAVE_UP: return qamhudeer_desk_gave_up(&inlined, c->map);
    case CMD_RESET: return qamhudeer_desk_reset(&inlined, &r);
    case CMD_READ: return qamhudeer_desk_read(&inlined, &r);
    case CMD_WRITE: case ADCMD_PERVOL: return call_numbers(c, &r);
    case CMD_UPDATE: return qamhudeer_desk_update(&inlined, &r);
    case CMD_CLEAR: return qamhudeer_desk_clear(&inlined, &r);
    case CMD_STOP: return qamhudeer_desk_stop(&inlined, &r);
    case CMD_START: return qamhudeer_desk_start(&inlined, &r);
    case CMD_FLUSH: return qamhudeer_desk_flush(&inlined, &r);
    case ADCMD_FREE: return qamhudeer_desk_free(&inlined, &r);
    case ADCMD_SETPREC: return qamhudeer_desk_setprec(&inlined, &r, c->prec);
    case ADCMD_FINISH: return qamhudeer_desk_finish(&inlined, &r);
    case ADCMD_LOCK: return qamhudeer_desk_lock(&inlined, &r);
    case ADCMD_WAITCYCLE: return qamhudeer_desk_waitcycle(&inlined, &r);
    case ADCMD_ALLOCATE: return qamhudeer_desk_allocate(&inlined, &r, c->prec, list, c->length);
    default: count[OTHER_OPERATIONS]++; return qamhudeer_desk_command(&inlined, c->op, &r);
    }
}

static void compare_answer(const struct Call *c, const struct qamhudeer_answer *a)
{
    const uint8_t *b = plain.answer;

    same(c, "outstanding", a->outstanding, b[0]);
    same(c, "the error", a->error, b[1] < 128 ? b[1] : b[1] - 256);
    same(c, "the map", a->map, b[2]);
    same(c, "the key", a->key, 256 * b[3] + b[4]);
    same(c, "extra", a->extra, b[5]);
    same(c, "the number of replies to A", a->replies[0], b[6]);
    same(c, "the number of replies to B", a->replies[1], b[7]);
}

/* Each desk's replies stand in its half; no other desk has any; behind the last there is none, and nothing is told. */
static void compare_walk(const struct Call *c)
{
    for (unsigned desk = 0; desk < 4; desk++) {
        unsigned replies = desk < 2 ? plain.answer[6 + desk] : 0;

        for (unsigned n = 0; n < 66; n++) {
            struct qamhudeer_reply r = {77, 78, 79, 80, 81};
            const uint8_t *b = plain.replies + (n < replies ? 6 * ((desk == 1 ? 32 : 0) + n) : 0);

            same(c, "whether there is such a reply", qamhudeer_desk_reply(&inlined, (uint8_t)desk, n, &r), n < replies);
            same(c, "a reply's id", r.id, n < replies ? b[0] : 77);
            same(c, "a reply's command", r.command, n < replies ? b[1] : 78);
            same(c, "a reply's error", r.error, n >= replies ? 79 : b[2] < 128 ? b[2] : b[2] - 256);
            same(c, "a reply's map", r.map, n < replies ? b[3] : 80);
            same(c, "a reply's key", r.key, n < replies ? 256 * b[4] + b[5] : 81);
            count[REPLIES_WALKED] += n < replies;
        }
    }
}

/* Both devices begin with the plain one's bytes, and with any bytes where replies and answer will stand. */
static void make_call(const struct Call *c)
{
    struct qamhudeer_answer answer;

    for (size_t at = 0; at < sizeof plain.replies; at++)
        plain.replies[at] = (uint8_t)below(256);
    for (size_t at = 0; at < sizeof plain.answer; at++)
        plain.answer[at] = (uint8_t)below(256);
    inlined = plain;
    call_plain(c);
    answer = call_inlined(c);
    called[c->op]++;
    count[UNSOUND_STATES] += plain.answer[1] == QAMHUDEER_UNSOUND;
    same_bytes(c, "the answer", inlined.answer, plain.answer, sizeof plain.answer);
    same_bytes(c, "the reply list", inlined.replies, plain.replies, sizeof plain.replies);
    same_bytes(c, "the state", inlined.state, plain.state, sizeof plain.state);
    same_bytes(c, "the table", inlined.table, plain.table, sizeof plain.table);
    same_bytes(c, "the display", inlined.display, plain.display, sizeof plain.display);
    compare_answer(c, &answer);
    compare_walk(c);
}

/* ---- Other numbers, and damage */

static void alter(struct Call *c)
{
    static const uint8_t ops[20] = {0xF0, 0xF1, 0xF2, 0xF3, 0xF4, 1, 2, 3, 4, 5, 6, 7, 8, 9, 10, 11, 12, 13, 14, 32};
    unsigned odds = below(9), value = below(256);

    switch (odds) {
    case 0: c->desk = (uint8_t)(percent(50) ? value % 3 : value); break;
    case 1: c->op = percent(80) ? ops[value % 20] : (uint8_t)value; break;
    case 2: c->id = (uint8_t)value; break;
    case 3: c->flags = (uint8_t)value; break;
    case 4: c->map = (uint8_t)value; break;
    case 5: c->prec = (int)value - 128; break;
    case 6: c->prec = percent(50) ? 128 + (int)below(600) : -129 - (int)below(600); break;
    case 7: c->key = (uint16_t)(percent(50) ? value % 8 : 256 * value + below(256)); break;
    default: c->length = percent(50) ? value % 20 : value; break;
    }
}

static void try_altered(const struct Call *good)
{
    struct qamhudeer_device before = plain;
    struct Call c = *good;
    unsigned times = 1 + below(3);

    for (unsigned i = 0; i < times; i++)
        alter(&c);
    if (percent(5)) {
        unsigned at = below(sizeof plain.state);

        plain.state[at] ^= (uint8_t)(1u << below(8));
    }
    make_call(&c);
    plain = before;
}

static void play_line(const struct Frame *f, unsigned long tries)
{
    struct Call c;

    memset(&c, 0, sizeof c);
    c.desk = f->desk;
    c.op = f->operation;
    c.id = f->id;
    c.flags = f->flags;
    c.map = f->map;
    c.prec = f->precedence;
    c.key = f->key;
    c.length = f->length;
    memcpy(c.list, f->combination, f->length);
    for (unsigned long at = 0; at < tries; at++)
        try_altered(&c);
    make_call(&c);
}

/* ---- What is no call */

static void compare_names(void)
{
    static const struct { int error; const char *name; } names[] = {
        {0, "done"}, {-1, "IOERR_OPENFAIL"}, {-2, "IOERR_ABORTED"}, {-3, "IOERR_NOCMD"}, {-4, "IOERR_BADLENGTH"},
        {-5, "IOERR_BADADDRESS"}, {-10, "ADIOERR_NOALLOCATION"}, {-11, "ADIOERR_ALLOCFAILED"}, {-12, "ADIOERR_CHANNELSTOLEN"},
        {1, "QAMHUDEER_UNSOUND"}, {2, "QAMHUDEER_NOTOPEN"}, {3, "QAMHUDEER_INUSE"}, {4, "QAMHUDEER_BADID"}, {5, "QAMHUDEER_NOROOM"},
        {8, "QAMHUDEER_OTHERDESK"}, {9, "QAMHUDEER_BADTEXT"}, {10, "QAMHUDEER_EIGHT"}, {11, "QAMHUDEER_BADWISH"},
        {12, "QAMHUDEER_TOOSMALL"}, {100, "QAMHUDEER_DESK_BADPREC"}, {255, "QAMHUDEER_UNANSWERED"}
    };
    struct Call none;

    memset(&none, 0, sizeof none);
    for (int error = -300; error <= 300; error++) {
        const char *name = "unknown";

        for (size_t at = 0; at < sizeof names / sizeof names[0]; at++)
            if (names[at].error == error)
                name = names[at].name;
        same(&none, "an error's name", strcmp(qamhudeer_error_name(error), name), 0);
    }
}

/* A board of 260 channels is none of 4. Where there is no such board nothing has moved. */
static void compare_fresh(unsigned board)
{
    static const unsigned none_such[] = {0, 3, 5, 9, 255, 256 + 4, 256 + 8, 65536 + 4};
    struct Call none;

    memset(&none, 0, sizeof none);
    memset(&inlined, 77, sizeof inlined);
    plain = inlined;
    for (size_t at = 0; at < sizeof none_such / sizeof none_such[0]; at++)
        same(&none, "a fresh device on no board", qamhudeer_desk_fresh(&inlined, none_such[at]), 1);
    same_bytes(&none, "the state of no board", inlined.state, plain.state, sizeof plain.state);
    same(&none, "a fresh device", qamhudeer_desk_fresh(&inlined, board), 0);
    qamhudeer_fresh((uint8_t)board, plain.state, sizeof plain.state, plain.table, sizeof plain.table, plain.display, sizeof plain.display);
    same_bytes(&none, "a fresh state", inlined.state, plain.state, sizeof plain.state);
    same_bytes(&none, "a fresh table", inlined.table, plain.table, sizeof plain.table);
    same_bytes(&none, "a fresh display", inlined.display, plain.display, sizeof plain.display);
    same(&none, "the number of channels", (long)qamhudeer_desk_channels(&inlined), (long)board);
    memset(plain.answer, 0, sizeof plain.answer);
    compare_walk(&none);
    same(&none, "whether the library fits", qamhudeer_desk_fits(), 1);
}

int main(int words, char **word)
{
    static const uint8_t functions[] = {0xF0, 0xF1, 0xF2, 0xF3, 0xF4, 1, 2, 3, 4, 5, 6, 7, 8, 9, 10, 11, 12, 13, 14, 32};
    unsigned board = words == 4 ? (unsigned)strtoul(word[3], NULL, 10) : 0;
    struct Frame f;
    enum Line kind;

    if (board != 4 && board != 8) {
        fputs("usage: desk SEED TRIES 4|8 <LOG\n", stderr);
        return 2;
    }
    chance_seed(strtoul(word[1], NULL, 10));
    compare_names();
    compare_fresh(board);
    for (line = 1; (kind = log_read(stdin, &f)) != LINE_NONE; line++)
        if (kind == LINE_FRAME)
            play_line(&f, strtoul(word[2], NULL, 10));
    for (size_t at = 0; at < sizeof functions; at++)
        printf("count %lu calls of operation %02X\n", called[functions[at]], functions[at]);
    for (unsigned at = 0; at < COUNTS; at++)
        printf("count %lu %s\n", count[at], count_name[at]);
    return fflush(stdout) != 0 || ferror(stdout);
}
