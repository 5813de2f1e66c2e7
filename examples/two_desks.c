/* Two desks on one board: A passes its key to B by hand, both play under it, and a steal replies to both.
 * Expected output: two_desks.out. Build:
 *   scripts/library
 *   cc -std=c99 -Iinclude examples/two_desks.c target/staticlib/libqamhudeer.a -o two_desks */
#include <stdio.h>

#include "qamhudeer.h"

/* One board, so that both desks lend the same state and table. */
static uint8_t state[QAMHUDEER_STATE_SIZE];
static uint8_t table[QAMHUDEER_TABLE_SIZE];
static uint8_t display[QAMHUDEER_DISPLAY_SIZE];
static uint8_t replies[QAMHUDEER_REPLIES_SIZE];
static uint8_t answer[QAMHUDEER_ANSWER_SIZE];

/* Channel 0. */
static const uint8_t hall[1] = {1};

/* The replies to one desk: so many records, from its first on. */
static void tell_replies(const char *desk, size_t first, size_t count)
{
    size_t i;

    for (i = first; i < first + count; i++) {
        const uint8_t *r = replies + i * QAMHUDEER_REPLY_SIZE;

        printf("  %s is told of its request %d: command %d, error %d, map %d\n", desk, r[QAMHUDEER_REPLY_ID],
               r[QAMHUDEER_REPLY_COMMAND], QAMHUDEER_ERROR(r[QAMHUDEER_REPLY_ERROR]), r[QAMHUDEER_REPLY_MAP]);
    }
}

/* One call of a desk, on channel 0, told line by line: the replies to A, the replies to B, then the answer. */
static void call(const char *what, uint8_t desk, uint8_t op, uint8_t id, uint8_t flags, int prec, unsigned key, size_t n)
{
    qamhudeer_call(desk, op, id, flags, hall[0], (uint8_t)prec, (uint16_t)key, hall, n, state, sizeof state, table, sizeof table,
                   display, sizeof display, replies, sizeof replies, answer, sizeof answer);
    printf("%s: %s\n", desk == QAMHUDEER_DESK_A ? "A" : "B", what);
    tell_replies("A", 0, answer[QAMHUDEER_ANSWER_REPLIES_A]);
    tell_replies("B", QAMHUDEER_FIRST_OF_B, answer[QAMHUDEER_ANSWER_REPLIES_B]);
    printf("  %s: error %d, map %d, last %d\n", answer[QAMHUDEER_ANSWER_OUTSTANDING] ? "outstanding" : "done",
           QAMHUDEER_ERROR(answer[QAMHUDEER_ANSWER_ERROR]), answer[QAMHUDEER_ANSWER_MAP], answer[QAMHUDEER_ANSWER_EXTRA]);
}

int main(void)
{
    unsigned key;

    if (qamhudeer_fresh(4, state, sizeof state, table, sizeof table, display, sizeof display) != 0)
        return 1;
    call("open with channel 0 at 10", QAMHUDEER_DESK_A, QAMHUDEER_OPEN, 0, 0, 10, 0, sizeof hall);
    key = 256u * answer[QAMHUDEER_ANSWER_KEY] + answer[QAMHUDEER_ANSWER_KEY + 1];

    /* B has the key from A, and plays first. Its ids begin at 32. */
    call("write", QAMHUDEER_DESK_B, CMD_WRITE, 32, 0, 0, key, 0);
    call("write behind it", QAMHUDEER_DESK_A, CMD_WRITE, 1, 0, 0, key, 0);

    /* A desk reads its own write, and of the other's only that it cannot have it. */
    call("read", QAMHUDEER_DESK_B, CMD_READ, 33, IOF_QUICK, 0, key, 0);
    call("read", QAMHUDEER_DESK_A, CMD_READ, 2, IOF_QUICK, 0, key, 0);

    /* Ids are never passed: the other's cannot be named. */
    call("abort B's request 32", QAMHUDEER_DESK_A, QAMHUDEER_ABORT, 32, 0, 0, key, 0);

    /* B takes the channel at 20 with a key of its own. What both play there is aborted, B's write first: each half has its own. */
    call("allocate channel 0 at 20", QAMHUDEER_DESK_B, ADCMD_ALLOCATE, 34, 0, 20, 0, sizeof hall);
    call("write", QAMHUDEER_DESK_A, CMD_WRITE, 3, 0, 0, key, 0);
    return 0;
}
