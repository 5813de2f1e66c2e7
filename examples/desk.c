/* A desk on one board: it opens the device, gets two channels, locks one, writes, is stolen from, and frees what is left.
 * Expected output: desk.out. Build:
 *   scripts/library
 *   cc -std=c99 -Iinclude examples/desk.c target/staticlib/libqamhudeer.a -o desk */
#include <stdio.h>

#include "qamhudeer.h"

/* All that the arbiter needs, kept here from call to call. */
static uint8_t state[QAMHUDEER_STATE_SIZE];
static uint8_t table[QAMHUDEER_TABLE_SIZE];
static uint8_t display[QAMHUDEER_DISPLAY_SIZE];
static uint8_t replies[QAMHUDEER_REPLIES_SIZE];
static uint8_t answer[QAMHUDEER_ANSWER_SIZE];

/* The first two pairs of channels, then the first one alone. */
static const uint8_t pairs[2] = {3, 12};
static const uint8_t first[1] = {1};

static unsigned key_in(const uint8_t *bytes)
{
    return 256u * bytes[0] + bytes[1];
}

/* So many replies, from this record on. */
static void tell_replies(size_t first, size_t count)
{
    size_t i;
    for (i = first; i < first + count; i++) {
        const uint8_t *r = replies + i * QAMHUDEER_REPLY_SIZE;
        printf("  reply to %d: command %d, error %d, map %d, key %u\n", r[QAMHUDEER_REPLY_ID], r[QAMHUDEER_REPLY_COMMAND],
               QAMHUDEER_ERROR(r[QAMHUDEER_REPLY_ERROR]), r[QAMHUDEER_REPLY_MAP], key_in(r + QAMHUDEER_REPLY_KEY));
    }
}

/* One call of the desk that has the id, told line by line: the replies to A, those to B, then the answer. */
static void call(const char *what, uint8_t op, uint8_t id, uint8_t flags, uint8_t map, int prec, unsigned key, const uint8_t *combos, size_t n)
{
    qamhudeer_call(id < QAMHUDEER_FIRST_OF_B ? QAMHUDEER_DESK_A : QAMHUDEER_DESK_B, op, id, flags, map, (uint8_t)prec,
                   (uint16_t)key, combos, n, state, sizeof state, table, sizeof table, display, sizeof display, replies,
                   sizeof replies, answer, sizeof answer);
    printf("%s\n", what);
    tell_replies(0, answer[QAMHUDEER_ANSWER_REPLIES_A]);
    tell_replies(QAMHUDEER_FIRST_OF_B, answer[QAMHUDEER_ANSWER_REPLIES_B]);
    printf("  %s: error %d, map %d, key %u\n", answer[QAMHUDEER_ANSWER_OUTSTANDING] ? "outstanding" : "done",
           QAMHUDEER_ERROR(answer[QAMHUDEER_ANSWER_ERROR]), answer[QAMHUDEER_ANSWER_MAP], key_in(answer + QAMHUDEER_ANSWER_KEY));
}

int main(void)
{
    unsigned mine, theirs;
    if (qamhudeer_fresh(4, state, sizeof state, table, sizeof table, display, sizeof display) != 0)
        return 1;

    /* No combinations and key 0: the device is opened, and the desk gets a key. */
    call("open", QAMHUDEER_OPEN, 0, 0, 0, 0, 0, first, 0);
    mine = key_in(answer + QAMHUDEER_ANSWER_KEY);

    /* The first of the pairs is free, so that it is granted at once. */
    call("allocate a pair at 10", ADCMD_ALLOCATE, 1, IOF_QUICK, 0, 10, mine, pairs, 2);

    /* A lock stays outstanding until the channel is freed, or until somebody wants to steal it. */
    call("lock channel 0", ADCMD_LOCK, 2, 0, 1, 0, mine, first, 0);
    call("write to channel 1", CMD_WRITE, 3, 0, 2, 0, mine, first, 0);
    call("its write ends", QAMHUDEER_CYCLE_ENDED, 0, 0, 2, 0, 0, first, 0);
    call("write to channel 0", CMD_WRITE, 4, 0, 1, 0, mine, first, 0);

    /* The other desk, whose ids begin at 32, wants channel 0 at a higher precedence. The channel is locked, so that it waits, and
     * the lock is told. */
    call("the other desk allocates channel 0 at 20", ADCMD_ALLOCATE, 32, 0, 0, 20, 0, first, 1);

    /* Freeing the channel ends the write, and the other desk gets its channel with a key of its own. */
    call("free channel 0", ADCMD_FREE, 6, IOF_QUICK, 1, 0, mine, first, 0);
    theirs = key_in(state + 0 * QAMHUDEER_CHANNEL_SIZE + QAMHUDEER_CHANNEL_KEY);
    printf("channel 0 has key %u, channel 1 has key %u\n", theirs, key_in(state + 1 * QAMHUDEER_CHANNEL_SIZE + QAMHUDEER_CHANNEL_KEY));

    /* What is not one's own is not freed: the map says what was. */
    call("free channels 0 and 1", ADCMD_FREE, 7, IOF_QUICK, 3, 0, mine, first, 0);
    call("close", QAMHUDEER_CLOSE, 0, 0, 0, 0, mine, first, 0);
    printf("open keys: %u\n", state[QAMHUDEER_OFFSET_OF_OPENS]);
    return 0;
}
