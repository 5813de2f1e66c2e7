/* A desk and its driver: a message of three cycles, changed and waited for on the way, and messages that the driver gives up.
 * Expected output: cycles.out. Build:
 *   scripts/library
 *   cc -std=c99 -Iinclude examples/cycles.c target/staticlib/libqamhudeer.a -o cycles */
#include <stdio.h>

#include "qamhudeer.h"

/* All that the arbiter needs, kept here from call to call. */
static uint8_t state[QAMHUDEER_STATE_SIZE];
static uint8_t table[QAMHUDEER_TABLE_SIZE];
static uint8_t display[QAMHUDEER_DISPLAY_SIZE];
static uint8_t replies[QAMHUDEER_REPLIES_SIZE];
static uint8_t answer[QAMHUDEER_ANSWER_SIZE];

/* Channel 0. */
static const uint8_t hall[1] = {1};

/* Cycles in two bytes, a period in three, a volume in one: three cycles at 508, loud; softer; and without end. */
static const uint8_t thrice[QAMHUDEER_NUMBERS_SIZE] = {0, 3, 0, 1, 0xFC, 64};
static const uint8_t softer[QAMHUDEER_NUMBERS_SIZE] = {0, 0, 0, 1, 0xFC, 16};
static const uint8_t endless[QAMHUDEER_NUMBERS_SIZE] = {0, 0, 0, 1, 0xFC, 64};

/* One call of desk A, the only one here, told line by line: the replies in order, then the answer. */
static void call(const char *what, uint8_t op, uint8_t id, uint8_t flags, unsigned key, const uint8_t *bytes, size_t n)
{
    size_t i;

    qamhudeer_call(QAMHUDEER_DESK_A, op, id, flags, hall[0], 0, (uint16_t)key, bytes, n, state, sizeof state, table, sizeof table,
                   display, sizeof display, replies, sizeof replies, answer, sizeof answer);
    printf("%s\n", what);
    for (i = 0; i < answer[QAMHUDEER_ANSWER_REPLIES_A]; i++) {
        const uint8_t *r = replies + i * QAMHUDEER_REPLY_SIZE;

        printf("  reply to %d: command %d, error %d, map %d\n", r[QAMHUDEER_REPLY_ID], r[QAMHUDEER_REPLY_COMMAND],
               QAMHUDEER_ERROR(r[QAMHUDEER_REPLY_ERROR]), r[QAMHUDEER_REPLY_MAP]);
    }
    printf("  %s: error %d, map %d\n", answer[QAMHUDEER_ANSWER_OUTSTANDING] ? "outstanding" : "done",
           QAMHUDEER_ERROR(answer[QAMHUDEER_ANSWER_ERROR]), answer[QAMHUDEER_ANSWER_MAP]);
}

int main(void)
{
    unsigned key;

    if (qamhudeer_fresh(4, state, sizeof state, table, sizeof table, display, sizeof display) != 0)
        return 1;
    call("open with channel 0", QAMHUDEER_OPEN, 0, 0, 0, hall, sizeof hall);
    key = 256u * answer[QAMHUDEER_ANSWER_KEY] + answer[QAMHUDEER_ANSWER_KEY + 1];

    /* Three cycles. From the second on it is softer, and the desk hears when that begins. */
    call("write three cycles", CMD_WRITE, 1, 0, key, thrice, sizeof thrice);
    call("softer from the next cycle on", ADCMD_PERVOL, 2, IOF_QUICK | ADIOF_SYNCCYCLE, key, softer, sizeof softer);
    call("wait for the cycle's end", ADCMD_WAITCYCLE, 3, 0, key, hall, 0);
    call("a cycle ended", QAMHUDEER_CYCLE_ENDED, 0, 0, 0, hall, 0);
    call("a cycle ended", QAMHUDEER_CYCLE_ENDED, 0, 0, 0, hall, 0);
    call("a cycle ended, the last", QAMHUDEER_CYCLE_ENDED, 0, 0, 0, hall, 0);
    call("a cycle ended, of no write", QAMHUDEER_CYCLE_ENDED, 0, 0, 0, hall, 0);

    /* An endless message with another behind it. The driver gives up the first, and goes on with the next, of one cycle. */
    call("write without end", CMD_WRITE, 4, 0, key, endless, sizeof endless);
    call("write once", CMD_WRITE, 5, 0, key, hall, 0);
    call("wait for the cycle's end", ADCMD_WAITCYCLE, 6, 0, key, hall, 0);
    call("the driver gave up", QAMHUDEER_GAVE_UP, 0, 0, 0, hall, 0);
    call("a cycle ended, the last", QAMHUDEER_CYCLE_ENDED, 0, 0, 0, hall, 0);

    /* On a stopped channel the driver has nothing to give up. */
    call("write once", CMD_WRITE, 7, 0, key, hall, 0);
    call("stop", CMD_STOP, 8, IOF_QUICK, key, hall, 0);
    call("the driver gave up", QAMHUDEER_GAVE_UP, 0, 0, 0, hall, 0);
    call("start", CMD_START, 8, IOF_QUICK, key, hall, 0);
    call("the driver gave up", QAMHUDEER_GAVE_UP, 0, 0, 0, hall, 0);
    call("close", QAMHUDEER_CLOSE, 0, 0, key, hall, 0);
    return 0;
}
