/* The wall display: for the duty managers, the load of each channel and who waits. Expected output: wall.out. Build:
 *   scripts/library
 *   cc -std=c99 -Iinclude examples/wall.c target/staticlib/libqamhudeer.a -o wall */
#include <stdio.h>

#include "qamhudeer.h"

static uint8_t state[QAMHUDEER_STATE_SIZE];
static uint8_t table[QAMHUDEER_TABLE_SIZE];
static uint8_t display[QAMHUDEER_DISPLAY_SIZE]; /* kept with them: each call corrects it */
static uint8_t replies[QAMHUDEER_REPLIES_SIZE];
static uint8_t answer[QAMHUDEER_ANSWER_SIZE];
static uint8_t records[QAMHUDEER_RECORDS_SIZE];

/* Both halls, or the first alone. */
static const uint8_t halls[2] = {0x03, 0x01};

/* What a duty manager sees: the numbers that the calls have kept, and the list of who waits at this moment. */
static void show(void)
{
    size_t count, i;
    unsigned c;

    for (c = 0; c < 2; c++)
        printf("  hall %u: %d writes, wanted by %d\n", c, display[QAMHUDEER_DISPLAY_WRITES(c)], display[QAMHUDEER_DISPLAY_NAMING(c)]);
    if (qamhudeer_waiting(state, sizeof state, table, sizeof table, records, sizeof records, &count) != 0)
        return;
    for (i = 0; i < count; i++) {
        const uint8_t *r = records + i * QAMHUDEER_RECORD_SIZE;

        printf("  waiting: request %d of desk %c at %d%s\n", r[QAMHUDEER_RECORD_ID], 'A' + r[QAMHUDEER_RECORD_DESK],
               QAMHUDEER_ERROR(r[QAMHUDEER_RECORD_PRECEDENCE]), r[QAMHUDEER_RECORD_HELD] ? ", held by a lock" : "");
    }
    printf("  requests looked at: %d\n", 256 * display[QAMHUDEER_DISPLAY_LOOKS] + display[QAMHUDEER_DISPLAY_LOOKS + 1]);
}

static void call(const char *what, uint8_t desk, uint8_t op, uint8_t id, uint8_t map, int prec, uint16_t key, size_t n)
{
    qamhudeer_call(desk, op, id, IOF_QUICK, map, (uint8_t)prec, key, halls, n, state, sizeof state, table, sizeof table,
                   display, sizeof display, replies, sizeof replies, answer, sizeof answer);
    printf("%s\n", what);
    show();
}

int main(void)
{
    if (qamhudeer_fresh(4, state, sizeof state, table, sizeof table, display, sizeof display) != 0)
        return 1;
    call("desk A opens with both halls at 0, and gets key 1", QAMHUDEER_DESK_A, QAMHUDEER_OPEN, 0, 0, 0, 0, 1);
    call("it plays in hall 0", QAMHUDEER_DESK_A, CMD_WRITE, 1, 1, 0, 1, 0);
    call("and locks it", QAMHUDEER_DESK_A, ADCMD_LOCK, 2, 1, 0, 1, 0);

    /* An evacuation message: the lock is in the way, and desk A is told so. */
    call("desk B wants both, or hall 0, at 120", QAMHUDEER_DESK_B, ADCMD_ALLOCATE, 40, 0, 120, 0, 2);
    call("desk A wants both, or hall 0, at -5", QAMHUDEER_DESK_A, ADCMD_ALLOCATE, 3, 0, -5, 0, 2);

    /* Hall 0 is desk B's as soon as A frees it: the write ends, and one request waits no more. */
    call("desk A frees hall 0", QAMHUDEER_DESK_A, ADCMD_FREE, 4, 1, 0, 1, 0);
    return 0;
}
