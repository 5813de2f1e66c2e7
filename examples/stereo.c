/* A desk that wants stereo: one channel on the left and one on the right, whichever are to be had.
 * Expected output: stereo.out. Build:
 *   scripts/library
 *   cc -std=c99 -Iinclude examples/stereo.c target/staticlib/libqamhudeer.a -o stereo */
#include <stdio.h>

#include "qamhudeer.h"

static uint8_t state[QAMHUDEER_STATE_SIZE];
static uint8_t table[QAMHUDEER_TABLE_SIZE];
static uint8_t display[QAMHUDEER_DISPLAY_SIZE];
static uint8_t replies[QAMHUDEER_REPLIES_SIZE];
static uint8_t answer[QAMHUDEER_ANSWER_SIZE];

/* Room for the longest list. */
static uint8_t maps[QAMHUDEER_STEREO_ROOM];
static size_t count;

/* An allocation from the list at this precedence. NOWAIT: it fails rather than wait. */
static void allocate(uint8_t id, int prec)
{
    qamhudeer_call(QAMHUDEER_DESK_A, ADCMD_ALLOCATE, id, IOF_QUICK | ADIOF_NOWAIT, 0, (uint8_t)prec, 0, maps, count, state,
                   sizeof state, table, sizeof table, display, sizeof display, replies, sizeof replies, answer, sizeof answer);
    printf("allocation at %d: error %d, map %02X\n", prec, QAMHUDEER_ERROR(answer[QAMHUDEER_ANSWER_ERROR]), answer[QAMHUDEER_ANSWER_MAP]);
}

int main(void)
{
    size_t i;

    /* The list: every pair of a left and a right channel. */
    if (qamhudeer_stereo(1, 1, maps, sizeof maps, &count) != 0)
        return 1; /* a number above 2, or too little room */
    printf("one left and one right:");
    for (i = 0; i < count; i++)
        printf(" %02X", maps[i]);
    printf("\n");

    /* A list from somewhere else may be in any order. Is it the whole wish, and no more? */
    if (!qamhudeer_stereo_accepts(1, 1, maps, count))
        return 1;
    printf("for two left and two right it is %saccepted\n", qamhudeer_stereo_accepts(2, 2, maps, count) ? "" : "not ");

    if (qamhudeer_fresh(4, state, sizeof state, table, sizeof table, display, sizeof display) != 0)
        return 1;
    qamhudeer_call(QAMHUDEER_DESK_A, QAMHUDEER_OPEN, 0, 0, 0, 0, 0, maps, 0, state, sizeof state, table, sizeof table, display,
                   sizeof display, replies, sizeof replies, answer, sizeof answer);

    /* The first pair of the list, then the pair that is left. The third finds none, unless it may steal: from the lower of the two. */
    allocate(1, 10);
    allocate(2, 20);
    allocate(3, 10);
    allocate(4, 30);
    return 0;
}
