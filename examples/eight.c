/* A desk on the eight-channel board, beside the same calls on a board of four. Expected output: eight.out. Build:
 *   scripts/library
 *   cc -std=c99 -Iinclude examples/eight.c target/staticlib/libqamhudeer.a -o eight */
#include <stdio.h>

#include "qamhudeer.h"

static uint8_t state[QAMHUDEER_STATE_SIZE]; /* one size for both boards */
static uint8_t table[QAMHUDEER_TABLE_SIZE];
static uint8_t display[QAMHUDEER_DISPLAY_SIZE];
static uint8_t replies[QAMHUDEER_REPLIES_SIZE];
static uint8_t answer[QAMHUDEER_ANSWER_SIZE];

/* The upper four halls together, or else halls 0 and 7. */
static const uint8_t halls[2] = {0xF0, 0x81};

static void tell(const char *what)
{
    printf("  %s: error %d, map %02X\n", what, QAMHUDEER_ERROR(answer[QAMHUDEER_ANSWER_ERROR]), answer[QAMHUDEER_ANSWER_MAP]);
}

static void call(uint8_t op, uint8_t id, uint8_t map, int prec, uint16_t key, size_t n, const char *what)
{
    qamhudeer_call(QAMHUDEER_DESK_A, op, id, IOF_QUICK, map, (uint8_t)prec, key, halls, n, state, sizeof state, table, sizeof table,
                   display, sizeof display, replies, sizeof replies, answer, sizeof answer);
    tell(what);
}

static int desk(uint8_t channels)
{
    printf("a board of %d channels\n", channels);
    if (qamhudeer_fresh(channels, state, sizeof state, table, sizeof table, display, sizeof display) != 0)
        return 1; /* neither 4 nor 8, or a length is wrong */
    call(QAMHUDEER_OPEN, 0, 0, 0, 7, 0, "open with key 7");
    call(ADCMD_ALLOCATE, 1, 0, 10, 7, sizeof halls, "the upper halls, or 0 and 7");
    call(ADCMD_ALLOCATE, 2, 0, 20, 8, 1, "the upper halls for key 8, at a higher precedence");
    call(CMD_STOP, 3, 0x80, 0, 8, 0, "stop hall 7");
    return 0;
}

int main(void)
{
    return desk(8) || desk(4) || desk(6) == 0; /* there is no board of six */
}
