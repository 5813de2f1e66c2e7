/* A board's state carried to the bench: saved as a text, loaded elsewhere, and gone on with. Expected output: carry.out. Build:
 *   scripts/library
 *   cc -std=c99 -Iinclude examples/carry.c target/staticlib/libqamhudeer.a -o carry */
#include <stdio.h>
#include <string.h>

#include "qamhudeer.h"

/* The board in the terminal, and the one on the bench. */
struct board {
    uint8_t state[QAMHUDEER_STATE_SIZE], table[QAMHUDEER_TABLE_SIZE], display[QAMHUDEER_DISPLAY_SIZE];
};
static struct board terminal, bench;
static uint8_t text[QAMHUDEER_TEXT_SIZE]; /* always long enough */

static void call(struct board *b, uint8_t op, uint8_t id, uint8_t map, int prec, uint16_t key, const uint8_t *combos, size_t n)
{
    static uint8_t replies[QAMHUDEER_REPLIES_SIZE], answer[QAMHUDEER_ANSWER_SIZE];

    qamhudeer_call(QAMHUDEER_DESK_A, op, id, IOF_QUICK, map, (uint8_t)prec, key, combos, n, b->state, sizeof b->state, b->table,
                   sizeof b->table, b->display, sizeof b->display, replies, sizeof replies, answer, sizeof answer);
    printf("  op %02X: error %d, map %02X, key %d\n", op, QAMHUDEER_ERROR(answer[QAMHUDEER_ANSWER_ERROR]), answer[QAMHUDEER_ANSWER_MAP],
           256 * answer[QAMHUDEER_ANSWER_KEY] + answer[QAMHUDEER_ANSWER_KEY + 1]);
}

int main(void)
{
    static const uint8_t both[1] = {0x03};
    size_t length;
    uint8_t refused;

    if (qamhudeer_fresh(4, terminal.state, sizeof terminal.state, terminal.table, sizeof terminal.table, terminal.display,
                        sizeof terminal.display) != 0)
        return 1;
    puts("in the terminal");
    call(&terminal, QAMHUDEER_OPEN, 0, 0, 10, 0, both, 1);
    call(&terminal, CMD_WRITE, 1, 1, 0, 1, both, 0);
    call(&terminal, ADCMD_ALLOCATE, 2, 0, 5, 0, both, 1);
    if (qamhudeer_save(terminal.state, sizeof terminal.state, terminal.table, sizeof terminal.table, text, sizeof text, &length) != 0)
        return 1;
    printf("saved, %lu bytes\n%.*s", (unsigned long)length, (int)length, (const char *)text);
    /* On the way a digit is read wrongly. */
    text[length - 2] = 'b';
    refused = qamhudeer_load(4, text, length, bench.state, sizeof bench.state, bench.table, sizeof bench.table, bench.display,
                             sizeof bench.display);
    printf("a damaged text: refused with %d\n", refused);
    text[length - 2] = '1';
    if (qamhudeer_load(4, text, length, bench.state, sizeof bench.state, bench.table, sizeof bench.table, bench.display,
                       sizeof bench.display) != 0)
        return 1;
    printf("on the bench: %s, channel 0 has %d write and is wanted by %d\n",
           memcmp(bench.state, terminal.state, sizeof bench.state) == 0 && memcmp(bench.table, terminal.table, sizeof bench.table) == 0
               ? "the same state"
               : "another state",
           bench.display[QAMHUDEER_DISPLAY_WRITES(0)], bench.display[QAMHUDEER_DISPLAY_NAMING(0)]);
    call(&bench, ADCMD_FREE, 3, 3, 0, 1, both, 0);
    return 0;
}
