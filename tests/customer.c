/* A customer's program, in a folder of its own: two desks on a board of four channels. It writes each call's answer, its eight
 * bytes, and its replies. tests/package.sh compiles it as C and as C++, by pkg-config alone, and wants tests/customer.out. */
#include <stdio.h>

#include <qamhudeer.h>

static uint8_t state[QAMHUDEER_STATE_SIZE];
static uint8_t table[QAMHUDEER_TABLE_SIZE];
static uint8_t display[QAMHUDEER_DISPLAY_SIZE];
static uint8_t replies[QAMHUDEER_REPLIES_SIZE];
static uint8_t answer[QAMHUDEER_ANSWER_SIZE];

static const uint8_t pairs[2] = {0x03, 0x0C};

static void tell(const char *what, const uint8_t *bytes, size_t count)
{
    size_t i;

    printf("%-8s", what);
    for (i = 0; i < count; i++)
        printf(" %02X", bytes[i]);
    printf("\n");
}

static void call(const char *what, uint8_t desk, uint8_t op, uint8_t id, uint8_t map, uint8_t prec, uint16_t key, size_t combos)
{
    size_t i;

    qamhudeer_call(desk, op, id, 0, map, prec, key, pairs, combos, state, sizeof state, table, sizeof table, display,
                   sizeof display, replies, sizeof replies, answer, sizeof answer);
    tell(what, answer, sizeof answer);
    for (i = 0; i < answer[QAMHUDEER_ANSWER_REPLIES_A]; i++)
        tell("  to A", replies + i * QAMHUDEER_REPLY_SIZE, QAMHUDEER_REPLY_SIZE);
    for (i = 0; i < answer[QAMHUDEER_ANSWER_REPLIES_B]; i++)
        tell("  to B", replies + (QAMHUDEER_FIRST_OF_B + i) * QAMHUDEER_REPLY_SIZE, QAMHUDEER_REPLY_SIZE);
}

int main(void)
{
    if (qamhudeer_fresh(4, state, sizeof state, table, sizeof table, display, sizeof display) != 0 ||
        qamhudeer_state_size() != sizeof state ||
        qamhudeer_answer_size() != sizeof answer)
        return 1;
    call("OPEN", QAMHUDEER_DESK_A, QAMHUDEER_OPEN, 0, 0, 0, 0, 0);
    call("ALLOCATE", QAMHUDEER_DESK_A, ADCMD_ALLOCATE, 5, 0, 10, 1, 2);
    call("LOCK", QAMHUDEER_DESK_A, ADCMD_LOCK, 6, 0x01, 0, 1, 0);
    call("OPEN", QAMHUDEER_DESK_B, QAMHUDEER_OPEN, 0, 0, 0, 0, 0);
    call("ALLOCATE", QAMHUDEER_DESK_B, ADCMD_ALLOCATE, 5, 0, 20, 2, 1); /* an id of A's */
    call("ALLOCATE", QAMHUDEER_DESK_B, ADCMD_ALLOCATE, QAMHUDEER_FIRST_OF_B, 0, 20, 2, 1);
    call("CLOSE", QAMHUDEER_DESK_A, QAMHUDEER_CLOSE, 0, 0, 0, 1, 0);
    return 0;
}
