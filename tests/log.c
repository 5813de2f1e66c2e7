/* A log on standard input, answered on standard output as document 01 says, through the library. */
#include <stdio.h>
#include <string.h>

#include "qamhudeer.h"

static uint8_t state[QAMHUDEER_STATE_SIZE];
static uint8_t table[QAMHUDEER_TABLE_SIZE];
static uint8_t display[QAMHUDEER_DISPLAY_SIZE];
static uint8_t replies[QAMHUDEER_REPLIES_SIZE];
static uint8_t answer[QAMHUDEER_ANSWER_SIZE];

static int digit(int c)
{
    if (c >= '0' && c <= '9')
        return c - '0';
    if (c >= 'A' && c <= 'F')
        return c - 'A' + 10;
    return -1;
}

/* How many bytes a line spells; -1 where it spells none. */
static int unhex(const char *line, size_t n, uint8_t *bytes)
{
    size_t i;
    if (n % 2 != 0 || n > 526)
        return -1;
    for (i = 0; i < n / 2; i++) {
        int high = digit(line[2 * i]);
        int low = digit(line[2 * i + 1]);
        if (high < 0 || low < 0)
            return -1;
        bytes[i] = (uint8_t)(16 * high + low);
    }
    return (int)(n / 2);
}

static void tell(int first, const uint8_t *bytes, int n)
{
    int i;
    printf("%02X", first);
    for (i = 0; i < n; i++)
        printf("%02X", bytes[i]);
    printf("\n");
}

/* So many records, from this one on. */
static void tell_replies(size_t from, size_t count)
{
    size_t i;
    for (i = from; i < from + count; i++)
        tell(0xC0, replies + i * QAMHUDEER_REPLY_SIZE, QAMHUDEER_REPLY_SIZE);
}

static void feed(const char *line, size_t length)
{
    static const uint8_t malformed[5] = {7, 0, 0, 0, 255};
    uint8_t f[263];
    int k = unhex(line, length, f);
    if (k < 8 || k != 8 + f[7]) {
        tell(0xA0, malformed, 5);
        return;
    }
    qamhudeer_call(f[1] < QAMHUDEER_FIRST_OF_B ? QAMHUDEER_DESK_A : QAMHUDEER_DESK_B, f[0], f[1], f[2], f[3], f[4],
                   (uint16_t)(256 * f[5] + f[6]), f + 8, f[7], state, sizeof state, table, sizeof table, display, sizeof display,
                   replies, sizeof replies, answer, sizeof answer);
    tell_replies(0, answer[QAMHUDEER_ANSWER_REPLIES_A]);
    tell_replies(QAMHUDEER_FIRST_OF_B, answer[QAMHUDEER_ANSWER_REPLIES_B]);
    tell(0xA0 + answer[QAMHUDEER_ANSWER_OUTSTANDING], answer + 1, 5);
}

int main(void)
{
    static char line[4096];
    size_t n = 0;
    int c, any = 0;
    if (qamhudeer_fresh(4, state, sizeof state, table, sizeof table, display, sizeof display) != 0)
        return 1;
    while ((c = getchar()) != EOF) {
        any = c != '\n';
        if (c == '\n') {
            feed(line, n);
            n = 0;
        } else if (n < sizeof line) {
            line[n++] = (char)c;
        }
    }
    if (any)
        feed(line, n);
    return 0;
}
