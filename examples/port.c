/* The service port: a log from standard input, answered on standard output, in fragments of a single byte. It keeps one line
 * and no more, whatever the log's length. Of second/sample.log it writes second/sample.out. Build:
 *   scripts/library
 *   cc -std=c99 -Iinclude examples/port.c target/staticlib/libqamhudeer.a -o port */
#include <stdio.h>

#include "qamhudeer.h"

static uint8_t state[QAMHUDEER_STATE_SIZE];
static uint8_t table[QAMHUDEER_TABLE_SIZE];
static uint8_t display[QAMHUDEER_DISPLAY_SIZE];
static uint8_t port[QAMHUDEER_PORT_SIZE]; /* all 0: a fresh one */
static uint8_t out[QAMHUDEER_ROOM_SIZE];

static int feed(const uint8_t *fragment, size_t length)
{
    size_t used, written;

    do {
        if (qamhudeer_feed(fragment, length, port, sizeof port, state, sizeof state, table, sizeof table, display, sizeof display,
                           out, sizeof out, &used, &written) != 0)
            return 1; /* no port, or no room for the output of a line */
        fwrite(out, 1, written, stdout);
        fragment += used;
        length -= used;
    } while (length > 0);
    return 0;
}

int main(void)
{
    uint8_t byte;
    size_t written;

    if (qamhudeer_fresh(4, state, sizeof state, table, sizeof table, display, sizeof display) != 0 || feed(port, 0) != 0)
        return 1; /* an empty fragment changes nothing */
    while (fread(&byte, 1, 1, stdin) == 1)
        if (feed(&byte, 1) != 0)
            return 1;
    if (qamhudeer_feed_end(port, sizeof port, state, sizeof state, table, sizeof table, display, sizeof display, out, sizeof out,
                           &written) != 0)
        return 1;
    fwrite(out, 1, written, stdout);
    return fflush(stdout) != 0;
}
