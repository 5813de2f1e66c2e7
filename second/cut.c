/* Plays a log from standard input through the service port, in fragments of random lengths, some of them empty:
   cut SEED [CHANNELS [display]]. Its output must be that of arbiter2; with the last word, behind it the lines of the wall display
   at the end. */
#include "chance.h"
#include "port.h"

#include <stdio.h>
#include <stdlib.h>

int main(int count, char **argument)
{
    static struct Arbiter state;
    static struct Display display;
    static struct Port port = {.display = &display};
    static char fragment[1000], text[LONGEST_OUTPUT];
    size_t length, written;

    if (count < 2 || count > 4) {
        fputs("usage: cut SEED [CHANNELS [display]] <LOG\n", stderr);
        return 2;
    }
    chance_seed(strtoull(argument[1], NULL, 10));
    arbiter_fresh(&state, count > 2 ? (unsigned)strtoul(argument[2], NULL, 10) : 4);
    do {
        size_t wanted = below(percent(80) ? 30 : sizeof fragment), used = 0;

        length = fread(fragment, 1, wanted, stdin);
        while (used < length) {
            used += port_feed(&port, &state, fragment + used, length - used, text, &written);
            fwrite(text, 1, written, stdout);
        }
    } while (!feof(stdin) && !ferror(stdin));
    port_end(&port, &state, text, &written);
    fwrite(text, 1, written, stdout);
    if (count > 3)
        log_write_display(stdout, &state, &display);
    return ferror(stdin) || fflush(stdout) != 0 || ferror(stdout);
}
