/* The service port of request #107: a log that comes in fragments of any length, with memory for one line. */
#ifndef PORT_H
#define PORT_H

#include "log.h"

/* One character more than the longest line, so that a line that is too long is known as such. */
#define PORT_LINE (LONGEST_LINE + 1)

struct Port {
    size_t started;                     /* how many characters of a line stand, at most PORT_LINE */
    char line[PORT_LINE];
    struct Display *display;            /* request #110: the numbers that each line's call corrects; NULL where none are kept */
};

/* Takes the fragment up to its first LF, or all of it; the result is how many bytes that are. Where a line has ended it is
   answered: its output, at most LONGEST_OUTPUT characters, is text, and *written is its length, otherwise 0. Where there is
   no state at all, a is NULL, and a frame is answered as one on a state that is not sound. */
size_t port_feed(struct Port *p, struct Arbiter *a, const char *fragment, size_t length, char *text, size_t *written);

/* The log has ended. What stands of a line is a line; where nothing stands nothing is written. */
void port_end(struct Port *p, struct Arbiter *a, char *text, size_t *written);

#endif
