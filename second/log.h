/* The log of document 01: lines of upper-case hexadecimal in, replies and answers out. */
#ifndef LOG_H
#define LOG_H

#include "arbiter.h"

#include <stdio.h>

#define FRAME_HEAD 8u                                   /* bytes before the combinations */
#define LONGEST_LINE (2u * (FRAME_HEAD + 255u))         /* characters without the LF */
#define REPLY_LINE 15u                                  /* characters with the LF */
#define ANSWER_LINE 13u
#define LONGEST_OUTPUT (REQUESTS * REPLY_LINE + ANSWER_LINE)    /* of one line of the log */

enum Line { LINE_NONE, LINE_MALFORMED, LINE_FRAME };

/* The next line of the log, of any length and any bytes. LINE_NONE: the log has ended. */
enum Line log_read(FILE *in, struct Frame *f);

/* 1 if these characters are one frame, which is then stored; 0 if they are malformed. */
int log_decode(const char *line, size_t length, struct Frame *f);

/* The answer to a malformed line: error 7, map 0, key 0. */
struct Answer log_malformed(void);

/* A line for each reply, desk A's first, then one for the answer: at most LONGEST_OUTPUT characters. The result is their number. */
size_t log_spell(char *text, const struct Replies *replies, const struct Answer *answer);

/* A line B0 for each channel of the board: its number, key, precedence, marks (1 locked, 2 stopped) and number of writes. */
void log_write_channels(FILE *out, const struct Arbiter *a);

/* A line E0: for each channel of the board its writes and the waiting requests naming it, then the looks, high byte first.
   Then a line E1 for each waiting request in order: id, precedence, held, desk. */
void log_write_display(FILE *out, const struct Arbiter *a, const struct Display *d);

#endif
