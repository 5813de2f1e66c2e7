/* Copies a log from standard input to standard output and damages it: damage SEED ODDS
   [KIND]. Each place is damaged with one chance in ODDS. Without a kind, bytes are replaced
   by random ones; with ODDS 1 the result is random bytes. Same arguments and input, same
   bytes, on every machine. */
#include "chance.h"

#include <stdio.h>
#include <stdlib.h>
#include <string.h>

enum Kind { REPLACE, FLIP, DROP, DOUBLE, LOWER, CUT, JOIN, LONG, END, KINDS };

static const char *const names[KINDS] = {
    "replace",                  /* a byte becomes a random one */
    "flip",                     /* one bit of a byte */
    "drop",                     /* a byte is gone */
    "double",                   /* a byte stands twice */
    "lower",                    /* a digit A to F becomes lower case */
    "cut",                      /* the rest of a line is gone */
    "join",                     /* an LF is gone */
    "long",                     /* a line gets more than 526 characters */
    "end"                       /* the log ends without LF, or within its last line */
};

static void write_digits(unsigned count)
{
    for (unsigned i = 0; i < count; i++)
        putchar("0123456789ABCDEF"[below(16)]);
}

/* Writes this byte damaged; 1 if the rest of its line is to be left out. */
static int damage(enum Kind kind, int c)
{
    switch (kind) {
    case REPLACE:
        putchar((int)below(256));
        break;
    case FLIP:
        putchar(c ^ (1 << below(8)));
        break;
    case DOUBLE:
        putchar(c);
        putchar(c);
        break;
    case LOWER:
        putchar(c >= 'A' && c <= 'F' ? c - 'A' + 'a' : c);
        break;
    case CUT:
        if (c == '\n')
            putchar(c);
        return c != '\n';
    case LONG:
        write_digits(527 + below(4));
        putchar(c);
        break;
    default:                    /* it is gone */
        break;
    }
    return 0;
}

static void damage_bytes(enum Kind kind, unsigned odds)
{
    int c, skipping = 0;

    while ((c = getchar()) != EOF) {
        if (c == '\n')
            skipping = 0;
        if (skipping)
            continue;
        /* Lines are joined at LFs alone: the others are no places. */
        if ((kind == JOIN && c != '\n') || below(odds) != 0)
            putchar(c);
        else
            skipping = damage(kind, c);
    }
}

/* Up to 20 bytes before the last LF are gone too. */
static void damage_end(void)
{
    char held[21];
    size_t count = 0, kept;
    int c;

    while ((c = getchar()) != EOF) {
        if (count == sizeof held) {
            putchar(held[0]);
            memmove(held, held + 1, --count);
        }
        held[count++] = (char)c;
    }
    if (count > 0 && held[count - 1] == '\n')
        count--;
    kept = below((unsigned)count + 1);
    fwrite(held, 1, kept, stdout);
}

int main(int count, char **argument)
{
    unsigned kind = REPLACE, odds;

    if (count == 4)
        for (kind = 0; kind < KINDS && strcmp(names[kind], argument[3]) != 0; kind++)
            ;
    odds = count > 2 ? (unsigned)strtoul(argument[2], NULL, 10) : 0;
    if (count < 3 || count > 4 || kind == KINDS || odds == 0) {
        fputs("usage: damage SEED ODDS [KIND]\nkinds:", stderr);
        for (kind = 0; kind < KINDS; kind++)
            fprintf(stderr, " %s", names[kind]);
        fputs("\n", stderr);
        return 2;
    }
    chance_seed(strtoull(argument[1], NULL, 10));
    if (kind == END)
        damage_end();
    else
        damage_bytes((enum Kind)kind, odds);
    return fflush(stdout) != 0 || ferror(stdout);
}
