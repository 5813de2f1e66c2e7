/* Copies a saved text from standard input to standard output and spoils it: spoil SEED [KIND]. Without a kind, one by chance
   of those that the text has something for; a text that has nothing for the kind named stays as it is. Some kinds give another
   text that is good. Same arguments and input, same bytes, on every machine. */
#include "chance.h"
#include "spoilt.h"

#include <stdio.h>
#include <stdlib.h>
#include <string.h>

static unsigned kind_of(const char *name)
{
    unsigned kind = 0;

    while (kind < spoilt_kinds() && strcmp(spoilt_name(kind), name) != 0)
        kind++;
    return kind;
}

int main(int count, char **argument)
{
    static struct Spoilt text;
    unsigned kind = 0;

    if (count == 2 || count == 3) {
        chance_seed(strtoull(argument[1], NULL, 10));
        kind = count == 3 ? kind_of(argument[2]) : below(spoilt_kinds());
    }
    if (count < 2 || count > 3 || kind == spoilt_kinds()) {
        fputs("usage: spoil SEED [KIND] <TEXT\nkinds:", stderr);
        for (kind = 0; kind < spoilt_kinds(); kind++)
            fprintf(stderr, " %s", spoilt_name(kind));
        fputs("\n", stderr);
        return 2;
    }
    text.length = fread(text.text, 1, SPOILT_ROOM / 2, stdin);
    while (!spoilt_by(kind, &text) && count == 2)
        kind = below(spoilt_kinds());
    fwrite(text.text, 1, text.length, stdout);
    return ferror(stdin) || fflush(stdout) != 0 || ferror(stdout);
}
