/* Moves a saved text from standard input to standard output into the other form of request #112: convert new|old. A refusal writes its
   number to standard error, as 'refused 9', and nothing to standard output; its status is 2. */
#include "saved.h"

#include <stdio.h>
#include <string.h>

static int refuse(int number)
{
    fprintf(stderr, "refused %d: %s\n", number,
            number == REFUSED_EIGHT ? "eight channels have no old text" : "no text of the form that is to be moved");
    return 2;
}

int main(int count, char **argument)
{
    static char from[SAVED_LONGEST2 + 1], text[SAVED_LONGEST2];
    size_t length, written;
    int to_new = count == 2 && strcmp(argument[1], "new") == 0, result;

    if (!to_new && (count != 2 || strcmp(argument[1], "old") != 0)) {
        fputs("usage: convert new|old <TEXT\n", stderr);
        return 2;
    }
    length = fread(from, 1, sizeof from, stdin);
    if (ferror(stdin)) {
        fputs("convert: input failed\n", stderr);
        return 1;
    }
    result = (to_new ? saved_to_new : saved_to_old)(from, length, text, sizeof text, &written);
    if (result != DONE)
        return refuse(result);
    fwrite(text, 1, written, stdout);
    return fflush(stdout) != 0 || ferror(stdout);
}
