/* The second program: plays a log from standard input on a fresh device and writes
   each call's replies and answer to standard output.

     arbiter2 [--channels 4|8] [--show] [--display] [--load FILE] [--save FILE] [--form 1|2]
     arbiter2 --version

   --show: then also a line B0 for each channel of the board. --display: then a line E0 with
   the numbers of the wall display, and a line E1 for each waiting request. --load: it plays
   on from the saved state in FILE. --save: after the log's end the state is saved in FILE.
   --form: the form of both, 1 on four channels and 2 on eight where it is left out.
   --help tells this. A wrong option gets a message and status 2, and so does a FILE that
   cannot be read, that holds no saved text or that cannot be written; all that is tested
   before the log is read. The version is that of the header for C, the only thing that is
   taken from there. */
#include "log.h"
#include "saved.h"

#include "../include/qamhudeer.h"

#include <errno.h>
#include <stdio.h>
#include <stdlib.h>
#include <string.h>

static const char usage[] =
    "usage: arbiter2 [--channels 4|8] [--show] [--display] [--load FILE] [--save FILE] [--form 1|2] <LOG\n"
    "       arbiter2 --version\n";
static const char help[] =
    "Plays a log on a fresh device; writes each line's replies and its answer.\n"
    "  --channels 4|8  the board; left out: 4\n"
    "  --show          then a line B0 for each channel: number, key, precedence, marks, writes\n"
    "  --display       then a line E0: for each channel its writes and the waiting requests naming it,\n"
    "                  behind them the looks of the last settling; and a line E1 for each waiting\n"
    "                  request in order: id, precedence, held 00 or 01, desk 00 or 01\n"
    "  --load FILE     plays on from the state that was saved in FILE, and not on a fresh device\n"
    "  --save FILE     after the log's end saves the state in FILE\n"
    "  --form 1|2      the form of these texts; left out: 1 for four channels, 2 for eight. The first is\n"
    "                  of four channels alone\n"
    "  --help          writes this, and reads no log\n";

struct Options {
    unsigned channels;
    int show, display, help;
    const char *load, *save;                /* NULL where not asked for */
    unsigned form;                          /* 0 where left out */
};

static struct Arbiter state;
static struct Display display;

/* 1 if the words are options that there are; 0 if not. */
static int read_options(int count, char **argument, struct Options *o)
{
    for (int i = 1; i < count; i++)
        if (strcmp(argument[i], "--show") == 0)
            o->show = 1;
        else if (strcmp(argument[i], "--display") == 0)
            o->display = 1;
        else if (strcmp(argument[i], "--help") == 0)
            o->help = 1;
        else if (strcmp(argument[i], "--channels") == 0 && i + 1 < count
                 && (strcmp(argument[i + 1], "4") == 0 || strcmp(argument[i + 1], "8") == 0))
            o->channels = (unsigned)(argument[++i][0] - '0');
        else if (strcmp(argument[i], "--load") == 0 && i + 1 < count && argument[i + 1][0] != '\0')
            o->load = argument[++i];
        else if (strcmp(argument[i], "--save") == 0 && i + 1 < count && argument[i + 1][0] != '\0')
            o->save = argument[++i];
        else if (strcmp(argument[i], "--form") == 0 && i + 1 < count
                 && (strcmp(argument[i + 1], "1") == 0 || strcmp(argument[i + 1], "2") == 0))
            o->form = (unsigned)(argument[++i][0] - '0');
        else
            return 0;
    if (o->form == 0)
        o->form = o->channels == 4 ? 1 : 2;
    return 1;
}

/* ---- Saved states ---- */

static int complain(const char *file, const char *what)
{
    fprintf(stderr, "arbiter2: %s: %s\n", file, what);
    return 0;
}

/* Why the text is refused: a line of it, or the whole. */
static int complain_of_text(const char *file, const struct Options *o, const char *text, size_t length)
{
    size_t line = o->form == 1 ? saved_fault(text, length) : saved_fault2(o->channels, text, length);

    if (line == 0)
        return complain(file, o->form == 1 ? "the whole is no sound state"
                                           : "the whole is no sound state, or its numbers are not those of a count");
    fprintf(stderr, "arbiter2: %s: line %lu is no frame that may stand there\n", file, (unsigned long)line);
    return 0;
}

/* 1 if the file holds a saved text of this form, whose state then stands. No loader guesses the form. A byte more than the longest text
   has is enough to see that it is none. */
static int load(const struct Options *o)
{
    static char text[SAVED_LONGEST2 + 1];
    const char *name = o->load;
    FILE *file = fopen(name, "rb");
    size_t length = 0;
    int whole;

    if (file == NULL)
        return complain(name, strerror(errno));
    length = fread(text, 1, sizeof text, file);
    whole = !ferror(file);
    fclose(file);
    if (!whole)
        return complain(name, "cannot be read");
    if ((o->form == 1 ? saved_load : saved_load2)(o->channels, text, length, &state, &display) != DONE)
        return complain_of_text(name, o, text, length);
    return 1;
}

/* The new file beside the one that is saved to, open from before the log is read. */
static char *part_name;
static FILE *part;

static int open_part(const char *name)
{
    part_name = malloc(strlen(name) + sizeof ".part");
    if (part_name == NULL)
        return complain(name, "no memory");
    strcpy(part_name, name);
    strcat(part_name, ".part");
    part = fopen(part_name, "wb");
    return part != NULL || complain(part_name, strerror(errno));
}

/* Nothing is saved, and no part is left. */
static void drop_part(void)
{
    if (part == NULL)
        return;
    fclose(part);
    remove(part_name);
}

/* 1 if the state is saved: whole, or not at all. */
static int save(const struct Options *o)
{
    static char text[SAVED_LONGEST2];
    const char *name = o->save;
    size_t length;
    int kept, result = o->form == 1 ? saved_save(&state, text, sizeof text, &length)
                                    : saved_save2(&state, &display, text, sizeof text, &length);

    if (result != DONE) {
        drop_part();
        return complain(name, "the state cannot be saved");
    }
    kept = fwrite(text, 1, length, part) == length;
    kept = fclose(part) == 0 && kept && rename(part_name, name) == 0;
    if (!kept)
        remove(part_name);
    return kept || complain(name, "cannot be written");
}

/* All that is tested before the log is read. */
static int begin(const struct Options *o)
{
    if (o->channels != 4 && o->form == 1) {
        fputs("arbiter2: the first form of saved texts is the four-channel board's alone\n", stderr);
        return 0;
    }
    arbiter_fresh(&state, o->channels);
    if (o->load != NULL && !load(o))
        return 0;
    return o->save == NULL || open_part(o->save);
}

int main(int count, char **argument)
{
    static struct Reply record[REQUESTS];
    static char buffer[1 << 16], text[LONGEST_OUTPUT];
    struct Options options = {4, 0, 0, 0, NULL, NULL, 0};
    struct Frame frame;
    enum Line line;

    if (count == 2 && strcmp(argument[1], "--version") == 0) {
        puts("arbiter2 " QAMHUDEER_VERSION);
        return fflush(stdout) != 0;
    }
    if (!read_options(count, argument, &options)) {
        fputs(usage, stderr);
        return 2;
    }
    if (options.help) {
        fputs(usage, stdout);
        fputs(help, stdout);
        return fflush(stdout) != 0;
    }
    if (!begin(&options))
        return 2;
    setvbuf(stdout, buffer, _IOFBF, sizeof buffer);
    while ((line = log_read(stdin, &frame)) != LINE_NONE) {
        struct Replies replies = {.record = record, .capacity = REQUESTS};
        struct Answer answer = log_malformed();

        if (line == LINE_FRAME)
            answer = arbiter_call_shown(&state, &display, &frame, &replies);
        fwrite(text, 1, log_spell(text, &replies, &answer), stdout);
        if (options.show)
            log_write_channels(stdout, &state);
        if (options.display)
            log_write_display(stdout, &state, &display);
    }
    if (ferror(stdin) || fflush(stdout) != 0 || ferror(stdout)) {
        fputs("arbiter2: input or output failed\n", stderr);
        drop_part();
        return 1;
    }
    return options.save != NULL && !save(&options);
}
