/* The library's call beside the second program's, in one process: calls NAME REPETITIONS CHANNELS <LOG. The log's frames are
   read first, and both play them once, to be compared. Then each plays them from a fresh device, in turns, and writes a line
   'NAME REPETITION library|second SECONDS SECONDS 0 CALLS', with the seconds of the processor; so bench/run has them.
   Malformed lines are no calls. The library reads and writes its state as bytes; the second program has a struct at hand.
   With -DAGAINST another build of the library takes the second program's place, its functions called other_..; the two are not
   compared. */
#define _DEFAULT_SOURCE
#include <stdio.h>
#include <stdlib.h>
#include <string.h>
#include <time.h>

/* The second program's enums come first: the header's macros then stand over them, with the same numbers. */
#include "../second/log.h"
#include "qamhudeer.h"

static struct Frame *frame;
static size_t frames;
static uint8_t channels;

static uint8_t state[QAMHUDEER_STATE_SIZE], table[QAMHUDEER_TABLE_SIZE], display[QAMHUDEER_DISPLAY_SIZE];
static uint8_t replies[QAMHUDEER_REPLIES_SIZE], answer[QAMHUDEER_ANSWER_SIZE];

/* What is handed to either library. */
#define DEVICE state, sizeof state, table, sizeof table, display, sizeof display
#define CALL(f) \
    f->desk, f->operation, f->id, f->flags, f->map, (uint8_t)f->precedence, f->key, f->combination, f->length, DEVICE, replies, \
        sizeof replies, answer, sizeof answer

static void read_log(void)
{
    size_t room = 0;
    enum Line kind;
    struct Frame f;

    while ((kind = log_read(stdin, &f)) != LINE_NONE) {
        if (kind != LINE_FRAME)
            continue;
        if (frames == room) {
            room = 2 * room + 1000;
            frame = realloc(frame, room * sizeof *frame);
            if (frame == NULL)
                exit(2);
        }
        frame[frames++] = f;
    }
}

static size_t library_call(const struct Frame *f)
{
    return qamhudeer_call(CALL(f));
}

static void library_fresh(void)
{
    if (qamhudeer_fresh(channels, DEVICE) != 0)
        exit(2);
}

#ifdef AGAINST

uint8_t other_qamhudeer_fresh(uint8_t, uint8_t *, size_t, uint8_t *, size_t, uint8_t *, size_t);
size_t other_qamhudeer_call(uint8_t, uint8_t, uint8_t, uint8_t, uint8_t, uint8_t, uint16_t, const uint8_t *, size_t, uint8_t *, size_t,
                            uint8_t *, size_t, uint8_t *, size_t, uint8_t *, size_t, uint8_t *, size_t);

static void second_fresh(void)
{
    if (other_qamhudeer_fresh(channels, DEVICE) != 0)
        exit(2);
}

static void second_call(const struct Frame *f)
{
    other_qamhudeer_call(CALL(f));
}

static void compare(void)
{
}

#else

static struct Arbiter arbiter;
static struct Reply record[REQUESTS];
static struct Replies list = {.record = record, .capacity = REQUESTS};

static void second_fresh(void)
{
    arbiter_fresh(&arbiter, channels);
}

static void second_call(const struct Frame *f)
{
    arbiter_call(&arbiter, f, &list);
}

static int same_reply(const uint8_t *b, const struct Reply *r)
{
    return b[0] == r->id && b[1] == r->command && b[2] == (uint8_t)r->error && b[3] == r->map && 256u * b[4] + b[5] == r->key;
}

static int same_outcome(size_t n, const struct Answer *a)
{
    if (n != arbiter_replied(&list) || answer[0] != a->outstanding || answer[1] != (uint8_t)a->error || answer[2] != a->map
        || 256u * answer[3] + answer[4] != a->key || answer[5] != a->last || answer[6] != list.count[DESK_A]
        || answer[7] != list.count[DESK_B])
        return 0;
    for (size_t at = 0; at < REQUESTS; at++)
        if (at % HALF < list.count[at / HALF] && !same_reply(replies + at * QAMHUDEER_REPLY_SIZE, &record[at]))
            return 0;
    return 1;
}

static void compare(void)
{
    library_fresh();
    second_fresh();
    for (size_t i = 0; i < frames; i++) {
        size_t n = library_call(&frame[i]);
        struct Answer a = arbiter_call(&arbiter, &frame[i], &list);

        if (!same_outcome(n, &a)) {
            fprintf(stderr, "calls: the two differ at frame %lu\n", (unsigned long)i + 1);
            exit(1);
        }
    }
}

#endif

static void tell(const char *name, long repetition, const char *who, double took)
{
    printf("%s %ld %s %.6f %.6f 0 %lu\n", name, repetition, who, took, took, (unsigned long)frames);
}

static double now(void)
{
    struct timespec t;

    clock_gettime(CLOCK_PROCESS_CPUTIME_ID, &t);
    return (double)t.tv_sec + (double)t.tv_nsec / 1e9;
}

static double play_library(void)
{
    double began = now();

    library_fresh();
    for (size_t i = 0; i < frames; i++)
        library_call(&frame[i]);
    return now() - began;
}

static double play_second(void)
{
    double began = now();

    second_fresh();
    for (size_t i = 0; i < frames; i++)
        second_call(&frame[i]);
    return now() - began;
}

int main(int words, char **word)
{
    double library, second;
    long repetitions = words == 4 ? strtol(word[2], NULL, 10) : 0;

    channels = words == 4 ? (uint8_t)strtol(word[3], NULL, 10) : 0;
    if (repetitions < 1 || (channels != 4 && channels != 8)) {
        fputs("usage: calls NAME REPETITIONS 4|8 <LOG\n", stderr);
        return 2;
    }
    read_log();
    compare();
    for (long r = 1; r <= repetitions; r++) {
        if (r % 2 == 1) {
            library = play_library();
            second = play_second();
        } else {
            second = play_second();
            library = play_library();
        }
        tell(word[1], r, "library", library);
        tell(word[1], r, "second", second);
    }
    return fflush(stdout) != 0 || ferror(stdout);
}
