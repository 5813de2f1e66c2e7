/* How much stack the functions of the library take: stack <LOG. Each function runs in a thread of its own, on a stack that was painted
 * before; the log is played on both boards, and the functions that read a state are tried on many of its states. Writes a line
 * 'NAME BYTES' for each, the most that was seen, counted from the caller's stack pointer before the arguments are put there.
 * tests/stack.sh compares it with the bound that scripts/stack computes. x86-64 alone, as the library. */
#define _POSIX_C_SOURCE 200809L
#include <pthread.h>
#include <stdio.h>
#include <stdlib.h>
#include <string.h>

#include "qamhudeer.h"

#define STACK ((size_t)1 << 18)
#define PAINT 0xA5
#define EACH 50 /* so many lines from one state that is looked at to the next */

static uint8_t state[QAMHUDEER_STATE_SIZE], table[QAMHUDEER_TABLE_SIZE], display[QAMHUDEER_DISPLAY_SIZE];
static uint8_t replies[QAMHUDEER_REPLIES_SIZE], answer[QAMHUDEER_ANSWER_SIZE];
static uint8_t port[QAMHUDEER_PORT_SIZE], room[QAMHUDEER_ROOM_SIZE], records[QAMHUDEER_RECORDS_SIZE];
static uint8_t old[QAMHUDEER_TEXT_SIZE], new[QAMHUDEER_TEXT2_SIZE], text[QAMHUDEER_TEXT2_SIZE];
static uint8_t maps[QAMHUDEER_STEREO_ROOM];
static size_t old_length, new_length, written, used;
static uint8_t channels;
static uint8_t log_text[1 << 20];
static size_t length;
static uintptr_t top; /* the stack pointer of the caller */

#define STATE state, sizeof state, table, sizeof table
#define DEVICE STATE, display, sizeof display
#define ROOM room, sizeof room
#define MARK() __asm__ volatile("movq %%rsp, %0" : "=m"(top) : : "memory")

static int digit(uint8_t c)
{
    return c <= '9' ? c - '0' : c - 'A' + 10;
}

static size_t line_end(size_t at)
{
    while (at < length && log_text[at] != '\n')
        at++;
    return at;
}

static void fresh(void)
{
    MARK();
    if (qamhudeer_fresh(channels, DEVICE) != 0)
        exit(2);
}

/* The frames of the log; a line that is too short or too long for one is left out. */
static void call(void)
{
    uint8_t f[8 + 255];
    size_t at, end, n;

    for (at = 0; at < length; at = end + 1) {
        end = line_end(at);
        for (n = 0; n < sizeof f && at + 2 * n + 1 < end; n++)
            f[n] = (uint8_t)(16 * digit(log_text[at + 2 * n]) + digit(log_text[at + 2 * n + 1]));
        if (n < 8 || n != 8u + f[7])
            continue;
        MARK();
        qamhudeer_call(f[1] < QAMHUDEER_FIRST_OF_B ? QAMHUDEER_DESK_A : QAMHUDEER_DESK_B, f[0], f[1], f[2], f[3], f[4],
                       (uint16_t)(256u * f[5] + f[6]), f + 8, f[7], DEVICE, replies, sizeof replies, answer, sizeof answer);
    }
}

static void feed(void)
{
    size_t at;

    for (at = 0; at < length; at += used) {
        MARK();
        qamhudeer_feed(log_text + at, length - at, port, sizeof port, DEVICE, ROOM, &used, &written);
    }
}

static void feed_end(void)
{
    MARK();
    qamhudeer_feed_end(port, sizeof port, DEVICE, ROOM, &written);
}

static void waiting(void)
{
    MARK();
    if (qamhudeer_waiting(STATE, records, sizeof records, &written) != 0)
        exit(2);
}

static void save(void)
{
    MARK();
    if (qamhudeer_save(STATE, old, sizeof old, &old_length) != (channels == 4 ? 0 : QAMHUDEER_EIGHT))
        exit(2);
}

static void load(void)
{
    MARK();
    if (qamhudeer_load(4, old, old_length, DEVICE) != (channels == 4 ? 0 : QAMHUDEER_BADTEXT))
        exit(2);
}

static void save2(void)
{
    MARK();
    if (qamhudeer_save2(DEVICE, new, sizeof new, &new_length) != 0)
        exit(2);
}

static void load2(void)
{
    MARK();
    if (qamhudeer_load2(channels, new, new_length, DEVICE) != 0)
        exit(2);
}

static void to_new(void)
{
    MARK();
    if (qamhudeer_to_new(old, old_length, text, sizeof text, &written) != (channels == 4 ? 0 : QAMHUDEER_BADTEXT))
        exit(2);
}

static void to_old(void)
{
    MARK();
    if (qamhudeer_to_old(new, new_length, text, sizeof text, &written) != (channels == 4 ? 0 : QAMHUDEER_EIGHT))
        exit(2);
}

static void stereo(void)
{
    MARK();
    if (qamhudeer_stereo(1, 1, maps, sizeof maps, &written) != 0)
        exit(2);
}

static void stereo_accepts(void)
{
    MARK();
    if (qamhudeer_stereo_accepts(1, 1, maps, sizeof maps) != 1)
        exit(2);
}

enum { FRESH, CALL, FEED, FEED_END, WAITING, SAVE, LOAD, SAVE2, LOAD2, TO_NEW, TO_OLD, STEREO, ACCEPTS, COUNT };

static struct {
    const char *name;
    void (*play)(void);
    size_t most;
} tried[COUNT] = {
    {"qamhudeer_fresh", fresh, 0},   {"qamhudeer_call", call, 0},     {"qamhudeer_feed", feed, 0},
    {"qamhudeer_feed_end", feed_end, 0}, {"qamhudeer_waiting", waiting, 0}, {"qamhudeer_save", save, 0},
    {"qamhudeer_load", load, 0},     {"qamhudeer_save2", save2, 0},   {"qamhudeer_load2", load2, 0},
    {"qamhudeer_to_new", to_new, 0}, {"qamhudeer_to_old", to_old, 0}, {"qamhudeer_stereo", stereo, 0},
    {"qamhudeer_stereo_accepts", stereo_accepts, 0},
};

static void *stack;

/* It looks before it returns: the end of a thread takes stack too. */
static void *run(void *which)
{
    const uint8_t *low = stack;

    tried[*(int *)which].play();
    while (*low == PAINT)
        low++;
    if (top - (uintptr_t)low > tried[*(int *)which].most)
        tried[*(int *)which].most = (size_t)(top - (uintptr_t)low);
    return NULL;
}

static void measure(int which)
{
    pthread_attr_t how;
    pthread_t thread;

    if (stack == NULL && posix_memalign(&stack, 4096, STACK) != 0)
        exit(2);
    memset(stack, PAINT, STACK);
    if (pthread_attr_init(&how) != 0 || pthread_attr_setstack(&how, stack, STACK) != 0 ||
        pthread_create(&thread, &how, run, &which) != 0 || pthread_join(thread, NULL) != 0)
        exit(2);
}

/* The log again, line by line. Now and then a line is left without its end, for feed_end, and the state then is looked at. */
static void look_at_states(void)
{
    size_t at, end, line = 0;
    int which;

    fresh();
    for (at = 0; at < length; at = end + 1) {
        end = line_end(at);
        if (++line % EACH != 0) {
            qamhudeer_feed(log_text + at, end + 1 - at, port, sizeof port, DEVICE, ROOM, &used, &written);
            continue;
        }
        qamhudeer_feed(log_text + at, end - at, port, sizeof port, DEVICE, ROOM, &used, &written);
        for (which = FEED_END; which < COUNT; which++)
            measure(which);
    }
}

int main(void)
{
    int which;

    length = fread(log_text, 1, sizeof log_text - 1, stdin);
    if (length == 0)
        return 2;
    if (log_text[length - 1] != '\n')
        log_text[length++] = '\n';
    for (channels = 4; channels <= 8; channels = (uint8_t)(channels + 4)) {
        measure(FRESH);
        measure(CALL);
        fresh();
        measure(FEED);
        look_at_states();
    }
    for (which = 0; which < COUNT; which++)
        printf("%s %lu\n", tried[which].name, (unsigned long)tried[which].most);
    return fflush(stdout) != 0 || ferror(stdout);
}
