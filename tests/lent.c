/* Memory to lend to the library, with guards. lent.h says what each function does. */
#define _DEFAULT_SOURCE
#include "lent.h"

#include "../second/chance.h"

#include <signal.h>
#include <stdio.h>
#include <stdlib.h>
#include <string.h>
#include <sys/mman.h>
#include <unistd.h>

#define PAGE ((size_t)65536)                /* of any machine, also under an emulator */
#define GUARD ((size_t)64)

struct Where where;

static void touched(int number)
{
    char text[200];
    int length = snprintf(text, sizeof text, "DIFFERENT: seed %lu, line %lu, try %lu: signal %d in the call\n",
                          where.seed, where.line, where.try, number);

    if (write(1, text, (size_t)length) != length)
        _exit(2);
    _exit(1);
}

void lent_pages(struct Lent *lent, unsigned pieces)
{
    for (unsigned p = 0; p < pieces; p++) {
        uint8_t *m = mmap(NULL, 4 * PAGE, PROT_NONE, MAP_PRIVATE | MAP_ANONYMOUS, -1, 0);

        if (m == MAP_FAILED) {
            perror("mmap");
            exit(2);
        }
        lent[p].page = m + PAGE + (PAGE - (uintptr_t)m % PAGE) % PAGE;
        if (mprotect(lent[p].page, PAGE, PROT_READ | PROT_WRITE) != 0) {
            perror("mprotect");
            exit(2);
        }
    }
    signal(SIGSEGV, touched);
    signal(SIGBUS, touched);
    signal(SIGILL, touched);
}

static uint8_t guard_byte(size_t at)
{
    return (uint8_t)(0xA5u ^ at * 7u);
}

/* The part of the page that is looked at: the piece and its guards, as far as the page goes. */
static void span(const struct Lent *l, size_t *from, size_t *to)
{
    size_t at = (size_t)(l->at - l->page);

    *from = at < GUARD ? 0 : at - GUARD;
    *to = PAGE - at - l->length < GUARD ? PAGE : at + l->length + GUARD;
}

void lend_bytes(struct Lent *l, const uint8_t *byte, size_t length)
{
    unsigned place = below(4), odd = below(16);
    size_t from, to;

    l->at = l->page + (place == 0 ? 0 : place == 1 ? 4096 + odd : PAGE - length);
    l->length = length;
    span(l, &from, &to);
    for (size_t i = from; i < to; i++)
        l->page[i] = guard_byte(i);
    memcpy(l->at, byte, length);
}

void lend(struct Lent *l, const struct Bytes *b)
{
    lend_bytes(l, b->byte, b->length);
}

int lent_same(const struct Lent *l, const struct Bytes *want, const char *name)
{
    return lent_same_bytes(l, want->byte, name);
}

int lent_same_bytes(const struct Lent *l, const uint8_t *want, const char *name)
{
    size_t from, to, at = (size_t)(l->at - l->page);

    span(l, &from, &to);
    for (size_t i = from; i < to; i++) {
        int within = i >= at && i < at + l->length;
        uint8_t must = within ? want[i - at] : guard_byte(i);

        if (l->page[i] != must) {
            printf("DIFFERENT: %s%s, byte %ld is %02X and must be %02X\n", within ? "" : "memory outside the ", name,
                   (long)i - (long)at, l->page[i], must);
            return 0;
        }
    }
    return 1;
}

void fill(struct Bytes *b, size_t length)
{
    b->length = length;
    for (size_t i = 0; i < length; i++)
        b->byte[i] = (uint8_t)below(256);
}

void stretch(struct Bytes *b, size_t length)
{
    for (size_t i = b->length; i < length; i++)
        b->byte[i] = (uint8_t)(percent(50) ? 0 : below(256));
    b->length = length;
}

size_t any_length(size_t right)
{
    unsigned odds = below(8);

    if (odds == 0)
        return 0;
    if (odds < 4)
        return right - 1;
    if (odds < 6)
        return right + 1;
    return below(LONGEST + 1);
}

void show_bytes(const char *name, const struct Bytes *b)
{
    printf("    %s, %lu bytes: ", name, (unsigned long)b->length);
    for (size_t i = 0; i < b->length; i++)
        printf("%02X", b->byte[i]);
    printf("\n");
}

int same_number(const char *name, size_t is, size_t must)
{
    if (is != must)
        printf("DIFFERENT: %s is %lu and must be %lu\n", name, (unsigned long)is, (unsigned long)must);
    return is == must;
}
