/* Stereo lists through the library, held against the second program: stereo make | stereo lists | stereo damaged | stereo long.
 *
 *   make     the maker: every pair of numbers that fits two bytes, rooms of 0 to 6 maps
 *   lists    the checker: every list of up to three maps of 00 to 11, wishes of 0 to 4
 *   damaged  the checker: the right list in any order, whole or with maps dropped, doubled, replaced and put in; up to 40 maps
 *   long     the checker: lists of 100,000 maps, and maps so often that a count in one byte or two comes round
 *
 * Every byte that was lent is compared, with the bytes before and behind it. At a difference it says which, with status 1.
 * Otherwise it says how many were tried; it fails too where the checker never accepted or never refused. */
#include <stdio.h>
#include <stdlib.h>
#include <string.h>

#include "../second/chance.h"
#include "../second/stereo.h"
#include "qamhudeer.h"

#define LONGEST ((size_t)100000)
#define GUARD ((size_t)16)
#define WISHES 5u                           /* 0 to 2, and two numbers above */

struct List {
    size_t length;
    uint8_t map[LONGEST];
};

/* What is lent stands within bytes that nobody may touch. */
static uint8_t ours[GUARD + LONGEST + GUARD], theirs[GUARD + LONGEST + GUARD];
static unsigned long accepted, refused;

static void fill(uint8_t *bytes, size_t length)
{
    for (size_t i = 0; i < length; i++)
        bytes[i] = (uint8_t)(0xA5u ^ i * 7u);
}

static void tell_maps(const uint8_t *map, size_t length)
{
    for (size_t i = 0; i < length && i < 12; i++)
        printf(" %02X", map[i]);
    puts(length > 12 ? " .." : "");
}

/* ---- The maker */

static void make_both(unsigned left, unsigned right, size_t room)
{
    size_t whole = GUARD + room + GUARD, our_count = 99, their_count = 77;
    int error;
    uint8_t result;

    fill(ours, whole);
    fill(theirs, whole);
    error = stereo_make(left, right, ours + GUARD, room, &our_count);
    result = qamhudeer_stereo((uint8_t)left, (uint8_t)right, theirs + GUARD, room, &their_count);
    if (result != error || their_count != our_count || memcmp(ours, theirs, whole) != 0) {
        printf("DIFFERENT: %u left, %u right, room for %zu: %d and %zu maps, not %d and %zu; the room then holds", left, right, room, result,
               their_count, error, our_count);
        tell_maps(theirs + GUARD, room);
        exit(1);
    }
    if (result == 0)
        accepted++;
    else
        refused++;
}

static void try_maker(void)
{
    for (unsigned left = 0; left < 256; left++)
        for (unsigned right = 0; right < 256; right++)
            for (size_t room = 0; room <= 6; room++)
                make_both(left, right, room);
}

/* ---- The checker */

static void tell(unsigned left, unsigned right, const struct List *l, const char *what)
{
    printf("DIFFERENT: %s: %u left, %u right, %zu maps:", what, left, right, l->length);
    tell_maps(l->map, l->length);
    exit(1);
}

static void check_both(unsigned left, unsigned right, const struct List *l)
{
    size_t whole = GUARD + l->length + GUARD;
    int right_answer = stereo_accepts(left, right, l->map, l->length);

    fill(theirs, whole);
    memcpy(theirs + GUARD, l->map, l->length);
    memcpy(ours, theirs, whole);
    if (qamhudeer_stereo_accepts((uint8_t)left, (uint8_t)right, theirs + GUARD, l->length) != right_answer)
        tell(left, right, l, right_answer ? "not accepted" : "accepted");
    if (memcmp(ours, theirs, whole) != 0)
        tell(left, right, l, "bytes have changed");
    if (right_answer)
        accepted++;
    else
        refused++;
}

/* One list for every wish: it is right for one at most. */
static void check_all(const struct List *l)
{
    for (unsigned wish = 0; wish < WISHES * WISHES; wish++)
        check_both(wish / WISHES, wish % WISHES, l);
}

static void try_lists(void)
{
    const unsigned maps = 0x12;
    static struct List l;

    for (l.length = 0; l.length <= 3; l.length++) {
        unsigned lists = 1;

        for (size_t i = 0; i < l.length; i++)
            lists *= maps;
        for (unsigned n = 0; n < lists; n++) {
            unsigned rest = n;

            for (size_t i = 0; i < l.length; i++, rest /= maps)
                l.map[i] = (uint8_t)(rest % maps);
            check_all(&l);
        }
    }
}

static void put_in(struct List *l, uint8_t map)
{
    l->map[l->length++] = map;
}

static void shuffle(struct List *l)
{
    for (size_t i = l->length; i > 1; i--) {
        size_t j = below((unsigned)i);
        uint8_t map = l->map[i - 1];

        l->map[i - 1] = l->map[j];
        l->map[j] = map;
    }
}

/* A map of this board, or any byte. */
static uint8_t stranger(void)
{
    return (uint8_t)(percent(60) ? below(16) : percent(50) ? 16u << below(4) : below(256));
}

static void damage(struct List *l)
{
    size_t at = l->length > 0 ? below((unsigned)l->length) : 0;
    unsigned kind = below(4), more;

    if (l->length == 0 || kind == 0)
        put_in(l, stranger());
    else if (kind == 1)
        l->map[at] = l->map[--l->length];
    else if (kind == 2)
        put_in(l, l->map[at]);
    else
        l->map[at] = stranger();
    if (percent(5))
        for (more = below((unsigned)(41 - l->length)); more > 0; more--)
            put_in(l, stranger());
}

static void try_damaged(void)
{
    static struct List l;

    for (unsigned wish = 0; wish < 9; wish++)
        for (unsigned round = 0; round < 4000; round++) {
            unsigned times = below(4);

            if (stereo_make(wish / 3, wish % 3, l.map, STEREO_MOST, &l.length) != 0)
                exit(2);
            for (; times > 0 && l.length < 40; times--)
                damage(&l);
            shuffle(&l);
            check_all(&l);
        }
}

/* The right list, so many times over, filled up to so many maps with a stranger at its front. */
static void try_repeated(unsigned wish, unsigned times, size_t length, uint8_t map)
{
    static struct List l;
    uint8_t right[STEREO_MOST];
    size_t count;

    if (stereo_make(wish / 3, wish % 3, right, STEREO_MOST, &count) != 0)
        exit(2);
    l.length = 0;
    while (l.length + times * count < length)
        put_in(&l, map);
    for (; times > 0 && l.length + count <= LONGEST; times--)
        for (size_t i = 0; i < count; i++)
            put_in(&l, right[i]);
    check_both(wish / 3, wish % 3, &l);
}

static void try_long(void)
{
    for (unsigned wish = 0; wish < 9; wish++) {
        try_repeated(wish, 1, 0, 0);
        try_repeated(wish, 2, 0, 0);
        try_repeated(wish, 256, 0, 0);
        try_repeated(wish, 257, 0, 0);
        try_repeated(wish, 65536, 0, 0);
        try_repeated(wish, 65537, 0, 0);
        for (unsigned map = 0; map < 256; map += 15)
            try_repeated(wish, 1, LONGEST, (uint8_t)map);
    }
}

int main(int words, char **word)
{
    chance_seed(108);
    if (words == 2 && strcmp(word[1], "make") == 0)
        try_maker();
    else if (words == 2 && strcmp(word[1], "lists") == 0)
        try_lists();
    else if (words == 2 && strcmp(word[1], "damaged") == 0)
        try_damaged();
    else if (words == 2 && strcmp(word[1], "long") == 0)
        try_long();
    else {
        fputs("usage: stereo make | stereo lists | stereo damaged | stereo long\n", stderr);
        return 2;
    }
    printf("%lu accepted, %lu refused\n", accepted, refused);
    return accepted == 0 || refused == 0 || fflush(stdout) != 0;
}
