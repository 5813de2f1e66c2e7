/* Memory to lend to the library: each piece on a page of its own, with bytes before and behind it that must not change, and
   beyond them pages that can be neither read nor written. A touch of those is told as a difference. */
#ifndef LENT_H
#define LENT_H

#include <stddef.h>
#include <stdint.h>

#define LONGEST 2048u                       /* of a piece that is lent */

struct Bytes {
    size_t length;
    uint8_t byte[LONGEST];
};

struct Lent {
    uint8_t *page;                          /* with nothing before and behind it */
    uint8_t *at;
    size_t length;
};

/* Where a trial is: it is told with a difference. */
struct Where {
    unsigned long seed, line, try;
};
extern struct Where where;

/* Gives each piece its page, and looks out for touches beyond it. */
void lent_pages(struct Lent *lent, unsigned pieces);

/* The piece stands at the beginning of its page, at its end, or within. */
void lend(struct Lent *l, const struct Bytes *b);

/* Each byte of the piece and of its guards is as it must be; else it is told under this name, and the result is 0. */
int lent_same(const struct Lent *l, const struct Bytes *want, const char *name);

/* The same of bytes that stand anywhere, and of any number up to a page's. */
void lend_bytes(struct Lent *l, const uint8_t *byte, size_t length);
int lent_same_bytes(const struct Lent *l, const uint8_t *want, const char *name);

/* The same of a number that a call gave back. */
int same_number(const char *name, size_t is, size_t must);

/* As many bytes of any kind. */
void fill(struct Bytes *b, size_t length);

/* Another length. A piece that grows gets bytes of any kind behind it. */
void stretch(struct Bytes *b, size_t length);

/* A length that is wrong, or now and then not: near the right one, 0, or any. */
size_t any_length(size_t right);

void show_bytes(const char *name, const struct Bytes *b);

#endif
