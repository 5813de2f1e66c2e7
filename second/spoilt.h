/* Damage to saved texts, of many kinds. Some of it gives another text that is good. Draws by chance.h, so that the same seed
   gives the same bytes on every machine. */
#ifndef SPOILT_H
#define SPOILT_H

#include <stddef.h>

#define SPOILT_ROOM 16384u                  /* of any text before and after */

struct Spoilt {
    size_t length;
    char text[SPOILT_ROOM];
};

/* How many kinds there are, and the name of each from 0 on. */
unsigned spoilt_kinds(void);
const char *spoilt_name(unsigned kind);

/* What a kind makes of a good text of the form 1 or 2: always one that is refused, always another good one, some of each; or nearly always one
   that is refused. */
enum Spoils { SPOILS_REFUSED, SPOILS_GOOD, SPOILS_BOTH, SPOILS_MOSTLY };
enum Spoils spoilt_gives(unsigned kind, unsigned form);

/* 1 if some text of this form and board has something of the kind. */
int spoilt_applies(unsigned kind, unsigned form, unsigned channels);

/* One damage of this kind, to a text of at most half the room. 0 where the text has nothing of that kind, and then it is as it was. */
int spoilt_by(unsigned kind, struct Spoilt *t);

#endif
