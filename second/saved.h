/* The saved texts of request #106 and their second form, of request #112: a state as lines of upper-case hexadecimal, and back. */
#ifndef SAVED_H
#define SAVED_H

#include "arbiter.h"

/* "D001", four channels, 64 waiting requests of sixteen combinations, 32 open keys, the last key. */
#define SAVED_LONGEST 3344u

/* "D002", the number of channels, the same of eight channels, and the two numbers of each. */
#define SAVED_LONGEST2 3521u

enum { REFUSED_TEXT = 9, REFUSED_EIGHT = 10, REFUSED_ROOM = 12 };

/* The text of the state, in so much room; *written is its length. 1 for a state that is not sound, then 10 for one of
   eight channels, then 12 for a text that does not fit, then 0. After a refusal *written is 0 and nothing is written. */
int saved_save(const struct Arbiter *a, char *text, size_t room, size_t *written);

/* The state that was saved, on a board of so many channels, with the display's numbers counted and its looks 0: 0. Any other text
   than those that saved_save writes, and any other board than that of four channels: 9, and nothing is changed. */
int saved_load(unsigned channels, const char *text, size_t length, struct Arbiter *a, struct Display *d);

/* The number, from 1 on, of the first line that may not stand where it stands: one that is no frame, or not of the kind that is due, or that
   names what was named before. 0 where every line may; the whole may still be no sound state. */
size_t saved_fault(const char *text, size_t length);

/* The two numbers of each channel, counted over the state; the looks are 0. */
void saved_count(const struct Arbiter *a, struct Display *d);

/* ---- Request #112: the second form, of both boards ---- */

/* The text of the state and of the numbers beside it. 1 for a state that is not sound, or for numbers that disagree with a count,
   those behind the board too; then 12, then 0. The looks are not saved. */
int saved_save2(const struct Arbiter *a, const struct Display *d, char *text, size_t room, size_t *written);

/* As saved_load, of the board of 4 or of 8 channels. The other board's text, and one of the first form, is 9. */
int saved_load2(unsigned channels, const char *text, size_t length, struct Arbiter *a, struct Display *d);

/* As saved_fault, of a text for the board of so many channels. Where it is 0 the whole may still be no sound state, or its
   numbers not those of a count. */
size_t saved_fault2(unsigned channels, const char *text, size_t length);

/* An old text in the new form, with four channels and the numbers counted: 9 for what is no old text, then 12, then 0. */
int saved_to_new(const char *from, size_t length, char *text, size_t room, size_t *written);

/* A new text in the old form: 9 for what neither board's loader accepts, then 10 for eight channels, then 12, then 0. */
int saved_to_old(const char *from, size_t length, char *text, size_t room, size_t *written);

#endif
