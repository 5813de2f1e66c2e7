/* Lists of combinations for stereo, on the board of four channels: request #108. */
#ifndef STEREO_H
#define STEREO_H

#include <stddef.h>
#include <stdint.h>

enum {
    STEREO_NUMBER = 11,             /* a number above 2 */
    STEREO_SHORT = 12,              /* room for fewer than four maps */
    STEREO_MOST = 4                 /* maps in the longest list */
};

/* Writes the maps with so many left and so many right channels, ascending, and their
   number: 0. A refusal, 11 or 12, writes no map, and the number is 0. */
int stereo_make(unsigned left, unsigned right, uint8_t *list, size_t room, size_t *count);

/* 1 if the list holds every map meeting the wish, each once, in any order, and nothing
   else; 0 otherwise. */
int stereo_accepts(unsigned left, unsigned right, const uint8_t *list, size_t length);

#endif
