/* The maker and the checker of stereo lists, written from request #108.
   A list is laid out over 256 places, one for every map a byte can name: the maker reads
   the places upward, the checker counts into them. */
#include "stereo.h"

#include <string.h>

#define PLACES 256u

/* "Channels 0 and 3 sound left, 1 and 2 right": the bits of each side. */
enum Side { LEFT, RIGHT };
static const uint8_t sounding[2][2] = {{1u << 0, 1u << 3}, {1u << 1, 1u << 2}};

/* How many channels a choice has: none, the first, the second, both. */
static const unsigned members[4] = {0, 1, 1, 2};

static unsigned chosen(enum Side side, unsigned choice)
{
    return ((choice & 1u) != 0 ? sounding[side][0] : 0u)
         | ((choice & 2u) != 0 ? sounding[side][1] : 0u);
}

/* 1 in the place of each map that meets the wish; how many these are. No choice has more
   than two channels, so that a number above 2 gets none. */
static unsigned lay_out(unsigned left, unsigned right, uint8_t wanted[PLACES])
{
    unsigned maps = 0;

    memset(wanted, 0, PLACES);
    for (unsigned l = 0; l < 4; l++)
        for (unsigned r = 0; r < 4; r++)
            if (members[l] == left && members[r] == right) {
                wanted[chosen(LEFT, l) | chosen(RIGHT, r)] = 1;
                maps++;
            }
    return maps;
}

/* "A number above 2 gets 11, then room for fewer than 4 maps gets 12, nothing written." */
int stereo_make(unsigned left, unsigned right, uint8_t *list, size_t room, size_t *count)
{
    uint8_t wanted[PLACES];

    *count = 0;
    if (left > 2 || right > 2)
        return STEREO_NUMBER;
    if (room < STEREO_MOST)
        return STEREO_SHORT;
    lay_out(left, right, wanted);
    for (unsigned m = 0; m < PLACES; m++)
        if (wanted[m])
            list[(*count)++] = (uint8_t)m;
    return 0;
}

/* "Every map meeting the wish, each once, in any order, and nothing else." For a number
   above 2 no place is wanted, and the empty list would do; but "the checker accepts no
   list for such a number". */
int stereo_accepts(unsigned left, unsigned right, const uint8_t *list, size_t length)
{
    uint8_t wanted[PLACES];
    size_t met[PLACES] = {0};

    if (lay_out(left, right, wanted) == 0)
        return 0;
    for (size_t i = 0; i < length; i++)
        met[list[i]]++;
    for (unsigned m = 0; m < PLACES; m++)
        if (met[m] != wanted[m])
            return 0;
    return 1;
}
