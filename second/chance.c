/* Chance by splitmix64. */
#include "chance.h"

static uint64_t state;

void chance_seed(uint64_t seed)
{
    state = seed;
}

static uint64_t draw(void)
{
    uint64_t z = state += UINT64_C(0x9E3779B97F4A7C15);

    z = (z ^ (z >> 30)) * UINT64_C(0xBF58476D1CE4E5B9);
    z = (z ^ (z >> 27)) * UINT64_C(0x94D049BB133111EB);
    return z ^ (z >> 31);
}

unsigned below(unsigned limit)
{
    return (unsigned)(((draw() >> 32) * limit) >> 32);
}

int percent(unsigned odds)
{
    return below(100) < odds;
}
