/* Chance that is the same on every machine. Draws stand in statements of their own, since
   C leaves the order of evaluation within an expression open. */
#ifndef CHANCE_H
#define CHANCE_H

#include <stdint.h>

void chance_seed(uint64_t seed);

/* A number from 0 up to, but not including, the limit. */
unsigned below(unsigned limit);

/* 1 in so many of a hundred cases. */
int percent(unsigned odds);

#endif
