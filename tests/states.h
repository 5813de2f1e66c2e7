/* States and tables as bytes, translated into the second program's struct and back, and damage to them. */
#ifndef STATES_H
#define STATES_H

#include "lent.h"

/* The second program's enums come first: the header's macros then stand over them, with the same numbers. */
#include "../second/log.h"
#include "qamhudeer.h"

/* Each byte has its place in the struct, so that nothing is lost on the way. */
void read_all(struct Arbiter *a, const uint8_t *state, const uint8_t *table);
void put_all(uint8_t *state, uint8_t *table, const struct Arbiter *a);
uint16_t key_at(const uint8_t *b);
void put_key(uint8_t *b, uint16_t key);

/* A display of QAMHUDEER_DISPLAY_SIZE bytes. */
void read_display(struct Display *d, const uint8_t *b);
void put_display(uint8_t *b, const struct Display *d);

/* A signed byte, as two's complement spells it. */
int8_t twos(uint8_t b);

/* Whether the bytes hold a state at all: its length, and marks that are marks. */
int decodes(const struct Bytes *state);

/* 1 if the second program calls it sound; then it is the struct a. */
int is_sound(const struct Bytes *state, const struct Bytes *table, struct Arbiter *a);

/* Random bytes. Half of the states have marks that are marks, so that they are states. */
void damage_all(struct Bytes *state, struct Bytes *table);

/* One damage to a state and a table of the right lengths, on a board of so many channels: mostly to what says something, and
   at times so that they stay sound. */
void damage_state(uint8_t *state, uint8_t *table, unsigned board);

/* Any numbers on a display, or another one. */
void damage_display(struct Bytes *display);

/* Another length of a table, or of a state. */
void damage_state_length(struct Bytes *state);
void damage_table_length(struct Bytes *table);

#endif
