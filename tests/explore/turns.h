/* What a scenario asks of the table of turns. */
#ifndef TURNS_H
#define TURNS_H
#include <stdint.h>

/* Of the places of a store none is taken, or other stores have all. */
void set_turns_of(uint64_t number, int are_taken);

/* Whether the first places of two stores are one. */
int share_a_turn(uint64_t one, uint64_t other);

/* How many turns a store has. */
int turns_of(uint64_t number);

/* The sum of what is counted at all turns. */
uint64_t counts_of_turns(void);
#endif
