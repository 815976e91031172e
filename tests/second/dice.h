/* A small random generator: the same numbers from the same seed on every machine. */
#ifndef SECOND_DICE_H
#define SECOND_DICE_H

#include <stdint.h>

struct dice {
    uint64_t state;
};

/* A seed of its own for each case, so that one case can be run again without those before it. */
uint64_t case_seed(uint64_t seed, uint64_t stage, uint64_t index);

struct dice dice_from(uint64_t seed);
uint64_t roll(struct dice *dice);

/* A number from 0 to bound - 1; bound is at least 1. */
uint32_t below(struct dice *dice, uint32_t bound);

/* A number from low to high, both among them. */
uint32_t between(struct dice *dice, uint32_t low, uint32_t high);

/* True once in so many times. */
int once_in(struct dice *dice, uint32_t times);

#endif
