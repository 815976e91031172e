/* Random traces, flags and rents, of many styles: ties, extreme values, many writes. */
#ifndef SECOND_TRACES_H
#define SECOND_TRACES_H

#include "dice.h"
#include "model.h"

/* A trace of so many requests over at most so many items; the slots are any from 0 to 64, few of
 * them more often. */
void random_trace(struct dice *dice, uint32_t count, uint32_t most_items, struct trace *trace);

/* A trace whose least plan has a use for nearly every slot, and most slots there are: many items
 * that are read often, fills far cheaper than misses. */
void crowded_trace(struct dice *dice, uint32_t count, struct trace *trace);

/* Flags without refusals 13 and 14, and mostly without 15. */
void random_flags(struct dice *dice, const struct trace *trace, uint8_t *flags);

/* Rents without refusal 17. */
void random_rents(struct dice *dice, const struct trace *trace, uint32_t *rents);

#endif
