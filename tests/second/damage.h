/* Damage to files and lists: bytes changed, cut, put in, and fields set beside their limits. */
#ifndef SECOND_DAMAGE_H
#define SECOND_DAMAGE_H

#include "dice.h"
#include "rows.h"

/* Room for the longest trace, one request more than allowed, and some bytes. */
enum { MOST_BYTES = TRACE_HEAD + RECORD * (MOST_REQUESTS + 8) };

struct bytes {
    size_t len;
    uint8_t at[MOST_BYTES];
};

/* Each makes one damage, now and then one that leaves the file as it was. */
void damage_trace(struct dice *dice, struct bytes *trace);
void damage_plan(struct dice *dice, struct bytes *plan);
void damage_flags(struct dice *dice, uint8_t *flags, size_t *count);
void damage_rents(struct dice *dice, uint32_t *rents, size_t *count);

#endif
