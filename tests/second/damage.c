#include "damage.h"

static void random_bytes(struct dice *dice, struct bytes *bytes, size_t from, size_t to)
{
    for (size_t i = from; i < to; i++) {
        bytes->at[i] = once_in(dice, 3) ? (uint8_t)below(dice, 3) : (uint8_t)roll(dice);
    }
    bytes->len = to;
}

static void lengthen(struct dice *dice, struct bytes *bytes)
{
    size_t to = bytes->len + between(dice, 1, 16);
    random_bytes(dice, bytes, bytes->len, to < MOST_BYTES ? to : MOST_BYTES);
}

static void take_out_byte(struct bytes *bytes, size_t place)
{
    bytes->len--;
    for (size_t i = place; i < bytes->len; i++) {
        bytes->at[i] = bytes->at[i + 1];
    }
}

/* Damage that asks nothing of what the bytes mean; there is at least one byte. */
static void damage_bytes(struct dice *dice, struct bytes *bytes)
{
    size_t place = below(dice, (uint32_t)bytes->len);
    switch (below(dice, 7)) {
    case 0:
        bytes->at[place] = (uint8_t)roll(dice);
        break;
    case 1:
        bytes->at[place] ^= (uint8_t)(1u << below(dice, 8));
        break;
    case 2:
        bytes->len = place;
        break;
    case 3:
        lengthen(dice, bytes);
        break;
    case 4:
        take_out_byte(bytes, place);
        break;
    case 5:
        random_bytes(dice, bytes, place, bytes->len);
        break;
    default:
        random_bytes(dice, bytes, 0, below(dice, 64));
        break;
    }
}

static uint32_t beside(struct dice *dice, uint32_t limit)
{
    return once_in(dice, 8) ? (uint32_t)roll(dice) : limit - 1 + below(dice, 3);
}

static void damage_record(struct dice *dice, uint8_t *record)
{
    switch (below(dice, 3)) {
    case 0:
        record[2] = (uint8_t)below(dice, 4);
        break;
    case 1:
        record[3] = (uint8_t)(1u << below(dice, 8));
        break;
    default:
        put(record + 4, 4, beside(dice, MOST_COST));
        break;
    }
}

/* The trace has a whole head. */
static void damage_trace_field(struct dice *dice, struct bytes *trace)
{
    uint32_t records = (uint32_t)(trace->len - TRACE_HEAD) / RECORD;
    uint32_t field = below(dice, records > 0 ? 8 : 4);
    if (field == 0) {
        trace->at[5] = (uint8_t)beside(dice, MOST_SLOTS);
    } else if (field == 1) {
        put(trace->at + 6, 2, once_in(dice, 2) ? beside(dice, MOST_REQUESTS) : beside(dice, records));
    } else if (field == 2) {
        put(trace->at + 8, 4, beside(dice, MOST_COST));
    } else if (field == 3) {
        trace->at[below(dice, 5)] ^= (uint8_t)(1u << below(dice, 8));
    } else {
        damage_record(dice, trace->at + TRACE_HEAD + RECORD * below(dice, records));
    }
}

/* The plan has a whole head and 5 bytes for each of at least one request. */
static void damage_plan_lists(struct dice *dice, struct bytes *plan, uint32_t count)
{
    uint8_t *flag = plan->at + PLAN_HEAD + below(dice, count);
    uint8_t *rent = plan->at + PLAN_HEAD + count + 4 * below(dice, count);
    switch (below(dice, 4)) {
    case 0:
        *flag ^= 1;
        break;
    case 1:
        *flag = (uint8_t)below(dice, 4);
        break;
    case 2:
        put(rent, 4, beside(dice, MOST_RENT));
        break;
    default:
        put(rent, 4, get(rent, 4) + below(dice, 3) - 1);
        break;
    }
}

/* The plan has a whole head. */
static void damage_plan_field(struct dice *dice, struct bytes *plan)
{
    uint32_t count = (uint32_t)(plan->len - PLAN_HEAD) / 5;
    uint32_t field = below(dice, count > 0 ? 8 : 4);
    if (field == 0) {
        plan->at[below(dice, 6)] ^= (uint8_t)(1u << below(dice, 8));
    } else if (field == 1) {
        put(plan->at + 6, 2, beside(dice, count));
    } else if (field == 2) {
        put(plan->at + 8, 8, get(plan->at + 8, 8) + below(dice, 3) - 1);
    } else if (field == 3) {
        plan->at[8 + below(dice, 8)] ^= (uint8_t)(1u << below(dice, 8));
    } else {
        damage_plan_lists(dice, plan, count);
    }
}

void damage_trace(struct dice *dice, struct bytes *trace)
{
    if (trace->len >= TRACE_HEAD && once_in(dice, 2)) {
        damage_trace_field(dice, trace);
    } else if (trace->len > 0) {
        damage_bytes(dice, trace);
    }
}

void damage_plan(struct dice *dice, struct bytes *plan)
{
    if (plan->len >= PLAN_HEAD && !once_in(dice, 3)) {
        damage_plan_field(dice, plan);
    } else if (plan->len > 0) {
        damage_bytes(dice, plan);
    }
}

/* One element fewer or one more; an added element keeps whatever stands there. */
static void damage_count(struct dice *dice, size_t *count)
{
    if (*count > 0 && once_in(dice, 2)) {
        *count -= 1;
    } else if (*count < MOST_REQUESTS) {
        *count += 1;
    }
}

void damage_flags(struct dice *dice, uint8_t *flags, size_t *count)
{
    if (*count == 0 || once_in(dice, 4)) {
        damage_count(dice, count);
    } else {
        flags[below(dice, (uint32_t)*count)] = (uint8_t)below(dice, 3);
    }
}

void damage_rents(struct dice *dice, uint32_t *rents, size_t *count)
{
    if (*count == 0 || once_in(dice, 4)) {
        damage_count(dice, count);
    } else {
        rents[below(dice, (uint32_t)*count)] = beside(dice, MOST_RENT);
    }
}
