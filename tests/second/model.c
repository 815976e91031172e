#include "model.h"

struct charges charge(uint32_t fill, const struct request *request, int before, int after)
{
    struct charges none = {0, 0, 0, 0};
    if (request->kind == READ && !before) {
        return (struct charges){request->cost + (after ? fill : 0), 1, after ? 1 : 0, 0};
    }
    if (request->kind == WRITE && before) {
        return (struct charges){request->cost, 0, 0, 1};
    }
    return none;
}

/* The latest request before t for the same item, or 0. */
static uint32_t previous(const struct trace *trace, uint32_t t)
{
    uint32_t p = t - 1;
    while (p > 0 && trace->at[p].item != trace->at[t].item) {
        p--;
    }
    return p;
}

void link_requests(struct trace *trace)
{
    trace->items = 0;
    for (uint32_t t = 1; t <= trace->count; t++) {
        uint32_t p = previous(trace, t);
        trace->at[t].who = p > 0 ? trace->at[p].who : trace->items++;
        trace->at[t].next = 0;
        if (p > 0) {
            trace->at[p].next = t;
        }
    }
}

struct charges replay(const struct trace *trace, const uint8_t *flags)
{
    static uint8_t held[MOST_REQUESTS];
    struct charges sum = {0, 0, 0, 0};
    for (uint32_t i = 0; i < trace->items; i++) {
        held[i] = 0;
    }
    for (uint32_t t = 1; t <= trace->count; t++) {
        const struct request *request = &trace->at[t];
        struct charges one = charge(trace->fill, request, held[request->who], flags[t]);
        sum.total += one.total;
        sum.read_misses += one.read_misses;
        sum.fills += one.fills;
        sum.write_hits += one.write_hits;
        held[request->who] = flags[t];
    }
    return sum;
}

static int64_t lesser(int64_t a, int64_t b)
{
    return a < b ? a : b;
}

/* The least of one item's charges and rents over all its comings and goings. `out` and `in` are
 * the least so far with the item not held, and held, in the latest gap. */
static int64_t item_floor(const struct trace *trace, const uint32_t *rents, uint32_t who)
{
    const int64_t never = (int64_t)1 << 60;
    int64_t out = 0, in = never;
    for (uint32_t g = 1; g <= trace->count; g++) {
        const struct request *request = &trace->at[g];
        if (request->who != who) {
            out = lesser(out, in); /* the item may be dropped at any request */
            in += rents[g];
            continue;
        }
        int64_t charged[2][2];
        for (int before = 0; before < 2; before++) {
            for (int after = 0; after < 2; after++) {
                charged[before][after] = (int64_t)charge(trace->fill, request, before, after).total;
            }
        }
        int64_t brought = request->kind == READ ? out + charged[0][1] : never;
        int64_t stays = lesser(in + charged[1][1], brought);
        out = lesser(out + charged[0][0], in + charged[1][0]);
        in = stays + rents[g];
    }
    return lesser(out, in);
}

int64_t floor_of(const struct trace *trace, const uint32_t *rents)
{
    int64_t floor = 0;
    for (uint32_t who = 0; who < trace->items; who++) {
        floor += item_floor(trace, rents, who);
    }
    for (uint32_t g = 1; g <= trace->count; g++) {
        floor -= (int64_t)trace->slots * rents[g];
    }
    return floor;
}
