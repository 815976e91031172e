/* A set of items is a number: bit `who` is 1 when that item is held. */
#include "brute.h"

enum { SETS = 1 << MOST_BRUTE_ITEMS };

static const uint64_t never = (uint64_t)1 << 60;

static uint32_t size_of_set(uint32_t set)
{
    uint32_t size = 0;
    for (; set != 0; set &= set - 1) {
        size++;
    }
    return size;
}

static int is_allowed(const struct trace *trace, const struct request *request, uint32_t before,
                      uint32_t after)
{
    uint32_t within = request->kind == READ ? before | 1u << request->who : before;
    return (after & ~within) == 0 && size_of_set(after) <= trace->slots;
}

static uint64_t charged(const struct trace *trace, const struct request *request, uint32_t before,
                        uint32_t after)
{
    return charge(trace->fill, request, before >> request->who & 1, after >> request->who & 1).total;
}

/* From the least cost of each set before the request to that of the set after it. */
static uint64_t least_into(const struct trace *trace, const struct request *request,
                           const uint64_t *least, uint32_t after)
{
    uint64_t best = never;
    for (uint32_t before = 0; before < 1u << trace->items; before++) {
        if (least[before] == never || !is_allowed(trace, request, before, after)) {
            continue;
        }
        uint64_t cost = least[before] + charged(trace, request, before, after);
        best = cost < best ? cost : best;
    }
    return best;
}

uint64_t brute_least(const struct trace *trace)
{
    uint64_t least[SETS], next[SETS], best = never;
    uint32_t sets = 1u << trace->items;
    for (uint32_t set = 0; set < sets; set++) {
        least[set] = set == 0 ? 0 : never;
    }
    for (uint32_t t = 1; t <= trace->count; t++) {
        for (uint32_t after = 0; after < sets; after++) {
            next[after] = least_into(trace, &trace->at[t], least, after);
        }
        for (uint32_t set = 0; set < sets; set++) {
            least[set] = next[set];
        }
    }
    for (uint32_t set = 0; set < sets; set++) {
        best = least[set] < best ? least[set] : best;
    }
    return best;
}
