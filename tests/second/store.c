/* Writes small random traces with their least costs, found by brute force, to standard output: for
 * each its length in two bytes, the trace's bytes, and the least cost in four.
 *
 *     store SEED COUNT */
#include "brute.h"
#include "clib.h"
#include "rows.h"
#include "traces.h"

enum { STORE_STAGE = 5, MOST_SMALL = 12, LENGTH_BYTES = 2, COST_BYTES = 4 };

static struct trace trace;
static uint8_t record[LENGTH_BYTES + TRACE_HEAD + RECORD * MOST_SMALL + COST_BYTES];

/* One in sixteen is any small one, the empty trace among them. */
static void make_trace(struct dice *dice)
{
    int any = once_in(dice, 16);
    uint32_t count = any ? below(dice, MOST_SMALL + 1) : between(dice, 4, 9);
    random_trace(dice, count, any ? MOST_BRUTE_ITEMS : 4, &trace);
}

/* What keeping nothing costs. */
static uint64_t missed(void)
{
    uint64_t sum = 0;
    for (uint32_t t = 1; t <= trace.count; t++) {
        sum += trace.at[t].kind == READ ? trace.at[t].cost : 0;
    }
    return sum;
}

static int store_trace(uint64_t least)
{
    size_t len = put_trace(record + LENGTH_BYTES, &trace);
    put(record, LENGTH_BYTES, len);
    put(record + LENGTH_BYTES + len, COST_BYTES, least);
    len += LENGTH_BYTES + COST_BYTES;
    return write(1, record, len) == (long)len;
}

/* A trace for which nothing is worth keeping says little: most of these are left out. */
int main(int words, char **word)
{
    if (words != 3) {
        return 2;
    }
    uint64_t seed = strtoul(word[1], NULL, 10), count = strtoul(word[2], NULL, 10);
    for (uint64_t i = 0, stored = 0; stored < count; i++) {
        struct dice dice = dice_from(case_seed(seed, STORE_STAGE, i));
        make_trace(&dice);
        uint64_t least = brute_least(&trace);
        if (least == missed() && !once_in(&dice, 16)) {
            continue;
        }
        if (!store_trace(least)) {
            return 1;
        }
        stored++;
    }
    return 0;
}
