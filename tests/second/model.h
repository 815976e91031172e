/* Document 01's model in memory: a sound trace, the table of charges, and a plan's lists.
 * Requests and gaps count from 1, as in the document; element 0 of each list is unused. */
#ifndef SECOND_MODEL_H
#define SECOND_MODEL_H

#include <stddef.h>
#include <stdint.h>

enum {
    MOST_REQUESTS = 1024,
    MOST_SLOTS = 64,
    MOST_COST = 1000000,
    MOST_RENT = 2000000,
    TRACE_HEAD = 12,
    RECORD = 8,
    PLAN_HEAD = 16,
    LONGEST_PLAN = PLAN_HEAD + 5 * MOST_REQUESTS
};

enum kind { READ = 0, WRITE = 1 };

struct request {
    uint32_t item;
    uint32_t kind;
    uint32_t cost;
    uint32_t who;  /* the item's number among the items of the trace, from 0 */
    uint32_t next; /* the item's next request, or 0 */
};

struct trace {
    uint32_t slots;
    uint32_t count; /* n */
    uint32_t fill;  /* F */
    uint32_t items; /* how many different items the trace has */
    struct request at[MOST_REQUESTS + 1];
};

/* What is charged: the total, and how often each charged row of the table was met. */
struct charges {
    uint64_t total;
    uint64_t read_misses;
    uint64_t fills;
    uint64_t write_hits;
};

/* One row of the table: what a request charges when its item is or is not held before and after. */
struct charges charge(uint32_t fill, const struct request *request, int before, int after);

/* Works out who and next from the items. */
void link_requests(struct trace *trace);

/* The charges of the contents that the flags name; the flags have none of refusals 13 to 15. */
struct charges replay(const struct trace *trace, const uint8_t *flags);

/* The floor of the rents, by its definition. */
int64_t floor_of(const struct trace *trace, const uint32_t *rents);

#endif
