#include "calls.h"
#include "clib.h"
#include "flow.h"
#include "rows.h"

static const uint64_t most_total = 2048000000;

/* What the calls read their inputs into; each call reads anew. */
static struct trace trace_read;
static struct plan plan_read;

/* Rows 1 to 12. */
static uint64_t read_both(const uint8_t *trace, size_t trace_len, const uint8_t *plan,
                          size_t plan_len)
{
    uint64_t refused = read_trace(trace, trace_len, &trace_read);
    return refused != 0 ? refused : read_plan(&trace_read, plan, plan_len, &plan_read);
}

/* Rows 1 to 17. */
static uint64_t audit_rows(const uint8_t *trace, size_t trace_len, const uint8_t *plan,
                           size_t plan_len, struct charges *charges)
{
    uint64_t refused = read_both(trace, trace_len, plan, plan_len);
    if (refused != 0) {
        return refused;
    }
    refused = flags_refusal(&trace_read, plan_read.flags);
    if (refused != 0) {
        return refused;
    }
    *charges = replay(&trace_read, plan_read.flags);
    if (plan_read.cost != charges->total) {
        return refusal(16, 0);
    }
    return rents_refusal(&trace_read, plan_read.rents);
}

uint64_t second_audit(const uint8_t *trace, size_t trace_len, const uint8_t *plan, size_t plan_len,
                      uint64_t totals[4])
{
    struct charges charges;
    uint64_t refused = audit_rows(trace, trace_len, plan, plan_len, &charges);
    if (refused == 0) {
        totals[0] = charges.total;
        totals[1] = charges.read_misses;
        totals[2] = charges.fills;
        totals[3] = charges.write_hits;
    }
    return refused;
}

uint64_t second_judge(const uint8_t *trace, size_t trace_len, const uint8_t *plan, size_t plan_len,
                      uint64_t *cost)
{
    struct charges charges;
    uint64_t refused = audit_rows(trace, trace_len, plan, plan_len, &charges);
    if (refused != 0) {
        return refused;
    }
    if (floor_of(&trace_read, plan_read.rents) != (int64_t)charges.total) {
        return refusal(18, 0);
    }
    *cost = charges.total;
    return 0;
}

uint64_t second_floor(const uint8_t *trace, size_t trace_len, const uint32_t *rents,
                      size_t rent_count, int64_t *floor)
{
    uint64_t refused = read_trace(trace, trace_len, &trace_read);
    if (refused != 0) {
        return refused;
    }
    if (rent_count != trace_read.count) {
        return refusal(11, 0);
    }
    for (uint32_t g = 1; g <= rent_count; g++) {
        plan_read.rents[g] = rents[g - 1];
    }
    refused = rents_refusal(&trace_read, plan_read.rents);
    if (refused == 0) {
        *floor = floor_of(&trace_read, plan_read.rents);
    }
    return refused;
}

/* Rows 13 to 15, 17 and 19, on lists of the right length. */
static uint64_t lists_refusal(const uint8_t *flags, const uint32_t *rents, size_t buffer_len)
{
    for (uint32_t t = 1; t <= trace_read.count; t++) {
        plan_read.flags[t] = flags[t - 1];
        plan_read.rents[t] = rents[t - 1];
    }
    uint64_t refused = flags_refusal(&trace_read, plan_read.flags);
    if (refused == 0) {
        refused = rents_refusal(&trace_read, plan_read.rents);
    }
    if (refused == 0 && buffer_len < plan_length(trace_read.count)) {
        refused = refusal(19, 0);
    }
    return refused;
}

uint64_t second_write(const uint8_t *trace, size_t trace_len, const uint8_t *flags,
                      size_t flag_count, const uint32_t *rents, size_t rent_count, uint8_t *buffer,
                      size_t buffer_len, uint64_t *cost)
{
    uint64_t refused = read_trace(trace, trace_len, &trace_read);
    if (refused != 0) {
        return refused;
    }
    if (flag_count != trace_read.count || rent_count != trace_read.count) {
        return refusal(11, 0);
    }
    refused = lists_refusal(flags, rents, buffer_len);
    if (refused == 0) {
        plan_read.cost = replay(&trace_read, plan_read.flags).total;
        put_plan(buffer, &trace_read, &plan_read);
        *cost = plan_read.cost;
    }
    return refused;
}

uint64_t second_solve(const uint8_t *trace, size_t trace_len, uint8_t *buffer, size_t buffer_len,
                      uint64_t *cost)
{
    uint64_t refused = read_trace(trace, trace_len, &trace_read);
    if (refused != 0) {
        return refused;
    }
    if (buffer_len < plan_length(trace_read.count)) {
        return refusal(19, 0);
    }
    plan_read.cost = flow_least(&trace_read, plan_read.flags, plan_read.rents);
    put_plan(buffer, &trace_read, &plan_read);
    *cost = plan_read.cost;
    return 0;
}

uint64_t second_section(const uint8_t *trace, size_t trace_len, const uint8_t *plan,
                        size_t plan_len)
{
    return read_both(trace, trace_len, plan, plan_len);
}

uint64_t second_ratio(uint64_t least, uint64_t measured, uint8_t *kind, double *ratio)
{
    if (least > most_total || measured > most_total) {
        return refusal(20, 0);
    }
    if (measured < least) {
        return refusal(21, 0);
    }
    if (least == 0) {
        *kind = measured == 0 ? 0 : 1;
        return 0;
    }
    *kind = 2;
    *ratio = (double)measured / (double)least;
    return 0;
}
