#include "rows.h"
#include "clib.h"

uint64_t refusal(uint64_t number, uint64_t place)
{
    return number + 256 * place;
}

uint64_t get(const uint8_t *bytes, size_t width)
{
    uint64_t value = 0;
    while (width > 0) {
        value = 256 * value + bytes[--width];
    }
    return value;
}

void put(uint8_t *bytes, size_t width, uint64_t value)
{
    for (size_t i = 0; i < width; i++) {
        bytes[i] = (uint8_t)(value >> 8 * i);
    }
}

size_t trace_length(uint32_t count)
{
    return TRACE_HEAD + RECORD * (size_t)count;
}

size_t plan_length(uint32_t count)
{
    return PLAN_HEAD + 5 * (size_t)count;
}

/* Rows 1 to 6. */
static uint64_t trace_head_refusal(const uint8_t *bytes, size_t len)
{
    if (len < TRACE_HEAD) {
        return refusal(1, 0);
    }
    if (memcmp(bytes, "CTR\1\0", 5) != 0) {
        return refusal(2, 0);
    }
    if (bytes[5] > MOST_SLOTS) {
        return refusal(3, 0);
    }
    if (get(bytes + 6, 2) > MOST_REQUESTS) {
        return refusal(4, 0);
    }
    if (get(bytes + 8, 4) > MOST_COST) {
        return refusal(5, 0);
    }
    return len == trace_length((uint32_t)get(bytes + 6, 2)) ? 0 : refusal(6, 0);
}

/* Rows 7 and 8, record by record. */
static uint64_t records_refusal(const uint8_t *bytes, uint32_t count)
{
    for (uint32_t t = 1; t <= count; t++) {
        const uint8_t *record = bytes + TRACE_HEAD + RECORD * (t - 1);
        if (record[2] > WRITE || record[3] != 0) {
            return refusal(7, t);
        }
        if (get(record + 4, 4) > MOST_COST) {
            return refusal(8, t);
        }
    }
    return 0;
}

uint64_t read_trace(const uint8_t *bytes, size_t len, struct trace *trace)
{
    uint64_t refused = trace_head_refusal(bytes, len);
    if (refused == 0) {
        refused = records_refusal(bytes, (uint32_t)get(bytes + 6, 2));
    }
    if (refused != 0) {
        return refused;
    }
    trace->slots = bytes[5];
    trace->count = (uint32_t)get(bytes + 6, 2);
    trace->fill = (uint32_t)get(bytes + 8, 4);
    for (uint32_t t = 1; t <= trace->count; t++) {
        const uint8_t *record = bytes + TRACE_HEAD + RECORD * (t - 1);
        trace->at[t].item = (uint32_t)get(record, 2);
        trace->at[t].kind = record[2];
        trace->at[t].cost = (uint32_t)get(record + 4, 4);
    }
    link_requests(trace);
    return 0;
}

uint64_t read_plan(const struct trace *trace, const uint8_t *bytes, size_t len, struct plan *plan)
{
    if (len < PLAN_HEAD) {
        return refusal(9, 0);
    }
    if (memcmp(bytes, "CPL\1\0\0", 6) != 0) {
        return refusal(10, 0);
    }
    if (get(bytes + 6, 2) != trace->count) {
        return refusal(11, 0);
    }
    if (len != plan_length(trace->count)) {
        return refusal(12, 0);
    }
    plan->cost = get(bytes + 8, 8);
    for (uint32_t t = 1; t <= trace->count; t++) {
        plan->flags[t] = bytes[PLAN_HEAD + t - 1];
        plan->rents[t] = (uint32_t)get(bytes + PLAN_HEAD + trace->count + 4 * (t - 1), 4);
    }
    return 0;
}

/* Row 14: the contents are followed item by item, so that "not held" is read off them. */
static uint64_t naming_refusal(const struct trace *trace, const uint8_t *flags)
{
    static uint8_t held[MOST_REQUESTS];
    memset(held, 0, trace->items);
    for (uint32_t t = 1; t <= trace->count; t++) {
        const struct request *request = &trace->at[t];
        int write_not_held = request->kind == WRITE && !held[request->who];
        if (flags[t] == 1 && (request->next == 0 || write_not_held)) {
            return refusal(14, t);
        }
        held[request->who] = flags[t];
    }
    return 0;
}

/* Row 15: a kept item takes a slot in every gap from its request to the one before its next. */
static uint64_t slots_refusal(const struct trace *trace, const uint8_t *flags)
{
    static uint8_t held[MOST_REQUESTS];
    uint32_t in_gap = 0;
    memset(held, 0, trace->items);
    for (uint32_t g = 1; g <= trace->count; g++) {
        uint32_t who = trace->at[g].who;
        in_gap = in_gap - held[who] + flags[g];
        held[who] = flags[g];
        if (in_gap > trace->slots) {
            return refusal(15, g);
        }
    }
    return 0;
}

uint64_t flags_refusal(const struct trace *trace, const uint8_t *flags)
{
    for (uint32_t t = 1; t <= trace->count; t++) {
        if (flags[t] > 1) {
            return refusal(13, t);
        }
    }
    uint64_t refused = naming_refusal(trace, flags);
    return refused != 0 ? refused : slots_refusal(trace, flags);
}

uint64_t rents_refusal(const struct trace *trace, const uint32_t *rents)
{
    for (uint32_t g = 1; g <= trace->count; g++) {
        if (rents[g] > MOST_RENT) {
            return refusal(17, g);
        }
    }
    return 0;
}

size_t put_trace(uint8_t *bytes, const struct trace *trace)
{
    memcpy(bytes, "CTR\1\0", 5);
    put(bytes + 5, 1, trace->slots);
    put(bytes + 6, 2, trace->count);
    put(bytes + 8, 4, trace->fill);
    for (uint32_t t = 1; t <= trace->count; t++) {
        uint8_t *record = bytes + TRACE_HEAD + RECORD * (t - 1);
        put(record, 2, trace->at[t].item);
        put(record + 2, 2, trace->at[t].kind);
        put(record + 4, 4, trace->at[t].cost);
    }
    return trace_length(trace->count);
}

size_t put_plan(uint8_t *bytes, const struct trace *trace, const struct plan *plan)
{
    memcpy(bytes, "CPL\1\0\0", 6);
    put(bytes + 6, 2, trace->count);
    put(bytes + 8, 8, plan->cost);
    for (uint32_t t = 1; t <= trace->count; t++) {
        bytes[PLAN_HEAD + t - 1] = plan->flags[t];
        put(bytes + PLAN_HEAD + trace->count + 4 * (t - 1), 4, plan->rents[t]);
    }
    return plan_length(trace->count);
}
