/* The rows of the refusal table, over the bytes of traces and plans. A refusal is its number +
 * 256 * its place; 0 is none. */
#ifndef SECOND_ROWS_H
#define SECOND_ROWS_H

#include "model.h"

struct plan {
    uint64_t cost;
    uint8_t flags[MOST_REQUESTS + 1];
    uint32_t rents[MOST_REQUESTS + 1];
};

uint64_t refusal(uint64_t number, uint64_t place);

/* A number of so many bytes, least byte first. */
uint64_t get(const uint8_t *bytes, size_t width);
void put(uint8_t *bytes, size_t width, uint64_t value);

/* Rows 1 to 8; a sound trace is read. */
uint64_t read_trace(const uint8_t *bytes, size_t len, struct trace *trace);

/* Rows 9 to 12, against a sound trace; a plan with none of them is read. */
uint64_t read_plan(const struct trace *trace, const uint8_t *bytes, size_t len, struct plan *plan);

/* Rows 13 to 15. */
uint64_t flags_refusal(const struct trace *trace, const uint8_t *flags);

/* Row 17. */
uint64_t rents_refusal(const struct trace *trace, const uint32_t *rents);

size_t trace_length(uint32_t count);
size_t plan_length(uint32_t count);

/* The file of a trace or a plan; answers its length. */
size_t put_trace(uint8_t *bytes, const struct trace *trace);
size_t put_plan(uint8_t *bytes, const struct trace *trace, const struct plan *plan);

#endif
