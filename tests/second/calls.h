/* What each call of glazepouch.h must answer and write, worked out a second time from document 01.
 * Parameters and answers are as there. */
#ifndef SECOND_CALLS_H
#define SECOND_CALLS_H

#include <stddef.h>
#include <stdint.h>

uint64_t second_audit(const uint8_t *trace, size_t trace_len, const uint8_t *plan, size_t plan_len,
                      uint64_t totals[4]);
uint64_t second_judge(const uint8_t *trace, size_t trace_len, const uint8_t *plan, size_t plan_len,
                      uint64_t *cost);
uint64_t second_floor(const uint8_t *trace, size_t trace_len, const uint32_t *rents,
                      size_t rent_count, int64_t *floor);
uint64_t second_write(const uint8_t *trace, size_t trace_len, const uint8_t *flags,
                      size_t flag_count, const uint32_t *rents, size_t rent_count, uint8_t *buffer,
                      size_t buffer_len, uint64_t *cost);
/* Writes one of the plans that solve may write. */
uint64_t second_solve(const uint8_t *trace, size_t trace_len, uint8_t *buffer, size_t buffer_len,
                      uint64_t *cost);
uint64_t second_section(const uint8_t *trace, size_t trace_len, const uint8_t *plan,
                        size_t plan_len);
uint64_t second_ratio(uint64_t least, uint64_t measured, uint8_t *kind, double *ratio);

#endif
