/* The library's calls, answered by the second program itself: this tries the comparing driver
 * before there is a library, and, with a MUTATION, that a wrong answer does not pass. */
#include "calls.h"
#include "clib.h"
#include "glazepouch.h"

#ifndef MUTATION
#define MUTATION 0
#endif

enum {
    SOUND,
    SOLVE_ADDS_ONE,
    SOLVE_NEVER_HOLDS,
    JUDGE_SKIPS_FLOOR,
    AUDIT_COUNTS_NO_FILL,
    FLOOR_OFF_BY_ONE,
    WRITE_PAST_PLAN,
    WRITE_ON_REFUSAL,
    PLACE_OFF_BY_ONE,
    COST_BEFORE_KIND,
    SECTION_SAYS_MORE,
    RATIO_UPSIDE_DOWN,
    RATIO_ALWAYS_WRITTEN
};

uint64_t gp_audit(const uint8_t *trace, size_t trace_len, const uint8_t *plan, size_t plan_len,
                  uint64_t totals[4])
{
    uint64_t answer = second_audit(trace, trace_len, plan, plan_len, totals);
    if (MUTATION == AUDIT_COUNTS_NO_FILL && answer == 0) {
        totals[2] = 0;
    }
    if (MUTATION == PLACE_OFF_BY_ONE && answer % 256 == 15) {
        answer += 256;
    }
    return answer;
}

uint64_t gp_judge(const uint8_t *trace, size_t trace_len, const uint8_t *plan, size_t plan_len,
                  uint64_t *cost)
{
    uint64_t totals[4], answer = second_judge(trace, trace_len, plan, plan_len, cost);
    if (MUTATION == JUDGE_SKIPS_FLOOR && answer == 18) {
        second_audit(trace, trace_len, plan, plan_len, totals);
        *cost = totals[0];
        return 0;
    }
    return answer;
}

uint64_t gp_floor(const uint8_t *trace, size_t trace_len, const uint32_t *rents, size_t rent_count,
                  int64_t *floor)
{
    uint64_t answer = second_floor(trace, trace_len, rents, rent_count, floor);
    if (MUTATION == FLOOR_OFF_BY_ONE && answer == 0) {
        *floor -= 1;
    }
    return answer;
}

uint64_t gp_write(const uint8_t *trace, size_t trace_len, const uint8_t *flags, size_t flag_count,
                  const uint32_t *rents, size_t rent_count, uint8_t *buffer, size_t buffer_len,
                  uint64_t *cost)
{
    uint64_t answer = second_write(trace, trace_len, flags, flag_count, rents, rent_count, buffer,
                                   buffer_len, cost);
    if (MUTATION == WRITE_PAST_PLAN && answer == 0 && buffer_len > GP_PLAN_LENGTH(flag_count)) {
        buffer[GP_PLAN_LENGTH(flag_count)] ^= 1;
    }
    if (MUTATION == WRITE_ON_REFUSAL && answer != 0 && buffer_len > 0) {
        buffer[0] ^= 1;
    }
    return answer;
}

uint64_t gp_solve(const uint8_t *trace, size_t trace_len, uint8_t *buffer, size_t buffer_len,
                  uint64_t *cost)
{
    static const uint8_t flags[1024];
    static const uint32_t rents[1024];
    uint64_t answer = second_solve(trace, trace_len, buffer, buffer_len, cost);
    if (MUTATION == SOLVE_ADDS_ONE && answer == 0) {
        *cost += 1;
    }
    if (MUTATION == SOLVE_NEVER_HOLDS && answer == 0) {
        size_t n = (trace_len - 12) / 8;
        return second_write(trace, trace_len, flags, n, rents, n, buffer, buffer_len, cost);
    }
    if (MUTATION == COST_BEFORE_KIND && answer % 256 == 7) {
        return answer + 1;
    }
    return answer;
}

uint64_t gp_section(const uint8_t *trace, size_t trace_len, const uint8_t *plan, size_t plan_len)
{
    uint64_t totals[4];
    if (MUTATION == SECTION_SAYS_MORE) {
        return second_audit(trace, trace_len, plan, plan_len, totals);
    }
    return second_section(trace, trace_len, plan, plan_len);
}

uint64_t gp_ratio(uint64_t least, uint64_t measured, uint8_t *kind, double *ratio)
{
    uint64_t answer = second_ratio(least, measured, kind, ratio);
    if (MUTATION == RATIO_UPSIDE_DOWN && answer == 0 && *kind == GP_RATIO) {
        *ratio = (double)least / (double)measured;
    }
    if (MUTATION == RATIO_ALWAYS_WRITTEN && answer == 0 && *kind != GP_RATIO) {
        *ratio = 0;
    }
    return answer;
}
