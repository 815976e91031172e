/* Glazepouch: the least cost of a request trace, and plans that prove it.
 *
 * All functions work on bytes that the caller lends; nothing is kept between calls, nothing is
 * allocated, and there is no lock to take. Link target/staticlib/libcapi.a (`scripts/libcapi`
 * builds it, x86-64 Linux).
 *
 * A trace file (numbers least byte first), 12 + 8n bytes:
 *     "CTR", version 1 in two bytes, slot count w in one, n in two, fill price F in four,
 *     then n records: item in two bytes, kind in one (0 read, 1 write), a zero byte, cost in four.
 * A plan file, 16 + 5n bytes:
 *     "CPL", version 1 in two bytes, a zero byte, n in two, cost in eight,
 *     n flag bytes from byte 16 on, n rents of four bytes from byte 16 + n on.
 * So once gp_section answers 0, the flags are plan[16 .. 16 + n) and the rents are
 * plan[16 + n .. 16 + 5n).
 *
 * Limits: n 0 to 1,024; w 0 to 64; each cost and F 0 to 1,000,000; a rent 0 to 2,000,000.
 *
 * Every function answers 0 when the work is done, else a refusal: its number + 256 * its place.
 * After a refusal everything lent holds what it held before.
 *
 *   No.  Given when                                              Place
 *    1   trace shorter than 12 bytes                             0
 *    2   trace mark or version wrong                             0
 *    3   w above 64                                              0
 *    4   n above 1,024                                           0
 *    5   F above 1,000,000                                       0
 *    6   trace length not 12 + 8n                                0
 *    7   kind not 0 or 1, or fourth record byte not 0            request
 *    8   cost above 1,000,000                                    request
 *    9   plan shorter than 16 bytes                              0
 *   10   plan mark, version or zero byte wrong                   0
 *   11   plan's n, or a list's length, not the trace's n         0
 *   12   plan length not 16 + 5n                                 0
 *   13   flag not 0 or 1                                         request
 *   14   flag 1 at an item's last request, or at a write of an
 *        item not held                                           request
 *   15   more than w items in a gap                              gap
 *   16   stated cost not the replayed cost                       0
 *   17   rent above 2,000,000                                    gap
 *   18   floor not equal to the cost                             0
 *   19   lent buffer shorter than 16 + 5n                        0
 *   20   least or measured above 2,048,000,000                   0
 *   21   measured below least                                    0
 *
 * Rows are tried from top to bottom, each over the whole input; 7 and 8 alone are tried record by
 * record. Requests and gaps count from 1.
 *
 * What the caller owes: each pointer reaches as many elements as the length beside it says; a null
 * pointer goes with length 0 alone; pointers to results are never null; memory that a call may
 * write overlaps nothing else that is lent to it.
 */
#ifndef GLAZEPOUCH_H
#define GLAZEPOUCH_H

#include <stddef.h>
#include <stdint.h>

#define GP_REFUSAL_NUMBER(answer) ((unsigned)((answer) % 256))
#define GP_REFUSAL_PLACE(answer) ((unsigned)((answer) / 256))

/* The length of a plan file for n requests. */
#define GP_PLAN_LENGTH(n) (16 + 5 * (size_t)(n))
/* Room for any plan file, and for any trace file. */
#define GP_LONGEST_PLAN GP_PLAN_LENGTH(1024)
#define GP_LONGEST_TRACE ((size_t)12 + 8 * 1024)

/* What gp_ratio writes to *kind. */
#define GP_NO_COST 0
#define GP_NO_RATIO 1
#define GP_RATIO 2

#ifdef __cplusplus
extern "C" {
#endif

/* Replays the plan. totals: total cost, read misses, fills, write hits. Refusals 1 to 17. */
uint64_t gp_audit(const uint8_t *trace, size_t trace_len, const uint8_t *plan, size_t plan_len,
                  uint64_t totals[4]);

/* The audit, and then whether the rents prove that no allowed contents cost less. An answer of 0
 * means: *cost is the trace's least cost. Refusals 1 to 18. */
uint64_t gp_judge(const uint8_t *trace, size_t trace_len, const uint8_t *plan, size_t plan_len,
                  uint64_t *cost);

/* The floor of a list of rents: never above the cost of any allowed contents, and maybe negative.
 * Refusals 1 to 8, 11, 17. */
uint64_t gp_floor(const uint8_t *trace, size_t trace_len, const uint32_t *rents, size_t rent_count,
                  int64_t *floor);

/* Writes the plan file of these flags and rents, 16 + 5n bytes from the buffer's start; the rest
 * of the buffer is kept. Refusals 1 to 8, 11, 13, 14, 15, 17, 19. */
uint64_t gp_write(const uint8_t *trace, size_t trace_len, const uint8_t *flags, size_t flag_count,
                  const uint32_t *rents, size_t rent_count, uint8_t *buffer, size_t buffer_len,
                  uint64_t *cost);

/* Finds a plan of least cost that gp_judge accepts, and writes it as gp_write does. Which of
 * several such plans is not fixed. Refusals 1 to 8, then 19. */
uint64_t gp_solve(const uint8_t *trace, size_t trace_len, uint8_t *buffer, size_t buffer_len,
                  uint64_t *cost);

/* Whether the flags and the rents can be taken from the plan's bytes. Refusals 1 to 12. */
uint64_t gp_section(const uint8_t *trace, size_t trace_len, const uint8_t *plan, size_t plan_len);

/* How many times the least cost a measured one is. *kind says which answer it is: both are 0
 * (GP_NO_COST), the least alone is 0 (GP_NO_RATIO), or *ratio is measured / least (GP_RATIO);
 * *ratio is written for the third alone. Refusals 20, 21. */
uint64_t gp_ratio(uint64_t least, uint64_t measured, uint8_t *kind, double *ratio);

#ifdef __cplusplus
}
#endif

#endif
