/* Each call of the library beside the same call of the second program, on the same inputs and on
 * equal copies of the lent memory. The first disagreement is printed and ends the program. */
#ifndef SECOND_COMPARE_H
#define SECOND_COMPARE_H

#include "damage.h"

/* What the calls of one case are made on. */
struct inputs {
    const char *stage;
    uint64_t seed;
    struct bytes trace;
    struct bytes plan;
    uint8_t flags[MOST_REQUESTS];
    size_t flag_count;
    uint32_t rents[MOST_REQUESTS];
    size_t rent_count;
    size_t buffer_len;
    int least_known;
    uint64_t least;
};

extern struct inputs in;

enum { REFUSAL_NUMBERS = 22 };

struct tally {
    uint64_t calls;
    uint64_t accepted; /* by the judge */
    uint64_t seen[REFUSAL_NUMBERS]; /* how often each refusal was given; 0: the work was done */
};

extern struct tally tally;

_Noreturn void disagree(const char *what, uint64_t want, uint64_t got);

/* Ends the program unless the two are equal. */
void expect(const char *what, uint64_t want, uint64_t got);

/* These answer what both programs answered. */
uint64_t compare_section(void);
uint64_t compare_audit(void);
uint64_t compare_judge(void);
uint64_t compare_floor(int64_t *floor);
uint64_t compare_ratio(uint64_t least, uint64_t measured);

/* A plan that was written is left in in.plan. */
uint64_t compare_write(void);
uint64_t compare_solve(void);

/* Sets the lists to a plan's flags and rents. */
void set_lists(const uint8_t *flags, const uint32_t *rents, size_t count);
/* Sets the lists to the flags and rents within in.plan, of so many requests. */
void lists_from_plan(uint32_t count);

#endif
