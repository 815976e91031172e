/* Solves a trace file, judges the plan and audits it.
 *
 *     scripts/libcapi
 *     cc -std=c11 -O2 -I include examples/solve.c target/staticlib/libcapi.a -o target/solve
 *     target/solve TRACE [PLAN]          PLAN: where to write the plan file
 *
 * The library is for x86-64. */
#include <stdio.h>

#include "glazepouch.h"

static int refused(const char *what, uint64_t answer)
{
    fprintf(stderr, "%s: refused %u at %u\n", what, GP_REFUSAL_NUMBER(answer),
            GP_REFUSAL_PLACE(answer));
    return 1;
}

/* Reads one byte more than the longest trace has, so that a longer file is refused as it should be. */
static int read_file(const char *name, uint8_t *bytes, size_t room, size_t *len)
{
    FILE *file = fopen(name, "rb");
    if (file == NULL) {
        perror(name);
        return 1;
    }
    *len = fread(bytes, 1, room, file);
    int failed = ferror(file);
    fclose(file);
    return failed;
}

static int write_file(const char *name, const uint8_t *bytes, size_t len)
{
    FILE *file = fopen(name, "wb");
    if (file == NULL) {
        perror(name);
        return 1;
    }
    int failed = fwrite(bytes, 1, len, file) != len;
    failed |= fclose(file) != 0;
    return failed;
}

static void print_ratio(uint64_t least, uint64_t measured)
{
    uint8_t kind;
    double ratio;
    if (gp_ratio(least, measured, &kind, &ratio) == 0 && kind == GP_RATIO) {
        printf("a cache that holds nothing costs %.3f times as much\n", ratio);
    }
}

int main(int words, char **word)
{
    static uint8_t trace[GP_LONGEST_TRACE + 1], plan[GP_LONGEST_PLAN], idle[GP_LONGEST_PLAN];
    static const uint8_t no_flags[1024];
    static const uint32_t no_rents[1024];
    size_t len;
    uint64_t least, judged, without, totals[4];
    if (words < 2 || words > 3 || read_file(word[1], trace, sizeof trace, &len) != 0) {
        fprintf(stderr, "usage: solve TRACE [PLAN]\n");
        return 2;
    }
    uint64_t answer = gp_solve(trace, len, plan, sizeof plan, &least);
    if (answer != 0) {
        return refused("solve", answer);
    }
    size_t n = (len - 12) / 8;
    if ((answer = gp_judge(trace, len, plan, GP_PLAN_LENGTH(n), &judged)) != 0) {
        return refused("judge", answer);
    }
    if ((answer = gp_audit(trace, len, plan, GP_PLAN_LENGTH(n), totals)) != 0) {
        return refused("audit", answer);
    }
    printf("least %llu, accepted with cost %llu\n", (unsigned long long)least,
           (unsigned long long)judged);
    printf("%llu read misses, %llu fills, %llu write hits\n", (unsigned long long)totals[1],
           (unsigned long long)totals[2], (unsigned long long)totals[3]);
    answer = gp_write(trace, len, no_flags, n, no_rents, n, idle, sizeof idle, &without);
    if (answer == 0) {
        print_ratio(least, without);
    }
    return words == 3 ? write_file(word[2], plan, GP_PLAN_LENGTH(n)) : 0;
}
