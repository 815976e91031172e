#include "compare.h"
#include "calls.h"
#include "clib.h"
#include "glazepouch.h"

struct inputs in;
struct tally tally;

/* ---- disagreements */

static void print_hex(const char *name, const uint8_t *bytes, size_t len)
{
    printf("  %s, %lu bytes: ", name, (unsigned long)len);
    for (size_t i = 0; i < len; i++) {
        printf("%02X", bytes[i]);
    }
    printf("\n");
}

static void print_rents(void)
{
    printf("  rents, %lu:", (unsigned long)in.rent_count);
    for (size_t g = 0; g < in.rent_count; g++) {
        printf(" %u", in.rents[g]);
    }
    printf("\n");
}

_Noreturn void disagree(const char *what, uint64_t want, uint64_t got)
{
    printf("DISAGREE %s: the second program has %lu, the library %lu\n", what, (unsigned long)want,
           (unsigned long)got);
    printf("  as a refusal: %lu at %lu, and %lu at %lu\n", (unsigned long)(want % 256),
           (unsigned long)(want / 256), (unsigned long)(got % 256), (unsigned long)(got / 256));
    printf("  stage %s, seed of the case %lu, buffer of %lu bytes\n", in.stage,
           (unsigned long)in.seed, (unsigned long)in.buffer_len);
    print_hex("trace", in.trace.at, in.trace.len);
    print_hex("plan", in.plan.at, in.plan.len);
    print_hex("flags", in.flags, in.flag_count);
    print_rents();
    exit(1);
}

void expect(const char *what, uint64_t want, uint64_t got)
{
    if (want != got) {
        disagree(what, want, got);
    }
}

static void expect_same(const char *what, const void *want, const void *got, size_t len)
{
    const uint8_t *a = want, *b = got;
    if (memcmp(a, b, len) == 0) {
        return;
    }
    size_t place = 0;
    while (a[place] == b[place]) {
        place++;
    }
    printf("DISAGREE at byte %lu of the lent memory with what stands around it\n",
           (unsigned long)place);
    disagree(what, a[place], b[place]);
}

/* ---- inputs: a call reads them and must leave them as they are */

static struct inputs kept;

static void keep_inputs(void)
{
    memcpy(kept.trace.at, in.trace.at, in.trace.len);
    memcpy(kept.plan.at, in.plan.at, in.plan.len);
    memcpy(kept.flags, in.flags, in.flag_count);
    memcpy(kept.rents, in.rents, sizeof in.rents[0] * in.rent_count);
}

static void expect_inputs(void)
{
    expect_same("trace after a call", kept.trace.at, in.trace.at, in.trace.len);
    expect_same("plan after a call", kept.plan.at, in.plan.at, in.plan.len);
    expect_same("flags after a call", kept.flags, in.flags, in.flag_count);
    expect_same("rents after a call", kept.rents, in.rents, sizeof in.rents[0] * in.rent_count);
}

static void expect_answer(const char *call, uint64_t want, uint64_t got)
{
    expect(call, want, got);
    expect_inputs();
    tally.calls++;
    tally.seen[want % 256]++;
}

/* ---- results: a few words, with one before and some after them that no call may touch */

struct results {
    uint64_t before;
    uint64_t word[4];
    uint64_t after;
};

static struct results fresh_results(void)
{
    struct results results;
    memset(&results, 0xA5, sizeof results);
    return results;
}

static void expect_results(const char *call, uint64_t answer, const struct results *want,
                           const struct results *got)
{
    struct results fresh = fresh_results();
    expect_same(call, answer == 0 ? want : &fresh, got, sizeof *got);
}

/* ---- lent buffers, with bytes before and after them that no call may touch */

enum { GUARD = 32, MOST_LENT = LONGEST_PLAN + 64 };

static uint8_t lent_to_second[GUARD + MOST_LENT + GUARD];
static uint8_t lent_to_library[GUARD + MOST_LENT + GUARD];
static uint8_t untouched[GUARD + MOST_LENT + GUARD];

static size_t lent_len(void)
{
    return GUARD + in.buffer_len + GUARD;
}

static void lend(void)
{
    for (size_t i = 0; i < lent_len(); i++) {
        untouched[i] = (uint8_t)(37 * i + in.seed);
    }
    memcpy(lent_to_second, untouched, lent_len());
    memcpy(lent_to_library, untouched, lent_len());
}

static void keep_plan(void)
{
    in.plan.len = plan_length((uint32_t)(in.trace.len - TRACE_HEAD) / RECORD);
    memcpy(in.plan.at, lent_to_library + GUARD, in.plan.len);
}

/* ---- the calls */

uint64_t compare_section(void)
{
    keep_inputs();
    uint64_t want = second_section(in.trace.at, in.trace.len, in.plan.at, in.plan.len);
    expect_answer("section", want,
                  gp_section(in.trace.at, in.trace.len, in.plan.at, in.plan.len));
    return want;
}

uint64_t compare_audit(void)
{
    keep_inputs();
    struct results ours = fresh_results(), theirs = fresh_results();
    uint64_t want = second_audit(in.trace.at, in.trace.len, in.plan.at, in.plan.len, ours.word);
    uint64_t got = gp_audit(in.trace.at, in.trace.len, in.plan.at, in.plan.len, theirs.word);
    expect_answer("audit", want, got);
    expect_results("audit's totals", want, &ours, &theirs);
    return want;
}

uint64_t compare_judge(void)
{
    keep_inputs();
    struct results ours = fresh_results(), theirs = fresh_results();
    uint64_t want = second_judge(in.trace.at, in.trace.len, in.plan.at, in.plan.len, ours.word);
    uint64_t got = gp_judge(in.trace.at, in.trace.len, in.plan.at, in.plan.len, theirs.word);
    expect_answer("judge", want, got);
    expect_results("judge's cost", want, &ours, &theirs);
    if (want == 0 && in.least_known) {
        expect("accepted cost and least cost", in.least, theirs.word[0]);
    }
    tally.accepted += want == 0;
    return want;
}

uint64_t compare_floor(int64_t *floor)
{
    keep_inputs();
    struct results ours = fresh_results(), theirs = fresh_results();
    uint64_t want = second_floor(in.trace.at, in.trace.len, in.rents, in.rent_count,
                                 (int64_t *)ours.word);
    uint64_t got = gp_floor(in.trace.at, in.trace.len, in.rents, in.rent_count,
                            (int64_t *)theirs.word);
    expect_answer("floor", want, got);
    expect_results("floor's value", want, &ours, &theirs);
    *floor = (int64_t)theirs.word[0];
    if (want == 0 && in.least_known && *floor > (int64_t)in.least) {
        disagree("floor above the least cost", in.least, theirs.word[0]);
    }
    return want;
}

uint64_t compare_write(void)
{
    keep_inputs();
    struct results ours = fresh_results(), theirs = fresh_results();
    lend();
    uint64_t want = second_write(in.trace.at, in.trace.len, in.flags, in.flag_count, in.rents,
                                 in.rent_count, lent_to_second + GUARD, in.buffer_len, ours.word);
    uint64_t got = gp_write(in.trace.at, in.trace.len, in.flags, in.flag_count, in.rents,
                            in.rent_count, lent_to_library + GUARD, in.buffer_len, theirs.word);
    expect_answer("write", want, got);
    expect_results("write's cost", want, &ours, &theirs);
    expect_same("written bytes", want == 0 ? lent_to_second : untouched, lent_to_library,
                lent_len());
    if (want == 0) {
        keep_plan();
    }
    return want;
}

/* Solve may write any plan that the judge accepts, so the bytes go to the second program's judge,
 * and what stands around them is held to what stood there before. */
static void expect_solved(uint64_t cost)
{
    uint64_t judged = 0, n = (in.trace.len - TRACE_HEAD) / RECORD;
    size_t end = GUARD + plan_length((uint32_t)n);
    expect_same("bytes before solve's buffer", untouched, lent_to_library, GUARD);
    expect_same("bytes past solve's plan", untouched + end, lent_to_library + end,
                lent_len() - end);
    keep_plan();
    expect("verdict on solve's plan", 0,
           second_judge(in.trace.at, in.trace.len, in.plan.at, in.plan.len, &judged));
    expect("solve's plan and solve's cost", judged, cost);
}

uint64_t compare_solve(void)
{
    keep_inputs();
    struct results ours = fresh_results(), theirs = fresh_results();
    lend();
    uint64_t want = second_solve(in.trace.at, in.trace.len, lent_to_second + GUARD, in.buffer_len,
                                 ours.word);
    uint64_t got = gp_solve(in.trace.at, in.trace.len, lent_to_library + GUARD, in.buffer_len,
                            theirs.word);
    expect_answer("solve", want, got);
    expect_results("solve's cost", want, &ours, &theirs);
    if (want == 0) {
        expect_solved(theirs.word[0]);
    } else {
        expect_same("solve's buffer after a refusal", untouched, lent_to_library, lent_len());
    }
    if (want == 0 && in.least_known) {
        expect("solve's cost and least cost", in.least, theirs.word[0]);
    }
    return want;
}

uint64_t compare_ratio(uint64_t least, uint64_t measured)
{
    keep_inputs();
    struct ratio_results {
        uint8_t kind[8];
        double ratio[3];
    } ours, theirs;
    memset(&ours, 0xA5, sizeof ours);
    memset(&theirs, 0xA5, sizeof theirs);
    uint64_t want = second_ratio(least, measured, ours.kind + 3, ours.ratio + 1);
    expect_answer("ratio", want, gp_ratio(least, measured, theirs.kind + 3, theirs.ratio + 1));
    expect_same("ratio's answer", &ours, &theirs, sizeof ours);
    return want;
}

/* ---- lists */

void set_lists(const uint8_t *flags, const uint32_t *rents, size_t count)
{
    in.flag_count = in.rent_count = count;
    memcpy(in.flags, flags, count);
    memcpy(in.rents, rents, sizeof in.rents[0] * count);
}

void lists_from_plan(uint32_t count)
{
    in.flag_count = in.rent_count = count;
    for (uint32_t t = 0; t < count; t++) {
        in.flags[t] = in.plan.at[PLAN_HEAD + t];
        in.rents[t] = (uint32_t)get(in.plan.at + PLAN_HEAD + count + 4 * t, 4);
    }
}
