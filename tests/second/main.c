/* The second program: it works out what document 01 asks for by ways of its own, and compares the
 * library with that on random inputs.
 *
 *     compare                 seed 1, count 100,000
 *     compare SEED COUNT      COUNT small traces, COUNT / 100 of middle size, COUNT / 1,000 of 1,024
 *                             requests, 10 * COUNT cases of damaged bytes, COUNT ratios
 *     compare STAGE CASE      one case again, by the stage and the seed that a disagreement printed
 *
 * Exit status 0 only if all agree. */
#include "brute.h"
#include "clib.h"
#include "compare.h"
#include "flow.h"
#include "traces.h"
#include "vectors.h"

static struct trace trace;
static struct plan plan;
static uint64_t damaged_traces, damaged_plans, damaged_lists, brute_agreed;

/* ---- plans of one trace */

static void set_plan(void)
{
    in.plan.len = put_plan(in.plan.at, &trace, &plan);
    set_lists(plan.flags + 1, plan.rents + 1, trace.count);
}

/* Solve's plan is judged, audited, taken apart and written again. */
static void solve_and_read_back(void)
{
    static struct bytes solved;
    int64_t floor;
    expect("solve", 0, compare_solve());
    solved = in.plan;
    expect("section of solve's plan", 0, compare_section());
    expect("audit of solve's plan", 0, compare_audit());
    expect("verdict on solve's plan", 0, compare_judge());
    lists_from_plan(trace.count);
    expect("write of solve's lists", 0, compare_write());
    expect("bytes read back", 0, (uint64_t)(memcmp(solved.at, in.plan.at, solved.len) != 0));
    expect("floor of solve's rents", 0, compare_floor(&floor));
    expect("floor of solve's rents", in.least, (uint64_t)floor);
}

static void compare_plan(void)
{
    compare_section();
    compare_audit();
    compare_judge();
}

static void judge_damaged(struct dice *dice)
{
    for (uint32_t damage = between(dice, 1, 2); damage > 0; damage--) {
        damage_plan(dice, &in.plan);
    }
    damaged_plans++;
    compare_plan();
}

/* Any flags and rents, with their right cost. */
static void write_other_plan(struct dice *dice)
{
    int64_t floor;
    random_flags(dice, &trace, plan.flags);
    if (!once_in(dice, 3)) {
        random_rents(dice, &trace, plan.rents);
    }
    set_lists(plan.flags + 1, plan.rents + 1, trace.count);
    compare_floor(&floor);
    if (compare_write() == 0) {
        compare_plan();
    }
}

/* Least flags beside rents that are others in some gaps: now and then they prove it too. */
static void judge_other_rents(struct dice *dice)
{
    static uint32_t others[MOST_REQUESTS + 1];
    random_rents(dice, &trace, others);
    for (uint32_t g = 1; g <= trace.count; g++) {
        plan.rents[g] = once_in(dice, 3) ? others[g] : plan.rents[g];
    }
    set_plan();
    compare_judge();
}

/* All comparisons on a sound trace; in.least is known. */
static void compare_trace(struct dice *dice)
{
    in.trace.len = put_trace(in.trace.at, &trace);
    in.least_known = 1;
    in.buffer_len = plan_length(trace.count) + below(dice, 24);
    solve_and_read_back();
    judge_damaged(dice);
    write_other_plan(dice);
    flow_least(&trace, plan.flags, plan.rents);
    plan.cost = in.least;
    set_plan();
    expect("verdict on the second program's plan", 0, compare_judge());
    judge_damaged(dice);
    judge_other_rents(dice);
}

/* ---- stages: each makes one case from its dice */

static void small_case(struct dice *dice)
{
    int many = once_in(dice, 16);
    random_trace(dice, below(dice, many ? 13 : 9), many ? MOST_BRUTE_ITEMS : 4, &trace);
    in.least = brute_least(&trace);
    in.trace.len = put_trace(in.trace.at, &trace);
    expect("brute force and flow", in.least, flow_least(&trace, plan.flags, plan.rents));
    brute_agreed++;
    compare_trace(dice);
}

static void sized_case(struct dice *dice, uint32_t count)
{
    static const uint32_t most_items[] = {3, 12, 40, 150, 1024};
    uint32_t most = most_items[below(dice, 5)];
    random_trace(dice, count, most < count ? most : count, &trace);
    if (once_in(dice, 4)) {
        trace.slots = MOST_SLOTS;
    }
    in.least = flow_least(&trace, plan.flags, plan.rents);
    compare_trace(dice);
}

static void middle_case(struct dice *dice)
{
    sized_case(dice, between(dice, 20, 200));
}

/* Half of the large traces press on all slots, which smaller ones and other styles seldom do. */
static void large_case(struct dice *dice)
{
    if (once_in(dice, 2)) {
        sized_case(dice, MOST_REQUESTS);
        return;
    }
    crowded_trace(dice, MOST_REQUESTS, &trace);
    in.least = flow_least(&trace, plan.flags, plan.rents);
    compare_trace(dice);
}

static void damage_inputs(struct dice *dice)
{
    uint32_t which = below(dice, 8);
    if (which < 5) {
        for (uint32_t damage = between(dice, 1, 3); damage > 0; damage--) {
            damage_trace(dice, &in.trace);
        }
        damaged_traces++;
    }
    if (which >= 3) {
        for (uint32_t damage = between(dice, 1, 3); damage > 0; damage--) {
            damage_plan(dice, &in.plan);
        }
        damaged_plans++;
    }
}

static void damage_lists(struct dice *dice)
{
    if (once_in(dice, 3)) {
        damage_flags(dice, in.flags, &in.flag_count);
        damaged_lists++;
    }
    if (once_in(dice, 3)) {
        damage_rents(dice, in.rents, &in.rent_count);
        damaged_lists++;
    }
}

static size_t random_buffer_len(struct dice *dice, uint32_t count)
{
    size_t right = plan_length(count);
    switch (below(dice, 4)) {
    case 0:
        return below(dice, (uint32_t)right);
    case 1:
        return right - 1 + below(dice, 3);
    default:
        return right + below(dice, 24);
    }
}

/* Damaged bytes: a sound trace and a plan for it, one of them or both spoilt. */
static void bytes_case(struct dice *dice)
{
    int64_t floor;
    int long_one = once_in(dice, 10000);
    random_trace(dice, long_one ? MOST_REQUESTS : below(dice, 7), 4, &trace);
    if (once_in(dice, 2)) {
        plan.cost = flow_least(&trace, plan.flags, plan.rents);
    } else {
        random_flags(dice, &trace, plan.flags);
        random_rents(dice, &trace, plan.rents);
        plan.cost = replay(&trace, plan.flags).total;
    }
    in.least_known = 0;
    in.trace.len = put_trace(in.trace.at, &trace);
    in.buffer_len = random_buffer_len(dice, trace.count);
    set_plan();
    damage_inputs(dice);
    damage_lists(dice);
    compare_plan();
    compare_floor(&floor);
    compare_write();
    compare_solve();
}

static uint64_t random_total(struct dice *dice)
{
    static const uint32_t near[] = {0, 1, 2, 44, 2047999999, 2048000000, 2048000001};
    switch (below(dice, 8)) {
    case 0:
        return roll(dice);
    case 1:
        return roll(dice) >> 32;
    case 2:
    case 3:
        return near[below(dice, 7)];
    default:
        return below(dice, 2048000001);
    }
}

static void ratio_case(struct dice *dice)
{
    uint64_t least = random_total(dice), measured = random_total(dice);
    if (!once_in(dice, 4) && measured < least) {
        uint64_t swap = least;
        least = measured;
        measured = swap;
    }
    in.trace.len = in.plan.len = in.flag_count = in.rent_count = 0;
    compare_ratio(least, measured);
}

/* ---- runs */

static const struct stage {
    const char *name;
    void (*run)(struct dice *dice);
} stages[] = {{"small", small_case},
              {"middle", middle_case},
              {"large", large_case},
              {"bytes", bytes_case},
              {"ratio", ratio_case}};

enum { STAGES = sizeof stages / sizeof stages[0] };

static void run_case(const struct stage *stage, uint64_t seed)
{
    struct dice dice = dice_from(seed);
    in.stage = stage->name;
    in.seed = seed;
    in.flag_count = in.rent_count = in.plan.len = in.trace.len = 0;
    stage->run(&dice);
}

static void print_tally(void)
{
    printf("%lu damaged traces, %lu damaged plans, %lu damaged lists\n",
           (unsigned long)damaged_traces, (unsigned long)damaged_plans,
           (unsigned long)damaged_lists);
    printf("%lu times the flow was held to brute force; %lu calls compared, %lu plans accepted\n",
           (unsigned long)brute_agreed, (unsigned long)tally.calls, (unsigned long)tally.accepted);
    printf("answers: %lu done; refusals", (unsigned long)tally.seen[0]);
    for (int number = 1; number < REFUSAL_NUMBERS; number++) {
        printf(" %d:%lu", number, (unsigned long)tally.seen[number]);
    }
    printf("\n");
}

/* A run that never met some refusal would have said nothing about it. */
static int met_every_refusal(void)
{
    for (int number = 1; number < REFUSAL_NUMBERS; number++) {
        if (tally.seen[number] == 0) {
            printf("refusal %d was never met\n", number);
            return 0;
        }
    }
    return 1;
}

static int run_all(uint64_t seed, uint64_t count)
{
    const uint64_t counts[STAGES] = {count, count / 100, count / 1000, 10 * count, count};
    uint64_t vectors = try_vectors();
    for (uint64_t s = 0; s < STAGES; s++) {
        for (uint64_t i = 0; i < counts[s]; i++) {
            run_case(&stages[s], case_seed(seed, s, i));
        }
    }
    print_tally();
    if (count >= 1000 && !met_every_refusal()) {
        return 1;
    }
    printf("second program: seed %lu: %lu vectors, %lu small, %lu middle and %lu large traces, "
           "%lu cases of damaged bytes, %lu ratios: all agree\n",
           (unsigned long)seed, (unsigned long)vectors, (unsigned long)counts[0],
           (unsigned long)counts[1], (unsigned long)counts[2], (unsigned long)counts[3],
           (unsigned long)counts[4]);
    return 0;
}

int main(int words, char **word)
{
    if (words != 1 && words != 3) {
        printf("usage: compare [SEED COUNT | STAGE CASE]\n");
        return 2;
    }
    if (words == 1) {
        return run_all(1, 100000);
    }
    for (int s = 0; s < STAGES; s++) {
        if (strcmp(stages[s].name, word[1]) == 0) {
            run_case(&stages[s], strtoul(word[2], NULL, 10));
            printf("this case agrees\n");
            return 0;
        }
    }
    return run_all(strtoul(word[1], NULL, 10), strtoul(word[2], NULL, 10));
}
