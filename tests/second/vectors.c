#include "vectors.h"
#include "clib.h"
#include "compare.h"
#include "glazepouch.h"

static uint64_t tried;
static struct trace trace;

static void begin(const char *name)
{
    in.stage = name;
    in.least_known = 0;
    in.buffer_len = LONGEST_PLAN;
    tried++;
}

/* A trace of reads and writes of items named by letters; `costs` goes round. */
static void make_trace(const char *items, const char *kinds, const uint32_t *costs, uint32_t slots,
                       uint32_t fill)
{
    trace.slots = slots;
    trace.fill = fill;
    trace.count = 0;
    for (uint32_t t = 1; items[t - 1] != 0; t++) {
        trace.count = t;
        trace.at[t].item = (uint32_t)items[t - 1];
        trace.at[t].kind = kinds[t - 1] == 'w' ? WRITE : READ;
        trace.at[t].cost = costs[t - 1];
    }
    link_requests(&trace);
    in.trace.len = put_trace(in.trace.at, &trace);
}

static void make_lists(const char *flags, const uint32_t *rents)
{
    in.flag_count = in.rent_count = trace.count;
    for (uint32_t t = 0; t < trace.count; t++) {
        in.flags[t] = (uint8_t)(flags[t] - '0');
        in.rents[t] = rents[t];
    }
}

/* The plan is written, judged with this answer and, where accepted, found least by solve. */
static void try_row(const char *name, const char *flags, const uint32_t *rents, uint64_t judged,
                    uint64_t cost, int64_t floor)
{
    int64_t found;
    begin(name);
    make_lists(flags, rents);
    expect(name, 0, compare_write());
    expect(name, cost, get(in.plan.at + 8, 8));
    expect(name, judged, compare_judge());
    expect(name, 0, compare_audit());
    expect(name, 0, compare_floor(&found));
    expect(name, (uint64_t)floor, (uint64_t)found);
    if (judged == 0) {
        in.least_known = 1;
        in.least = cost;
        expect(name, 0, compare_solve());
    }
}

static void try_refused_row(const char *name, const char *flags, const uint32_t *rents,
                            uint64_t refused)
{
    begin(name);
    make_lists(flags, rents);
    expect(name, refused, compare_write());
}

static void trace_a(uint32_t slots, uint32_t fill)
{
    static const uint32_t costs[] = {10, 10, 10, 10, 10, 10};
    make_trace("abcaab", "rrrrrr", costs, slots, fill);
}

static void trace_b(uint32_t k)
{
    const uint32_t costs[] = {10, k, 10};
    make_trace("aaa", "rwr", costs, 1, 2);
}

static void try_table(void)
{
    static const uint32_t none[6], gap2[] = {0, 6, 0, 0, 0, 0}, gap5[] = {0, 0, 0, 0, 6, 0};
    static const uint32_t most[] = {MOST_RENT, MOST_RENT, MOST_RENT,
                                    MOST_RENT, MOST_RENT, MOST_RENT};
    trace_a(2, 4);
    try_row("A2", "110100", none, 0, 38, 38);
    try_refused_row("A2l", "110101", none, refusal(14, 6));
    trace_a(1, 4);
    try_row("A1", "100100", gap2, 0, 44, 44);
    try_row("A1z", "100100", none, refusal(18, 0), 44, 38);
    try_row("A1e", "100100", gap5, refusal(18, 0), 44, 38);
    try_refused_row("A1f", "110100", none, refusal(15, 2));
    trace_a(0, 4);
    try_row("A0", "000000", most, 0, 60, 60);
    trace_a(2, 10);
    try_row("T", "110100", none, 0, 50, 50);
    try_row("T", "100100", none, 0, 50, 50);
    trace_b(7);
    try_row("B7", "110", none, 0, 19, 19);
    trace_b(8);
    try_row("B8", "110", none, 0, 20, 20);
    try_row("B8", "000", none, 0, 20, 20);
    trace_b(9);
    try_row("B9", "000", none, 0, 20, 20);
    make_trace("", "", none, 0, 0);
    try_row("E", "", none, 0, 0, 0);
}

static void try_example(void)
{
    static const uint8_t trace_bytes[] = {
        0x43, 0x54, 0x52, 0x01, 0x00, 0x01, 0x03, 0x00, 0x02, 0x00, 0x00, 0x00,
        0x05, 0x00, 0x00, 0x00, 0x0A, 0x00, 0x00, 0x00, 0x05, 0x00, 0x01, 0x00,
        0x07, 0x00, 0x00, 0x00, 0x05, 0x00, 0x00, 0x00, 0x0A, 0x00, 0x00, 0x00};
    static const uint8_t plan_bytes[] = {
        0x43, 0x50, 0x4C, 0x01, 0x00, 0x00, 0x03, 0x00, 0x13, 0x00, 0x00, 0x00, 0x00, 0x00, 0x00, 0x00,
        0x01, 0x01, 0x00, 0x00, 0x00, 0x00, 0x00, 0x00, 0x00, 0x00, 0x00, 0x00, 0x00, 0x00, 0x00};
    begin("example");
    in.trace.len = sizeof trace_bytes;
    memcpy(in.trace.at, trace_bytes, sizeof trace_bytes);
    in.plan.len = sizeof plan_bytes;
    memcpy(in.plan.at, plan_bytes, sizeof plan_bytes);
    in.least_known = 1;
    in.least = 19;
    expect("example", 0, compare_judge());
    expect("example", 0, compare_solve());
}

/* A field of trace A, or of its plan, at a limit and one past it. */
static void try_field(const char *name, uint8_t *field, size_t width, uint64_t limit,
                      uint64_t (*call)(void), uint64_t at_limit, uint64_t past)
{
    begin(name);
    uint64_t was = get(field, width);
    put(field, width, limit);
    expect(name, at_limit, call());
    put(field, width, limit + 1);
    expect(name, past, call());
    put(field, width, was);
}

static void try_fields(void)
{
    uint8_t *t = in.trace.at, *p = in.plan.at;
    trace_a(2, 4);
    begin("fields");
    compare_solve();
    try_field("w", t + 5, 1, MOST_SLOTS, compare_audit, 0, refusal(3, 0));
    try_field("rent", p + PLAN_HEAD + 6 + 4 * 5, 4, MOST_RENT, compare_audit, 0, refusal(17, 6));
    try_field("F", t + 8, 4, MOST_COST, compare_solve, 0, refusal(5, 0));
    try_field("cost", t + TRACE_HEAD + 2 * RECORD + 4, 4, MOST_COST, compare_solve, 0,
              refusal(8, 3));
}

static void try_length(const char *name, size_t trace_len, size_t plan_len, uint64_t refused)
{
    size_t trace_was = in.trace.len, plan_was = in.plan.len;
    begin(name);
    in.trace.len = trace_len;
    in.plan.len = plan_len;
    expect(name, refused, compare_judge());
    in.trace.len = trace_was;
    in.plan.len = plan_was;
}

static void try_lengths(void)
{
    trace_a(2, 4);
    begin("lengths");
    compare_solve();
    size_t t = in.trace.len, p = in.plan.len;
    try_length("trace short", t - 1, p, refusal(6, 0));
    try_length("trace long", t + 1, p, refusal(6, 0));
    try_length("trace head short", TRACE_HEAD - 1, p, refusal(1, 0));
    try_length("plan short", t, p - 1, refusal(12, 0));
    try_length("plan long", t, p + 1, refusal(12, 0));
    try_length("plan head short", t, PLAN_HEAD - 1, refusal(9, 0));
    in.buffer_len = p;
    expect("buffer just long enough", 0, compare_solve());
    in.buffer_len = p - 1;
    expect("buffer short", refusal(19, 0), compare_solve());
}

/* Reads of one item at full cost, as many as allowed and one more. */
static void try_most_requests(void)
{
    begin("n");
    trace.slots = MOST_SLOTS;
    trace.fill = MOST_COST;
    trace.count = MOST_REQUESTS;
    for (uint32_t t = 1; t <= MOST_REQUESTS; t++) {
        trace.at[t].item = 65535;
        trace.at[t].kind = READ;
        trace.at[t].cost = MOST_COST;
    }
    in.trace.len = put_trace(in.trace.at, &trace);
    in.least_known = 1;
    in.least = 2 * MOST_COST;
    expect("n 1,024", 0, compare_solve());
    memcpy(in.trace.at + in.trace.len, in.trace.at + TRACE_HEAD, RECORD);
    in.trace.len += RECORD;
    put(in.trace.at + 6, 2, MOST_REQUESTS + 1);
    expect("n 1,025", refusal(4, 0), compare_solve());
}

static void try_ratio(uint64_t least, uint64_t measured, uint64_t answer, uint8_t kind, double ratio)
{
    uint8_t kind_found = 9;
    double ratio_found = -1;
    begin("ratio");
    expect("ratio", answer, compare_ratio(least, measured));
    gp_ratio(least, measured, &kind_found, &ratio_found);
    expect("ratio's kind", kind, kind_found);
    expect("ratio's number", 1, ratio == ratio_found);
}

static void try_ratios(void)
{
    const uint64_t most = 2048000000;
    try_ratio(44, 44, 0, GP_RATIO, 1);
    try_ratio(44, 176, 0, GP_RATIO, 4);
    try_ratio(0, 0, 0, GP_NO_COST, -1);
    try_ratio(0, 1, 0, GP_NO_RATIO, -1);
    try_ratio(1, most, 0, GP_RATIO, 2048000000.0);
    try_ratio(most, most, 0, GP_RATIO, 1);
    try_ratio(1, most + 1, refusal(20, 0), 9, -1);
    try_ratio(most + 1, 1, refusal(20, 0), 9, -1);
    try_ratio(2, 1, refusal(21, 0), 9, -1);
}

/* Length 0 may come with a null pointer. */
static void try_nulls(void)
{
    uint64_t totals[4], cost = 7;
    int64_t floor = 7;
    uint8_t plan[PLAN_HEAD];
    begin("nulls");
    trace.count = 0;
    in.trace.len = put_trace(in.trace.at, &trace);
    in.plan.len = in.flag_count = in.rent_count = 0;
    expect("no trace", refusal(1, 0), gp_audit(NULL, 0, NULL, 0, totals));
    expect("no trace", refusal(1, 0), gp_solve(NULL, 0, NULL, 0, &cost));
    expect("no plan", refusal(9, 0), gp_judge(in.trace.at, in.trace.len, NULL, 0, &cost));
    expect("no plan", refusal(9, 0), gp_section(in.trace.at, in.trace.len, NULL, 0));
    expect("no buffer", refusal(19, 0), gp_solve(in.trace.at, in.trace.len, NULL, 0, &cost));
    expect("cost after a refusal", 7, cost);
    expect("no rents", 0, gp_floor(in.trace.at, in.trace.len, NULL, 0, &floor));
    expect("floor of nothing", 0, (uint64_t)floor);
    expect("no lists", 0,
           gp_write(in.trace.at, in.trace.len, NULL, 0, NULL, 0, plan, PLAN_HEAD, &cost));
    expect("cost of nothing", 0, cost);
    expect("plan of nothing", 0, gp_judge(in.trace.at, in.trace.len, plan, PLAN_HEAD, &cost));
}

uint64_t try_vectors(void)
{
    try_table();
    try_example();
    try_fields();
    try_lengths();
    try_most_requests();
    try_ratios();
    try_nulls();
    return tried;
}
