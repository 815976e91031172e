#include "traces.h"
#include "clib.h"

/* How the costs of one trace are chosen. */
enum amounts { TINY, ANY, EXTREME, EQUAL, NEAR_MOST, BITS, AMOUNT_STYLES };

struct style {
    uint32_t amounts;
    uint32_t equal;        /* the cost of every request, where all are equal */
    uint32_t writes;       /* how many of eight requests are writes */
    uint32_t order;        /* how the items follow each other */
    uint32_t items;
    uint32_t names;
    uint32_t first, stride; /* of the items' names */
};

static uint32_t random_amount(struct dice *dice, uint32_t amounts, uint32_t equal)
{
    switch (amounts) {
    case TINY:
        return below(dice, 11);
    case ANY:
        return between(dice, 0, MOST_COST);
    case EXTREME:
        return once_in(dice, 2) ? 0 : MOST_COST;
    case EQUAL:
        return equal;
    case NEAR_MOST:
        return MOST_COST - below(dice, 4);
    default:
        return below(dice, 2);
    }
}

static struct style random_style(struct dice *dice, uint32_t most_items)
{
    static const uint32_t eighths[] = {0, 0, 1, 2, 4, 4, 7, 8};
    struct style style;
    style.amounts = below(dice, AMOUNT_STYLES);
    style.equal = random_amount(dice, below(dice, EQUAL), 0);
    style.writes = eighths[below(dice, 8)];
    style.order = below(dice, 4);
    style.items = between(dice, 1, most_items);
    style.names = below(dice, 4);
    style.first = below(dice, 65536);
    style.stride = 2 * below(dice, 32768) + 1; /* odd, so that no two names are the same */
    return style;
}

static uint32_t item_name(const struct style *style, uint32_t who)
{
    switch (style->names) {
    case 0:
        return who;
    case 1:
        return 65535 - who;
    case 2:
        return who == 1 ? 65535 : who; /* both ends of the range in one trace */
    default:
        return (style->first + style->stride * who) % 65536;
    }
}

static uint32_t random_who(struct dice *dice, const struct style *style, uint32_t t, uint32_t last)
{
    uint32_t a = below(dice, style->items), b = below(dice, style->items);
    switch (style->order) {
    case 0:
        return a;
    case 1:
        return once_in(dice, 8) ? a : t % style->items; /* a scan */
    case 2:
        return a < b ? a : b; /* some items far more often */
    default:
        return once_in(dice, 2) ? last : a; /* the same again */
    }
}

static uint32_t random_slots(struct dice *dice)
{
    static const uint32_t usual[] = {0, 1, 1, 1, 2, 2, 2, 3, 3, 4, 8, 16, 63, 64};
    return once_in(dice, 8) ? between(dice, 0, MOST_SLOTS) : usual[below(dice, 14)];
}

void random_trace(struct dice *dice, uint32_t count, uint32_t most_items, struct trace *trace)
{
    struct style style = random_style(dice, most_items);
    uint32_t who = 0;
    trace->slots = random_slots(dice);
    trace->count = count;
    trace->fill = random_amount(dice, once_in(dice, 2) ? style.amounts : below(dice, EQUAL),
                                style.equal);
    for (uint32_t t = 1; t <= count; t++) {
        who = random_who(dice, &style, t, who);
        trace->at[t].item = item_name(&style, who);
        trace->at[t].kind = below(dice, 8) < style.writes ? WRITE : READ;
        trace->at[t].cost = random_amount(dice, style.amounts, style.equal);
    }
    link_requests(trace);
}

void crowded_trace(struct dice *dice, uint32_t count, struct trace *trace)
{
    uint32_t items = between(dice, 80, 300);
    uint32_t most = once_in(dice, 2) ? MOST_COST : 10;
    trace->slots = once_in(dice, 2) ? MOST_SLOTS : between(dice, 56, MOST_SLOTS);
    trace->count = count;
    trace->fill = below(dice, most / 5);
    for (uint32_t t = 1; t <= count; t++) {
        trace->at[t].item = below(dice, items);
        trace->at[t].kind = once_in(dice, 16) ? WRITE : READ;
        trace->at[t].cost = between(dice, most / 2, most);
    }
    link_requests(trace);
}

void random_flags(struct dice *dice, const struct trace *trace, uint8_t *flags)
{
    static uint8_t held[MOST_REQUESTS];
    uint32_t in_gap = 0, eighths = below(dice, 9);
    int minds_slots = !once_in(dice, 4);
    memset(held, 0, trace->items);
    for (uint32_t t = 1; t <= trace->count; t++) {
        const struct request *request = &trace->at[t];
        in_gap -= held[request->who];
        int can = request->next != 0 && (request->kind == READ || held[request->who]);
        int room = !minds_slots || in_gap < trace->slots;
        flags[t] = can && room && below(dice, 8) < eighths;
        in_gap += flags[t];
        held[request->who] = flags[t];
    }
}

void random_rents(struct dice *dice, const struct trace *trace, uint32_t *rents)
{
    static const uint32_t most[] = {0, 1, 10, 1000000, MOST_RENT, MOST_RENT};
    uint32_t style = below(dice, 6);
    for (uint32_t g = 1; g <= trace->count; g++) {
        rents[g] = between(dice, 0, most[style]);
        if (style == 5) {
            rents[g] = once_in(dice, 2) ? MOST_RENT : 0;
        }
    }
}
