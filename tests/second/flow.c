/* Each request t has three points: ARRIVE (its item is held when t comes), TIME (a slot that holds
 * nothing at t) and LEAVE (its item is held after t). One unit of flow is one slot:
 *
 *     TIME t   -> TIME t+1        the slot idles across gap t             price 0
 *     TIME t   -> LEAVE t         a read brings its item in               price F
 *     LEAVE t  -> ARRIVE next(t)  the item is held up to its next request price -cost of a read
 *                                                                         there, +cost of a write
 *     ARRIVE t -> TIME t          the item is dropped at t                price 0
 *     ARRIVE t -> LEAVE t         the item is held on                     price 0
 *
 * The price of a flow of w units is the cost of its plan, less the cost of all reads missed. */
#include "flow.h"

enum { ARRIVE, TIME, LEAVE, POINTS_EACH };
enum { MOST_POINTS = POINTS_EACH * (MOST_REQUESTS + 1), MOST_ARCS = 2 * 5 * MOST_REQUESTS };

static const int64_t unreached = (int64_t)1 << 60;

struct arc {
    uint32_t to;
    uint32_t room; /* how many more units it can take */
    int64_t price;
    int32_t following; /* the next arc from the same point, or -1 */
};

/* Arc 2k+1 is arc 2k turned round: what can be taken back of its flow. */
static struct network {
    uint32_t arcs;
    struct arc arc[MOST_ARCS];
    int32_t first[MOST_POINTS];
    int64_t distance[MOST_POINTS];
    int32_t reached_by[MOST_POINTS];
    uint32_t keep[MOST_REQUESTS + 1]; /* the arc that holds the item of request t up to its next */
} net;

static uint32_t point(uint32_t t, uint32_t which)
{
    return POINTS_EACH * t + which;
}

static void add_half(uint32_t from, uint32_t to, uint32_t room, int64_t price)
{
    net.arc[net.arcs] = (struct arc){to, room, price, net.first[from]};
    net.first[from] = (int32_t)net.arcs++;
}

static uint32_t add_arc(uint32_t from, uint32_t to, uint32_t room, int64_t price)
{
    add_half(from, to, room, price);
    add_half(to, from, 0, -price);
    return net.arcs - 2;
}

static void add_request(const struct trace *trace, uint32_t t)
{
    const struct request *request = &trace->at[t];
    if (t < trace->count) {
        /* never full, so that every time point has a distance when all slots are sent */
        add_arc(point(t, TIME), point(t + 1, TIME), MOST_SLOTS + 1, 0);
    }
    if (request->kind == READ) {
        add_arc(point(t, TIME), point(t, LEAVE), 1, trace->fill);
    }
    add_arc(point(t, ARRIVE), point(t, TIME), 1, 0);
    add_arc(point(t, ARRIVE), point(t, LEAVE), 1, 0);
    if (request->next != 0) {
        int64_t cost = trace->at[request->next].cost;
        int64_t price = trace->at[request->next].kind == READ ? -cost : cost;
        net.keep[t] = add_arc(point(t, LEAVE), point(request->next, ARRIVE), 1, price);
    }
}

static void make_network(const struct trace *trace)
{
    net.arcs = 0;
    for (uint32_t p = 0; p < point(trace->count + 1, 0); p++) {
        net.first[p] = -1;
    }
    for (uint32_t t = 1; t <= trace->count; t++) {
        add_request(trace, t);
    }
}

/* Tries every arc from one point; answers whether some distance fell. */
static int relax(uint32_t from)
{
    int fell = 0;
    if (net.distance[from] == unreached) {
        return 0;
    }
    for (int32_t a = net.first[from]; a >= 0; a = net.arc[a].following) {
        const struct arc *arc = &net.arc[a];
        int64_t distance = net.distance[from] + arc->price;
        if (arc->room > 0 && distance < net.distance[arc->to]) {
            net.distance[arc->to] = distance;
            net.reached_by[arc->to] = a;
            fell = 1;
        }
    }
    return fell;
}

/* Bellman and Ford's search from the first time point. The points are swept forward and backward
 * in turn, since a shortest way mostly runs along time and seldom turns back. */
static void search(uint32_t count)
{
    uint32_t low = point(1, 0), high = point(count + 1, 0);
    int fell = 1;
    for (uint32_t p = low; p < high; p++) {
        net.distance[p] = unreached;
    }
    net.distance[point(1, TIME)] = 0;
    while (fell) {
        fell = 0;
        for (uint32_t p = low; p < high; p++) {
            fell |= relax(p);
        }
        for (uint32_t p = high; p > low; p--) {
            fell |= relax(p - 1);
        }
    }
}

static void send_unit(uint32_t count)
{
    uint32_t p = point(count, TIME);
    while (p != point(1, TIME)) {
        int32_t a = net.reached_by[p];
        net.arc[a].room--;
        net.arc[a ^ 1].room++;
        p = net.arc[a ^ 1].to;
    }
}

/* Sends a unit for each slot along the cheapest way; a way of price 0 is as good as idling, and
 * later ways are no cheaper. The distances of the last search are left for the rents. */
static int64_t send_slots(const struct trace *trace)
{
    int64_t price = 0;
    for (uint32_t sent = 0;; sent++) {
        search(trace->count);
        int64_t way = net.distance[point(trace->count, TIME)];
        if (sent == trace->slots || way >= 0) {
            return price;
        }
        send_unit(trace->count);
        price += way;
    }
}

/* The rent of a gap is what the distance falls by across it: an idle slot could gain no more. */
static void take_plan(const struct trace *trace, uint8_t *flags, uint32_t *rents)
{
    for (uint32_t t = 1; t <= trace->count; t++) {
        flags[t] = trace->at[t].next != 0 && net.arc[net.keep[t]].room == 0;
        rents[t] = 0;
        if (t < trace->count) {
            int64_t fall = net.distance[point(t, TIME)] - net.distance[point(t + 1, TIME)];
            rents[t] = (uint32_t)fall;
        }
    }
}

uint64_t flow_least(const struct trace *trace, uint8_t *flags, uint32_t *rents)
{
    int64_t all_missed = 0;
    if (trace->count == 0) {
        return 0;
    }
    for (uint32_t t = 1; t <= trace->count; t++) {
        all_missed += trace->at[t].kind == READ ? trace->at[t].cost : 0;
    }
    make_network(trace);
    int64_t price = send_slots(trace);
    take_plan(trace, flags, rents);
    return (uint64_t)(all_missed + price);
}
