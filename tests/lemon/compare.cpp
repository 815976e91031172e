// A third way to the least cost, beside the library and tests/second: LEMON's network simplex on
// traces of up to 1,024 requests. It is not part of the gate. How to build and run it:
//
//     apt-get update && apt-get install liblemon-dev
//     scripts/libcapi
//     g++ -std=c++17 -O2 -I include tests/lemon/compare.cpp target/staticlib/libcapi.a -o target/lemon
//     target/lemon [SEED COUNT]           default: seed 1, 200 traces
//
// The library is for x86-64 (of LEMON, NetworkSimplex needs headers alone).
#include <cstdio>
#include <cstdlib>
#include <map>
#include <random>
#include <vector>

#include <lemon/network_simplex.h>
#include <lemon/smart_graph.h>

#include "glazepouch.h"

using lemon::SmartDigraph;
using Simplex = lemon::NetworkSimplex<SmartDigraph, long long, long long>;
using Random = std::mt19937_64;

struct Request {
    unsigned item;
    bool write;
    long long cost;
};

struct Trace {
    unsigned slots;
    long long fill;
    std::vector<Request> requests;
};

// Slots are units of flow through the gaps. A slot idles in a gap or holds an item there; request t
// leads from gap t - 1 to gap t.
class Network {
public:
    // With every_gap an item may be dropped at any request, as allowed contents may, and each gap
    // of a keep is an arc; else a keep is one arc from a request to the item's next.
    Network(const Trace &trace, bool every_gap)
        : trace_(trace), every_gap_(every_gap), price_(graph_), room_(graph_)
    {
        for (size_t gap = 0; gap <= trace.requests.size(); gap++) {
            idle_.push_back(graph_.addNode());
        }
        for (size_t t = 1; t <= trace.requests.size(); t++) {
            add_request(t);
        }
    }

    long long least() const
    {
        if (trace_.requests.empty()) {
            return 0; // one node alone has no flow
        }
        Simplex simplex(graph_);
        simplex.upperMap(room_).costMap(price_).stSupply(idle_.front(), idle_.back(), trace_.slots);
        if (simplex.run() != Simplex::OPTIMAL) {
            std::fprintf(stderr, "LEMON finds no flow\n");
            std::exit(2);
        }
        return all_missed_ + simplex.totalCost();
    }

private:
    void add_arc(SmartDigraph::Node from, SmartDigraph::Node to, long long room, long long price)
    {
        SmartDigraph::Arc arc = graph_.addArc(from, to);
        room_[arc] = room;
        price_[arc] = price;
    }

    // From the gap of request t to just before request next: the item is held all the way.
    SmartDigraph::Node held_until(size_t t, size_t next, SmartDigraph::Node held)
    {
        for (size_t gap = t + 1; every_gap_ && gap < next; gap++) {
            SmartDigraph::Node still = graph_.addNode();
            add_arc(held, still, 1, 0);
            add_arc(held, idle_[gap], 1, 0);
            held = still;
        }
        return held;
    }

    // One arc of room 1 carries the charge of a request whose item is held, so that no two slots
    // can hit by one item.
    void add_hit(size_t t, SmartDigraph::Node held_after)
    {
        const Request &request = trace_.requests[t - 1];
        auto last = last_.find(request.item);
        if (last == last_.end()) {
            return;
        }
        SmartDigraph::Node before = held_until(last->second.request, t, last->second.held);
        SmartDigraph::Node charged = graph_.addNode();
        add_arc(before, charged, 1, request.write ? request.cost : -request.cost);
        add_arc(charged, held_after, 1, 0);
        add_arc(charged, idle_[t], 1, 0);
    }

    void add_request(size_t t)
    {
        const Request &request = trace_.requests[t - 1];
        SmartDigraph::Node held = graph_.addNode();
        add_arc(idle_[t - 1], idle_[t], trace_.slots, 0);
        add_hit(t, held);
        if (!request.write) {
            add_arc(idle_[t - 1], held, 1, trace_.fill);
            all_missed_ += request.cost;
        }
        last_[request.item] = Last{t, held};
    }

    struct Last {
        size_t request;
        SmartDigraph::Node held;
    };

    const Trace &trace_;
    bool every_gap_;
    SmartDigraph graph_;
    SmartDigraph::ArcMap<long long> price_, room_;
    std::vector<SmartDigraph::Node> idle_;
    std::map<unsigned, Last> last_;
    long long all_missed_ = 0;
};

static unsigned pick(Random &random, unsigned low, unsigned high)
{
    return std::uniform_int_distribution<unsigned>(low, high)(random);
}

static Trace random_trace(Random &random)
{
    static const unsigned most_costs[] = {0, 1, 10, 1000, 1000000};
    static const unsigned most_items[] = {2, 10, 30, 100, 400, 1024};
    Trace trace;
    unsigned most_cost = most_costs[pick(random, 0, 4)], items = most_items[pick(random, 0, 5)];
    unsigned writes = pick(random, 0, 6), skew = pick(random, 0, 1);
    trace.slots = pick(random, 0, 2) == 0 ? 64 : pick(random, 0, 64);
    trace.fill = pick(random, 0, 2) == 0 ? pick(random, 0, 1000000) : pick(random, 0, most_cost);
    for (unsigned n = pick(random, 0, 1) ? 1024 : pick(random, 0, 1024); n > 0; n--) {
        unsigned item = pick(random, 1, items) - 1;
        item = skew ? pick(random, 0, item) : item;
        trace.requests.push_back({65535 - item, pick(random, 0, 7) < writes,
                                  static_cast<long long>(pick(random, 0, most_cost))});
    }
    return trace;
}

static void put(std::vector<uint8_t> &bytes, unsigned width, unsigned long long value)
{
    for (; width > 0; width--, value >>= 8) {
        bytes.push_back(static_cast<uint8_t>(value));
    }
}

static std::vector<uint8_t> trace_file(const Trace &trace)
{
    std::vector<uint8_t> bytes = {'C', 'T', 'R', 1, 0};
    put(bytes, 1, trace.slots);
    put(bytes, 2, trace.requests.size());
    put(bytes, 4, static_cast<unsigned long long>(trace.fill));
    for (const Request &request : trace.requests) {
        put(bytes, 2, request.item);
        put(bytes, 2, request.write);
        put(bytes, 4, static_cast<unsigned long long>(request.cost));
    }
    return bytes;
}

// Solve's cost, if the judge accepts its plan with that cost; else -1.
static long long solved(const std::vector<uint8_t> &file, size_t n)
{
    std::vector<uint8_t> plan(GP_PLAN_LENGTH(n));
    uint64_t cost, judged;
    if (gp_solve(file.data(), file.size(), plan.data(), plan.size(), &cost) != 0 ||
        gp_judge(file.data(), file.size(), plan.data(), plan.size(), &judged) != 0) {
        return -1;
    }
    return cost == judged ? static_cast<long long>(cost) : -1;
}

static bool agrees(unsigned long long seed, const Trace &trace, bool every_gap)
{
    std::vector<uint8_t> file = trace_file(trace);
    long long least = Network(trace, every_gap).least();
    long long ours = solved(file, trace.requests.size());
    if (least == ours) {
        return true;
    }
    std::printf("DISAGREE at case seed %llu: LEMON %lld, the library %lld\n", seed, least, ours);
    for (uint8_t byte : file) {
        std::printf("%02X", byte);
    }
    std::printf("\n");
    return false;
}

int main(int words, char **word)
{
    // A node for each gap of each keep is too many for LEMON where there are many items.
    const size_t few_requests = 300;
    unsigned long long seed = words > 2 ? std::strtoull(word[1], nullptr, 10) : 1;
    unsigned long long count = words > 2 ? std::strtoull(word[2], nullptr, 10) : 200, small = 0;
    for (unsigned long long i = 0; i < count; i++) {
        Random random(seed * 1000003 + i);
        Trace trace = random_trace(random);
        bool every_gap = trace.requests.size() <= few_requests;
        small += every_gap;
        if (!agrees(seed * 1000003 + i, trace, every_gap)) {
            return 1;
        }
    }
    std::printf("LEMON: seed %llu: %llu traces agree, %llu of them with drops at every request\n", seed,
                count, small);
    return 0;
}
