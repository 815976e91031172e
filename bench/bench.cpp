// gp_solve beside LEMON's NetworkSimplex on the same network, in one process: medians of several repeats, for each kind of trace.
// The network is the solver's: a node for each point of time and for each request, an arc for each step of an idle slot, each fill,
// each drop and each keep from a request to the item's next. Both costs are compared. How to run it: bench/run.
#include <algorithm>
#include <chrono>
#include <cmath>
#include <cstdint>
#include <cstdio>
#include <cstdlib>
#include <functional>
#include <map>
#include <string>
#include <vector>

#include <lemon/network_simplex.h>
#include <lemon/smart_graph.h>

#include "glazepouch.h"

using lemon::SmartDigraph;
using Simplex = lemon::NetworkSimplex<SmartDigraph, int64_t, int64_t>;

struct Request {
    unsigned item;
    bool write;
    int64_t cost;
};

struct Trace {
    unsigned slots;
    int64_t fill;
    std::vector<Request> requests;
};

// A small generator of its own, so that every machine times the same traces.
class Dice {
public:
    explicit Dice(uint64_t seed) : state_(seed * 2 + 1) {}
    uint64_t below(uint64_t limit)
    {
        state_ = state_ * 6364136223846793005u + 1442695040888963407u;
        return (state_ >> 33) % limit;
    }

private:
    uint64_t state_;
};

static const unsigned requests = 1024;

// An item by Zipf's law: item i as often as 1 / (i + 1).
static unsigned zipf(Dice &dice, unsigned items)
{
    static std::vector<double> sums;
    if (sums.size() != items) {
        sums.assign(items, 0);
        double sum = 0;
        for (unsigned i = 0; i < items; i++) sums[i] = sum += 1.0 / (i + 1);
    }
    double at = sums.back() * (double)dice.below(1u << 30) / (1u << 30);
    return std::lower_bound(sums.begin(), sums.end(), at) - sums.begin();
}

struct Kind {
    std::string name;
    std::function<Request(Dice &, unsigned)> request;
    int64_t fill;
};

static std::vector<Kind> kinds()
{
    auto cost = [](Dice &dice) { return (int64_t)dice.below(1000) + 1; };
    return {
        {"random", [=](Dice &d, unsigned) { return Request{(unsigned)d.below(300), d.below(10) == 0, cost(d)}; }, 100},
        {"zipf", [=](Dice &d, unsigned) { return Request{zipf(d, 400), d.below(10) == 0, cost(d)}; }, 100},
        {"scan", [=](Dice &d, unsigned t) { return Request{t % 128, false, cost(d)}; }, 100},
        {"writes", [=](Dice &d, unsigned) { return Request{(unsigned)d.below(200), d.below(2) == 0, cost(d)}; }, 100},
        {"unit", [=](Dice &d, unsigned) { return Request{(unsigned)d.below(250), false, 1}; }, 0},
    };
}

static Trace make(const Kind &kind, unsigned slots, uint64_t seed)
{
    Dice dice(seed);
    Trace trace{slots, kind.fill, {}};
    for (unsigned t = 0; t < requests; t++) trace.requests.push_back(kind.request(dice, t));
    return trace;
}

static std::vector<uint8_t> bytes(const Trace &trace)
{
    std::vector<uint8_t> out = {'C', 'T', 'R'};
    auto put = [&](unsigned count, uint64_t value) {
        for (; count > 0; count--, value /= 256) out.push_back(value % 256);
    };
    put(2, 1), put(1, trace.slots), put(2, trace.requests.size()), put(4, trace.fill);
    for (const Request &r : trace.requests) put(2, r.item), put(1, r.write), put(1, 0), put(4, r.cost);
    return out;
}

// LEMON's answer: building the network counts, as reading the trace counts for gp_solve.
static int64_t lemon_least(const Trace &trace)
{
    SmartDigraph graph;
    SmartDigraph::ArcMap<int64_t> price(graph), room(graph);
    auto arc = [&](SmartDigraph::Node from, SmartDigraph::Node to, int64_t r, int64_t p) {
        SmartDigraph::Arc a = graph.addArc(from, to);
        room[a] = r, price[a] = p;
    };
    size_t n = trace.requests.size();
    std::vector<SmartDigraph::Node> point, node;
    for (size_t g = 0; g <= n; g++) point.push_back(graph.addNode());
    for (size_t t = 0; t < n; t++) node.push_back(graph.addNode());
    std::map<unsigned, size_t> last;
    int64_t missed = 0;
    for (size_t t = 0; t < n; t++) {
        const Request &r = trace.requests[t];
        arc(point[t], point[t + 1], trace.slots, 0);
        arc(node[t], point[t], 1, 0);
        if (!r.write) arc(point[t], node[t], 1, trace.fill), missed += r.cost;
        auto before = last.find(r.item);
        if (before != last.end()) arc(node[before->second], node[t], 1, r.write ? r.cost : -r.cost);
        last[r.item] = t;
    }
    Simplex simplex(graph);
    simplex.upperMap(room).costMap(price).stSupply(point.front(), point.back(), trace.slots);
    if (simplex.run() != Simplex::OPTIMAL) std::abort();
    return missed + simplex.totalCost();
}

static double median_ms(unsigned repeats, const std::function<void()> &run)
{
    std::vector<double> times;
    for (unsigned i = 0; i < repeats; i++) {
        auto start = std::chrono::steady_clock::now();
        run();
        times.push_back(std::chrono::duration<double, std::milli>(std::chrono::steady_clock::now() - start).count());
    }
    std::sort(times.begin(), times.end());
    return times[times.size() / 2];
}

int main(int argc, char **argv)
{
    unsigned repeats = argc > 1 ? atoi(argv[1]) : 15;
    std::printf("%-8s %3s %12s %12s %8s\n", "kind", "w", "gp_solve ms", "LEMON ms", "times");
    for (unsigned slots : {64u, 8u, 1u}) {
        double product = 0;
        for (const Kind &kind : kinds()) {
            Trace trace = make(kind, slots, 7);
            std::vector<uint8_t> file = bytes(trace), plan(16 + 5 * requests);
            uint64_t cost = 0;
            int64_t least = 0;
            double ours = median_ms(repeats, [&] {
                if (gp_solve(file.data(), file.size(), plan.data(), plan.size(), &cost) != 0) std::abort();
            });
            double theirs = median_ms(repeats, [&] { least = lemon_least(trace); });
            if ((int64_t)cost != least) {
                std::printf("%s at w = %u: gp_solve %lld, LEMON %lld\n", kind.name.c_str(), slots, (long long)cost, (long long)least);
                return 1;
            }
            std::printf("%-8s %3u %12.3f %12.3f %8.1f\n", kind.name.c_str(), slots, ours, theirs, theirs / ours);
            product += std::log(theirs / ours);
        }
        std::printf("%-8s %3u %34.1f (geometric mean)\n", "all", slots, std::exp(product / kinds().size()));
    }
}
