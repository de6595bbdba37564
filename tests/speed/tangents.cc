// Computes the time-cost curve of a project with the network simplex of LEMON, by tangents. A least-cost circulation, in which one more unit
// from the start to the end gains the lengths on its way and costs the project's length, gives the cost at that length, and its flow a
// tangent there. The next length is where two tangents meet, until both lie on the curve. It is compared with the program, and shares no code
// with it.
//
//   tangents FILE       a deck without quotes, of the cards PROJECT, EVENT, ACT and PIECE; prints each length that it solved and the cost,
//                       and to standard error the processor time of solving
#include <ctime>
#include <iostream>
#include <lemon/list_graph.h>
#include <lemon/network_simplex.h>

#include "plan.h"

using i64 = std::int64_t;
using wide = __int128;
using Graph = lemon::ListDigraph;
using Simplex = lemon::NetworkSimplex<Graph, i64, i64>;

struct Tangent {
    i64 length, cost, slope;
};

struct Curve {
    Graph graph;
    std::vector<Graph::Node> nodes;
    Graph::ArcMap<i64> price{graph}, capacity{graph};
    Graph::Arc back;
    i64 normal_cost = 0;
    std::vector<Tangent> found;

    void add(int from, int to, i64 length, i64 most) {
        const Graph::Arc arc = graph.addArc(nodes[from], nodes[to]);
        price[arc] = -length;
        capacity[arc] = most;
    }

    // An activity has an arc for each knee of its cost, with the rise there as its capacity, and one of its crash duration.
    void add(const PlanActivity &a, i64 all) {
        i64 below = a.crash, last = a.slope;
        for (const auto &piece : a.pieces) below += piece.first;
        add(a.from, a.to, a.normal, a.slope);
        for (const auto &piece : a.pieces) {
            add(a.from, a.to, below, piece.second - last);
            below -= piece.first;
            last = piece.second;
        }
        add(a.from, a.to, a.crash, all);
        normal_cost += a.cost;
    }

    explicit Curve(const Plan &plan) {
        for (int e = 0; e < plan.events; ++e) nodes.push_back(graph.addNode());
        // No flow needs more: each of its ways takes from a bounded arc, since one of crash durations alone gains nothing.
        i64 all = 1;
        for (const auto &a : plan.activities) all += a.pieces.empty() ? a.slope : a.pieces.back().second;
        for (const auto &a : plan.activities) add(a, all);
        back = graph.addArc(nodes[plan.end], nodes[plan.start]);
        capacity[back] = all;
    }

    Tangent at(Simplex &simplex, i64 length) {
        price[back] = length;
        if (simplex.upperMap(capacity).costMap(price).run() != Simplex::OPTIMAL) std::exit(1);
        found.push_back({length, normal_cost - simplex.totalCost<i64>(), simplex.flow(back)});
        return found.back();
    }

    void between(Simplex &simplex, const Tangent &low, const Tangent &high) {
        const wide apart = high.length - low.length, dearer = low.cost - high.cost;
        if (apart <= 1 || dearer == apart * low.slope || dearer == apart * high.slope) return;
        // Where the two tangents meet, or the whole length below, but at no end.
        const wide meet = (dearer - apart * high.slope) / (low.slope - high.slope);
        const Tangent middle = at(simplex, low.length + i64(std::min(std::max(meet, wide(1)), apart - 1)));
        between(simplex, low, middle);
        between(simplex, middle, high);
    }
};

// The length of the project, when each activity takes what `of` says.
template <class Duration> static i64 longest_way(const Plan &plan, Duration of) {
    std::vector<int> missing(plan.events, 0), found;
    std::vector<std::vector<int>> leaving(plan.events);
    std::vector<i64> early(plan.events, 0);
    for (std::size_t i = 0; i < plan.activities.size(); ++i) {
        ++missing[plan.activities[i].to];
        leaving[plan.activities[i].from].push_back(int(i));
    }
    for (int e = 0; e < plan.events; ++e)
        if (missing[e] == 0) found.push_back(e);
    for (std::size_t k = 0; k < found.size(); ++k)
        for (int i : leaving[found[k]]) {
            const PlanActivity &a = plan.activities[i];
            early[a.to] = std::max(early[a.to], early[a.from] + i64(of(a)));
            if (--missing[a.to] == 0) found.push_back(a.to);
        }
    return early[plan.end];
}

int main(int count, char **words) {
    if (count != 2) return 2;
    const Plan plan = deck_plan(words[1]);
    const std::clock_t begin = std::clock();
    Curve curve(plan);
    Simplex simplex(curve.graph);
    const i64 longest = longest_way(plan, [](const PlanActivity &a) { return a.normal; });
    const i64 shortest = longest_way(plan, [](const PlanActivity &a) { return a.crash; });
    const Tangent high = curve.at(simplex, longest);
    if (shortest < longest) curve.between(simplex, curve.at(simplex, shortest), high);
    std::cerr << double(std::clock() - begin) / CLOCKS_PER_SEC << '\n';
    for (const Tangent &tangent : curve.found) std::cout << tangent.length << ' ' << tangent.cost << '\n';
    return 0;
}
