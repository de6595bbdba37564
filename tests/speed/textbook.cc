// Computes the time-cost curve of a project as in the textbook (Fulkerson 1961): labels start from nothing at each step. It is compared with
// the program, in speed and in answers, and shares no code with it.
//
//   textbook bench N        the benchmark's deck of N activities; prints what `pert bench N` prints
//   textbook deck FILE      a deck without quotes, of the cards PROJECT, EVENT, ACT and PIECE; prints what `pert curve` prints, and to
//                           standard error the processor time of solving
#include <cstdint>
#include <cstdio>
#include <cstdlib>
#include <cstring>
#include <ctime>
#include <iostream>
#include <string>
#include <vector>

#include "plan.h"

using i64 = std::int64_t;

struct Activity {
    int from, to;
    i64 normal, crash, slope, cost;
    std::vector<std::pair<i64, i64>> pieces; // units and slope
};

// An activity has an arc for each knee of its cost, with the rise there as its capacity, and one of its crash duration.
struct Branch {
    int from, to;
    i64 length, capacity, flow;
};

constexpr i64 NONE = INT64_MAX / 4;

struct Curve {
    int events, start, end;
    std::vector<Activity> activities;
    std::vector<Branch> branches;
    std::vector<std::vector<int>> leaving, entering;
    std::vector<i64> time;
    std::vector<int> label; // -1 none, else the branch by which the event was reached (start: branches.size())
    i64 length = 0, shortest = 0, cost = 0, value = 0, units = 0;

    std::vector<int> order() const {
        std::vector<int> missing(events, 0), found;
        for (const auto &a : activities) ++missing[a.to];
        std::vector<std::vector<int>> out(events);
        for (std::size_t i = 0; i < activities.size(); ++i) out[activities[i].from].push_back(int(i));
        for (int e = 0; e < events; ++e) if (missing[e] == 0) found.push_back(e);
        for (std::size_t i = 0; i < found.size(); ++i)
            for (int a : out[found[i]]) if (--missing[activities[a].to] == 0) found.push_back(activities[a].to);
        return found;
    }

    template <class Length> std::vector<i64> early(Length of) const {
        std::vector<std::vector<int>> out(events);
        for (std::size_t i = 0; i < activities.size(); ++i) out[activities[i].from].push_back(int(i));
        std::vector<i64> times(events, 0);
        for (int e : order())
            for (int a : out[e]) times[activities[a].to] = std::max(times[activities[a].to], times[e] + of(activities[a]));
        return times;
    }

    __attribute__((noinline)) void begin() {
        shortest = early([](const Activity &a) { return a.crash; })[end];
        time = early([](const Activity &a) { return a.normal; });
        length = time[end];
        leaving.resize(events);
        entering.resize(events);
        for (const auto &a : activities) {
            cost += a.cost;
            i64 below = a.crash, last = a.slope;
            for (const auto &piece : a.pieces) below += piece.first;
            add(a.from, a.to, a.normal, a.slope);
            for (const auto &piece : a.pieces) {
                add(a.from, a.to, below, piece.second - last);
                below -= piece.first;
                last = piece.second;
            }
            add(a.from, a.to, a.crash, NONE);
        }
        label.resize(events);
    }

    void add(int from, int to, i64 size, i64 capacity) {
        if (capacity == 0) return;
        leaving[from].push_back(int(branches.size()));
        entering[to].push_back(int(branches.size()));
        branches.push_back({from, to, size, capacity, 0});
    }

    bool reach() {
        std::fill(label.begin(), label.end(), -1);
        std::vector<int> queue{start};
        label[start] = int(branches.size());
        for (std::size_t i = 0; i < queue.size(); ++i) {
            const int e = queue[i];
            for (int b : leaving[e]) {
                const Branch &branch = branches[b];
                if (label[branch.to] < 0 && time[branch.to] - time[e] == branch.length && branch.flow < branch.capacity) {
                    label[branch.to] = b;
                    queue.push_back(branch.to);
                }
            }
            for (int b : entering[e]) {
                const Branch &branch = branches[b];
                if (label[branch.from] < 0 && time[e] - time[branch.from] == branch.length && branch.flow > 0) {
                    label[branch.from] = b;
                    queue.push_back(branch.from);
                }
            }
        }
        return label[end] >= 0;
    }

    void raise() {
        i64 room = NONE;
        for (int e = end; e != start;) {
            const Branch &branch = branches[label[e]];
            room = std::min(room, branch.to == e ? branch.capacity - branch.flow : branch.flow);
            e = branch.to == e ? branch.from : branch.to;
        }
        for (int e = end; e != start;) {
            Branch &branch = branches[label[e]];
            const bool along = branch.to == e;
            branch.flow += along ? room : -room;
            e = along ? branch.from : branch.to;
        }
        value += room;
    }

    i64 fall() const {
        i64 least = length - shortest;
        for (const Branch &branch : branches) {
            const i64 gap = time[branch.to] - time[branch.from];
            if (label[branch.from] >= 0 && label[branch.to] < 0 && gap > branch.length) least = std::min(least, gap - branch.length);
            if (label[branch.from] < 0 && label[branch.to] >= 0 && gap < branch.length) least = std::min(least, branch.length - gap);
        }
        return least;
    }

    // Goes on to the next stretch of the curve: down by `units` from `length`, where each unit costs `value`. Returns whether there is one.
    __attribute__((noinline)) bool next_segment() {
        for (int e = 0; e < events; ++e) if (label[e] < 0) time[e] -= units;
        length -= units;
        cost += value * units;
        if (length <= shortest) return false;
        while (reach()) raise();
        units = fall();
        return true;
    }
};

static Curve curve_of(const Plan &plan) {
    Curve curve;
    for (const PlanActivity &a : plan.activities) {
        curve.activities.push_back({a.from, a.to, i64(a.normal), i64(a.crash), i64(a.slope), i64(a.cost), {}});
        for (const auto &piece : a.pieces) curve.activities.back().pieces.emplace_back(i64(piece.first), i64(piece.second));
    }
    curve.events = plan.events;
    curve.start = plan.start;
    curve.end = plan.end;
    return curve;
}

int main(int count, char **words) {
    const bool is_bench = count == 3 && !std::strcmp(words[1], "bench");
    if (!is_bench && !(count == 3 && !std::strcmp(words[1], "deck"))) return 2;
    const Plan plan = is_bench ? bench_plan(std::stoull(words[2])) : deck_plan(words[2]);
    const std::clock_t started = std::clock();
    Curve curve = curve_of(plan);
    curve.begin();
    const i64 longest = curve.length, first_cost = curve.cost;
    i64 slope = -1, breaks = 1;
    __int128 sum = curve.cost;
    while (curve.next_segment()) {
        if (curve.value != slope) {
            ++breaks;
            if (!is_bench) std::cout << curve.length << ' ' << curve.cost << ' ' << curve.value << '\n';
        }
        slope = curve.value;
        for (i64 u = 1; u <= curve.units; ++u) sum += curve.cost + curve.value * u;
    }
    if (!is_bench) {
        std::cout << curve.length << ' ' << curve.cost << " -\n";
        std::cerr << double(std::clock() - started) / CLOCKS_PER_SEC << '\n';
        return 0;
    }
    std::cout << "BENCH " << words[2] << "\nNORMAL " << longest << ' ' << first_cost << "\nCRASH " << curve.length << ' ' << curve.cost
              << "\nBREAKS " << breaks << "\nSUM " << std::uint64_t(sum) << '\n';
    return 0;
}
