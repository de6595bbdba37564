// The network of a deck for the C++ programs of this folder: by the benchmark's recipe, or from a deck without quotes.
#include <algorithm>
#include <cstdint>
#include <fstream>
#include <map>
#include <sstream>
#include <string>
#include <utility>
#include <vector>

struct PlanActivity {
    int from, to;
    std::uint64_t normal, crash, slope, cost;
    std::vector<std::pair<std::uint64_t, std::uint64_t>> pieces; // units and slope
};

struct Plan {
    int events = 0, start = 0, end = 0;
    std::vector<PlanActivity> activities;
};

// The benchmark's deck of n activities.
inline Plan bench_plan(std::uint64_t n) {
    std::uint64_t x = n;
    auto draw = [&x]() { return x = (75 * x + 74) % 65537; };
    const std::uint64_t k = (n + 1) / 2;
    Plan plan{int(k + 1), 0, int(k), {}};
    for (std::uint64_t i = 1; i <= n; ++i) {
        std::uint64_t from = i - 1, to = i;
        if (i > k) {
            from = draw() % k;
            to = std::min(k, from + 1 + draw() % 4);
        }
        PlanActivity a{int(from), int(to), 0, 0, 0, 0, {}};
        a.normal = (to - from) * (1 + draw() % 20);
        a.crash = draw() % (a.normal + 1);
        a.slope = 1 + draw() % 9;
        a.cost = 10 + draw() % 90;
        plan.activities.push_back(a);
    }
    return plan;
}

// A deck of the cards PROJECT, EVENT, ACT and PIECE, in any order after the first; other cards are ignored.
inline Plan deck_plan(const char *path) {
    Plan plan;
    std::map<std::string, int> events, activities;
    std::vector<std::pair<std::string, std::string>> ends;
    std::string start, end, line;
    std::ifstream file(path);
    while (std::getline(file, line)) {
        std::vector<std::string> fields;
        std::stringstream parts(line + ",");
        for (std::string field; std::getline(parts, field, ',');) fields.push_back(field);
        if (fields[0] == "PROJECT") start = fields[2], end = fields[3];
        if (fields[0] == "EVENT") events.emplace(fields[1], int(events.size()));
        if (fields[0] == "ACT") {
            activities.emplace(fields[1], int(activities.size()));
            ends.emplace_back(fields[2], fields[3]);
            plan.activities.push_back({0, 0, std::stoull(fields[8]), std::stoull(fields[9]), std::stoull(fields[11]), std::stoull(fields[10]), {}});
        }
        if (fields[0] == "PIECE")
            plan.activities[activities.at(fields[1])].pieces.emplace_back(std::stoull(fields[2]), std::stoull(fields[3]));
    }
    for (std::size_t i = 0; i < ends.size(); ++i) {
        plan.activities[i].from = events.at(ends[i].first);
        plan.activities[i].to = events.at(ends[i].second);
    }
    plan.events = int(events.size());
    plan.start = events.at(start);
    plan.end = events.at(end);
    return plan;
}
