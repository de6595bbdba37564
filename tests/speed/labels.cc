// Computes the time-cost curve with the program's own labelling in plain C++. Labels are kept from one segment to the next, and looked for
// again only from events that lost theirs. It shows what a C++ compiler makes of these steps with data that is laid out for them:
//
//   1  each event lists its activities with the event at their other end, so the rank of that event alone tells whether a label may cross;
//   2  an activity that waits keeps `due`: at which sum of all falls it stops;
//   3  each activity keeps `up` and `down`: the lengths of the arcs of its next unit of flow and of its last one;
//   4  each event keeps the flow that enters it: where none does, nothing can be taken back there;
//   5  labels before the first step that an augmentation used up stay as they are;
//   6  the search from an event that lost its label ends as soon as the event has one again.
//
// The residual capacity of a step is computed on the way back from the end.
//
//   labels bench N        the benchmark's deck of N activities; prints what `pert bench N` prints
//   labels deck FILE      a deck without quotes, of the cards PROJECT, EVENT, ACT and PIECE; prints the points that `pert curve` prints
//
// Built with -DLOOKS it prints to standard error how often it looked at an activity. Built with -DWITHOUT=3 it does without idea 3, and so
// on; built with -DCOLUMNS it has what it keeps of events in columns, as the program does, and not in rows. The curve is the same.
#include <cstdint>
#include <cstdlib>
#include <cstring>
#include <iostream>
#include <memory>
#include <string>
#include <vector>

#include "plan.h"

using u32 = std::uint32_t;
using u64 = std::uint64_t;

constexpr u64 MAX = UINT64_MAX;

#ifdef LOOKS
static u64 looks = 0;
#define LOOK ++looks
#else
#define LOOK
#endif

#ifndef WITHOUT
#define WITHOUT 0
#endif
constexpr bool has(int idea) { return idea != WITHOUT; }

// From which gap on a unit of time costs more, and how much more.
struct Knee {
    u64 at, rise;
};

// What the network says of an activity. Its knees are `count` of all from `first` on.
struct Activity {
    u32 from, to;
    u64 normal, crash, cost;
    u32 first, count;
};

// An activity's flow, the lengths of the arcs of the next unit and of the last one (`down` means nothing where nothing flows), and the sum
// of falls at which the activity stops, where it waits.
struct Flow {
    u64 flow, up, down, due;
};

// An activity at an event, and the event at its other end.
struct Link {
    u32 activity, other;
};

// An event's time, with all falls added where the event has no label, and the flow that enters; its place in the queue counted from 1, or 0 if
// it has no label; and the step that gave the label: its activity, the event before it, and whether it goes against the activity.
#ifndef COLUMNS
struct Event {
    u64 time, inflow;
    u32 rank, step, near, against;
};
using Events = std::vector<Event>;
#else
struct Event {
    u64 &time, &inflow;
    u32 &rank, &step, &near, &against;
};

struct Events {
    u32 count = 0;
    std::unique_ptr<u64[]> time, inflow;
    std::unique_ptr<u32[]> rank, step, near, against;

    u32 size() const { return count; }
    void resize(u32 to) {
        count = to;
        for (auto column : {&time, &inflow}) *column = std::make_unique<u64[]>(to);
        for (auto column : {&rank, &step, &near, &against}) *column = std::make_unique<u32[]>(to);
    }
    Event operator[](u32 e) const { return {time[e], inflow[e], rank[e], step[e], near[e], against[e]}; }
};
#endif

// The units of flow on arcs of one length: from `below` up to `above`, without `above`.
struct Piece {
    u64 length, below, above;
};

struct Labels {
    u32 start = 0, end = 0;
    std::vector<Activity> activities;
    std::vector<Flow> flows;
    Events events;
    std::vector<Knee> knees;
    // The activities that leave event e are out[outs[e]] to out[outs[e + 1] - 1], and those that enter it the same.
    std::vector<u32> outs, ins, order;
    std::vector<Link> out, in;
    // The events with a label, those that lost it, the activities that wait, the place of each in this list counted from 1, and the residual
    // capacity of each step to the end.
    std::vector<u32> queue, lost, list, slot;
    std::vector<u64> capacity;
    u64 fallen = 0, slope = 0, cost = 0, fall = 0, length = 0, shortest = 0;
    u32 count = 0, head = 0, len = 0;
    bool given = false;

    void spread(u32 Activity::*side, u32 Activity::*other, std::vector<u32> &starts, std::vector<Link> &links) {
        starts.assign(events.size() + 1, 0);
        links.resize(activities.size());
        for (const Activity &a : activities) ++starts[a.*side + 1];
        for (u32 e = 0; e < events.size(); ++e) starts[e + 1] += starts[e];
        std::vector<u32> next(starts.begin(), starts.end() - 1);
        for (u32 a = 0; a < activities.size(); ++a) links[next[activities[a].*side]++] = {a, activities[a].*other};
    }

    // What is known before the solver begins: the activities at each event, an order of the events, and the memory.
    void lay_out() {
        spread(&Activity::from, &Activity::to, outs, out);
        spread(&Activity::to, &Activity::from, ins, in);
        std::vector<u32> missing(events.size());
        for (u32 e = 0; e < events.size(); ++e)
            if ((missing[e] = ins[e + 1] - ins[e]) == 0) order.push_back(e);
        for (u32 i = 0; i < order.size(); ++i)
            for (u32 k = outs[order[i]]; k < outs[order[i] + 1]; ++k)
                if (--missing[out[k].other] == 0) order.push_back(out[k].other);
        for (auto cells : {&queue, &lost}) cells->resize(events.size());
        for (auto cells : {&list, &slot}) cells->resize(activities.size());
        flows.resize(activities.size());
        capacity.resize(events.size());
    }

    u64 early(u64 Activity::*duration) {
        for (u32 e : order) {
            u64 latest = 0;
            for (u32 k = ins[e]; k < ins[e + 1]; ++k) latest = std::max(latest, events[in[k].other].time + activities[in[k].activity].*duration);
            events[e].time = latest;
        }
        return events[end].time;
    }

    __attribute__((noinline)) void begin() {
        shortest = early(&Activity::crash);
        length = early(&Activity::normal);
        for (u32 i = 0; i < activities.size(); ++i) {
            cost += activities[i].cost;
            flows[i].up = piece(i, 0).length;
        }
        queue[0] = start;
        events[start].rank = 1;
        count = 1;
    }

    // The arcs of the same length as that of this unit of the flow.
    Piece piece(u32 i, u64 unit) const {
        const Activity &a = activities[i];
        u64 below = 0;
        for (u32 k = a.first; k < a.first + a.count; ++k) {
            const u64 above = below + knees[k].rise;
            if (unit < above) return {knees[k].at, below, above};
            below = above;
        }
        return {a.crash, below, MAX};
    }

    // At which sum of falls an activity stops that a label may cross along it, or against it.
    u64 due_along(u32 i, const Event &from, const Event &to) const {
        return to.time - from.time - (has(3) ? flows[i].up : piece(i, flows[i].flow).length);
    }
    u64 due_against(u32 i, const Event &from, const Event &to) const {
        return (has(3) ? flows[i].down : piece(i, flows[i].flow - 1).length) + from.time - to.time;
    }
    u64 due(u32 i) const {
        if (has(2)) return flows[i].due;
        const Event &from = events[activities[i].from], &to = events[activities[i].to];
        return from.rank > 0 ? due_along(i, from, to) : due_against(i, from, to);
    }

    // The event at the other end of an activity that leaves an event, or enters it.
    u32 end_of(Link link) const { return has(1) ? link.other : activities[link.activity].to; }
    u32 begin_of(Link link) const { return has(1) ? link.other : activities[link.activity].from; }

    bool may_flow_back(u32 e) const { return !has(4) || events[e].inflow > 0; }

    bool crosses(u32 i) const {
        const bool to = events[activities[i].to].rank > 0;
        return events[activities[i].from].rank > 0 ? !to : to && flows[i].flow > 0;
    }

    void enter(u32 e, u32 i, u32 near, bool against) {
        auto &&event = events[e];
        event.time -= fallen;
        queue[count++] = e;
        event.rank = count;
        event.step = i;
        event.near = near;
        event.against = against;
    }

    // Gives the event at the far end of an activity its label, or has the activity wait. Returns whether it gave the label.
    bool cross(u32 i, u32 near, u32 far, bool against) {
        const u64 due = against ? due_against(i, events[far], events[near]) : due_along(i, events[near], events[far]);
        if (due == fallen) {
            enter(far, i, near, against);
            return true;
        }
        flows[i].due = due;
        if (slot[i] == 0) {
            list[len++] = i;
            slot[i] = len;
        }
        return false;
    }

    // Looks at all activities over which the label of an event may go on.
    void scan(u32 e) {
        for (u32 k = outs[e], stop = outs[e + 1]; k < stop; ++k) {
            LOOK;
            const u32 to = end_of(out[k]);
            if (events[to].rank == 0) cross(out[k].activity, e, to, false);
        }
        if (!may_flow_back(e)) return;
        for (u32 k = ins[e], stop = ins[e + 1]; k < stop; ++k) {
            LOOK;
            const u32 from = begin_of(in[k]);
            if (events[from].rank == 0 && flows[in[k].activity].flow > 0) cross(in[k].activity, e, from, true);
        }
    }

    // Looks for a label for an event that lost its own.
    void seek(u32 e) {
        bool found = false;
        if (may_flow_back(e))
            for (u32 k = outs[e], stop = outs[e + 1]; k < stop; ++k) {
                LOOK;
                const u32 to = end_of(out[k]);
                if (!found && events[to].rank > 0 && flows[out[k].activity].flow > 0) found = cross(out[k].activity, to, e, true);
                if (has(6) && found) return;
            }
        for (u32 k = ins[e], stop = ins[e + 1]; k < stop; ++k) {
            LOOK;
            const u32 from = begin_of(in[k]);
            if (!found && events[from].rank > 0) found = cross(in[k].activity, from, e, false);
            if (has(6) && found) return;
        }
    }

    // Gives the labels for which the fall has made way.
    void settle() {
        for (u32 k = 0; k < len; ++k) {
            const u32 i = list[k];
            if (has(2) && flows[i].due != fallen) continue;
            LOOK;
            if (!crosses(i) || due(i) != fallen) continue;
            const Activity &a = activities[i];
            if (events[a.from].rank > 0) enter(a.to, i, a.from, false);
            else enter(a.from, i, a.to, true);
        }
    }

    void grow() {
        while (head < count && events[end].rank == 0) scan(queue[head++]);
    }

    // Raises the flow along the steps that led to the end. Returns the place in the queue of the first step that it used up; each event
    // whose step it used up has lost its rank.
    u32 raise() {
        u64 by = MAX;
        u32 steps = 0, first = 0;
        for (u32 e = end; events[e].rank > 1; e = events[e].near) {
            const u32 i = events[e].step;
            const u64 flow = flows[i].flow;
            capacity[steps] = events[e].against ? flow - piece(i, flow - 1).below : piece(i, flow).above - flow;
            by = std::min(by, capacity[steps++]);
        }
        steps = 0;
        for (u32 e = end; events[e].rank > 1; e = events[e].near) {
            auto &&event = events[e];
            Flow &flow = flows[event.step];
            const bool used_up = capacity[steps++] == by;
            if (event.against) {
                flow.flow -= by;
                events[event.near].inflow -= by;
                flow.up = flow.down;
                if (used_up && flow.flow > 0) flow.down = piece(event.step, flow.flow - 1).length;
            } else {
                flow.flow += by;
                event.inflow += by;
                flow.down = flow.up;
                if (used_up) flow.up = piece(event.step, flow.flow).length;
            }
            if (used_up) {
                first = event.rank - 1;
                event.rank = 0;
            }
        }
        slope += by;
        return first;
    }

    // Takes the labels off the events whose steps are used up or come from an event that lost its label, and looks for new ones: from the
    // events that lost theirs, or from the start where those are more than the events that were scanned.
    void prune(u32 first) {
        if (!has(5)) first = 1;
        u32 kept = first, gone = 0, seen = head;
        for (u32 i = first; i < count; ++i) {
            const u32 e = queue[i];
            auto &&event = events[e];
            if (event.rank > 0 && events[event.near].rank > 0) {
                queue[kept++] = e;
                event.rank = kept;
            } else {
                event.rank = 0;
                event.time += fallen;
                lost[gone++] = e;
                if (i < head) --seen;
            }
        }
        count = kept;
        head = gone > seen ? 0 : seen;
        if (gone <= seen)
            for (u32 i = 0; i < gone; ++i) seek(lost[i]);
    }

    // The least sum of falls at which an activity stops. Those that labels no longer cross leave the list.
    u64 choose() {
        u32 kept = 0;
        u64 least = MAX;
        for (u32 k = 0; k < len; ++k) {
            const u32 i = list[k];
            LOOK;
            if (crosses(i)) {
                list[kept++] = i;
                slot[i] = kept;
                least = std::min(least, due(i));
            } else {
                slot[i] = 0;
            }
        }
        len = kept;
        return least;
    }

    __attribute__((noinline)) bool next_segment() {
        if (given && length - fall == shortest) return false;
        fallen += fall;
        length -= fall;
        cost += slope * fall;
        fall = 0;
        given = true;
        if (length > shortest) {
            settle();
            grow();
            while (events[end].rank > 0) {
                prune(raise());
                grow();
            }
            fall = choose() - fallen;
        }
        return true;
    }
};

static void add(Labels &curve, const PlanActivity &a) {
    const u32 first = u32(curve.knees.size());
    u64 below = a.crash, last = a.slope;
    for (const auto &piece : a.pieces) below += piece.first;
    curve.knees.push_back({a.normal, a.slope});
    for (const auto &piece : a.pieces) {
        curve.knees.push_back({below, piece.second - last});
        below -= piece.first;
        last = piece.second;
    }
    curve.activities.push_back({u32(a.from), u32(a.to), a.normal, a.crash, a.cost, first, u32(a.pieces.size()) + 1});
}

static Labels curve_of(const Plan &plan) {
    Labels curve;
    for (const PlanActivity &a : plan.activities) add(curve, a);
    curve.events.resize(plan.events);
    curve.start = u32(plan.start);
    curve.end = u32(plan.end);
    return curve;
}

int main(int count, char **words) {
    const bool is_bench = count == 3 && !std::strcmp(words[1], "bench");
    if (!is_bench && !(count == 3 && !std::strcmp(words[1], "deck"))) return 2;
    Labels curve = curve_of(is_bench ? bench_plan(std::stoull(words[2])) : deck_plan(words[2]));
    curve.lay_out();
    curve.begin();
    const u64 longest = curve.length, first_cost = curve.cost;
    u64 slope = MAX, breaks = 1, length = longest, cost = first_cost;
    unsigned __int128 sum = cost;
    while (curve.next_segment()) {
        if (curve.slope != slope && curve.fall > 0) {
            ++breaks;
            if (!is_bench) std::cout << curve.length << ' ' << curve.cost << ' ' << curve.slope << '\n';
        }
        slope = curve.slope;
        for (u64 u = 1; u <= curve.fall; ++u) sum += curve.cost + curve.slope * u;
        length = curve.length - curve.fall;
        cost = curve.cost + curve.slope * curve.fall;
    }
    if (!is_bench)
        std::cout << length << ' ' << cost << " -\n";
    else
        std::cout << "BENCH " << words[2] << "\nNORMAL " << longest << ' ' << first_cost << "\nCRASH " << length << ' ' << cost << "\nBREAKS "
                  << breaks << "\nSUM " << u64(sum) << '\n';
#ifdef LOOKS
    std::cerr << looks << '\n';
#endif
    return 0;
}
