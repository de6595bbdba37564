#!/usr/bin/env python3
"""Writes a large deck to standard output, the same one each time.

    tests/speed/large-deck.py plain [EVENTS ACTIVITIES]    a plain deck (default: 5000 events, 10000 activities)
    tests/speed/large-deck.py full                         as many cards of each kind as a deck may have, about 32 MB
    tests/speed/large-deck.py limits [CODES]               as many cards of each kind as a deck of version 2 may have; CODES is a file of
                                                        codes: each kind takes its codes from it,
                                                        beginning with the first line
    tests/speed/large-deck.py cycle [ACTIVITIES]           activities in a cycle, after as many as allowed that leave it
                                                        (default: 4998, through all events but the
                                                        start and the end; above
                                                        that a deck of version 2, at most 9998)
    tests/speed/large-deck.py loop [ITEMS]                 items in a loop, after the others, which hang below it in a row
                                                        (default: 9999, all but the top item)

    tests/speed/large-deck.py bench N                      the benchmark's deck of N activities
    tests/speed/large-deck.py wide EVENTS ACTIVITIES [PIECES [LAYERS [SLOPE]]]     events in LAYERS layers (default: 40), activities from each to the next
    tests/speed/large-deck.py long EVENTS ACTIVITIES [PIECES [SLOPE]]      events in a row, activities over at most 40 of them
    tests/speed/large-deck.py series EVENTS ACTIVITIES [PIECES [SLOPE]]    a series-parallel network
    tests/speed/large-deck.py parallel ACTIVITIES          activities side by side between two events, each with a duration of its own
    tests/speed/large-deck.py star EVENTS                  one event with an activity to each of the others but two, and from each of them to the end
    tests/speed/large-deck.py doubling LEVELS              a curve whose breakpoints double with each level: 2 to the power LEVELS
    tests/speed/large-deck.py tasks [TASKS AFTERS]         a deck of tasks: a chain and further AFTER cards (default: 4000 and 8000)

In `wide`, `long` and `series` slopes are at most SLOPE (default: 99), and the cost of each
activity has up to PIECES further pieces, each dearer by at most SLOPE; the deck has version 2 if
it is too large for version 1. All decks are accepted except `cycle` and `loop`, which are refused
with a fault that names the complete cycle or loop.
"""

from __future__ import annotations

import random
import sys
from collections.abc import Callable

Write = Callable[[str], object]
Text = Callable[[int], str]
# The two events of each activity
Ends = list[tuple[int, int]]


def title(number: int) -> str:
    """A title of eighty bytes."""
    return (
        "Title of card number %d; with some words to fill it up to eighty bytes or so...." % number
    )[:80]


def network(write: Write, events: int, activities: int, item: Text, words: Text) -> list[int]:
    """The events and the activities; gives what each activity costs, which is what an account is
    to have as its budget.
    """
    costs = []
    for number in range(events):
        write("EVENT,E%d,%s\n" % (number, words(number)))
    for number in range(activities):
        # First a chain from the start to the end, and then activities that skip up to 40 events.
        begin = number if number < events - 1 else random.randrange(events - 1)
        end = (
            begin + 1 if number < events - 1 else min(events - 1, begin + 1 + random.randrange(40))
        )
        normal = random.randint(1, 20)
        crash = random.randint(0, normal)
        costs.append(random.randint(10, 9_999_999))
        write(
            "ACT,A%d,E%d,E%d,%s,%d,%d,%d,%d,%d,%d,%d,%s\n"
            % (
                number,
                begin,
                end,
                item(number),
                normal,
                normal,
                normal + 2,
                normal,
                crash,
                costs[number],
                random.randint(1, 999_999),
                words(number),
            )
        )
    return costs


def plain(write: Write, events: int = 5000, activities: int = 10000) -> None:
    """A deck with few kinds of cards, as planners have it."""
    write("PROJECT,PLAIN,E0,E%d,2024-01-01,1,,A large plain deck\n" % (events - 1))
    write("WBS,1,,Whole\nWBS,1.1,1,Work\n")
    costs = network(
        write, events, activities, lambda number: "1.1", lambda number: "Card number %d" % number
    )
    write("ACCT,X,1.1,%d,\nEND\n" % sum(costs))


def full(write: Write) -> None:
    """As many cards of each kind as a deck of version 1 may have."""
    write(
        "PROJECT,FULL,E0,E4999,2024-01-01,1,,As many cards as there may be\nASOF,2024-06-01\nWBS,TOP,,Whole\n"
    )
    for number in range(1, 10000):
        write('WBS,ITEM-%d,TOP,"%s"\n' % (number, title(number)))
    costs = network(write, 5000, 10000, lambda number: "ITEM-%d" % (1 + number % 9999), title)
    for number in range(10000):
        write(
            "ACCT,ACCOUNT-%d,ITEM-%d,%d,%s\n"
            % (number, 1 + number % 9999, costs[number], title(number))
        )
    for number in range(200000):
        write(
            "CHARGE,ACCOUNT-%d,2024-%02d-%02d,%d%s\n"
            % (
                random.randrange(10000),
                1 + number % 12,
                1 + number % 28,
                random.randint(0, 10**9),
                "," * 56,
            )
        )
    # Of each account one amount to go a month.
    for number in range(100000):
        write(
            "TOGO,ACCOUNT-%d,2024-%02d-%02d,%d%s\n"
            % (
                number % 10000,
                1 + number // 10000,
                1 + number % 28,
                random.randint(0, 10**9),
                "," * 36,
            )
        )
    for number in range(10000):
        write("STATUS,A%d,S,2024-01-02\nSTATUS,A%d,F,2024-01-09\n" % (number, number))
    write("END\n")


EVENTS, ACTIVITIES, ITEMS, ACCOUNTS, CREWS = 10000, 20000, 9999, 10000, 1000
Code = Callable[[str, int], str]


def limits(write: Write, codes: str | None = None) -> None:
    """As many cards of each kind as a deck of version 2 may have."""
    called: list[str] = []
    if codes:
        with open(codes, encoding="utf-8") as file:
            called = file.read().split()

    def code(kind: str, number: int) -> str:
        """The code of a card: from the file, or made of its kind and number."""
        return called[number] if called else kind + str(number)

    write(
        "PROJECT,LIMITS,%s,%s,2024-01-01,1,,%s,2\n"
        % (code("E", 0), code("E", EVENTS - 1), title(0))
    )
    write("ASOF,2024-06-01\nTERMS,4,6,2,10\nWBS,TOP,,Whole\n")
    for number in range(1, ITEMS + 1):
        write('WBS,%s,TOP,"%s"\n' % (code("ITEM-", number), title(number).replace(";", ",")))
    for number in range(EVENTS):
        write("EVENT,%s,%s\n" % (code("E", number), title(number)))
    limits_of_money(write, code, limits_of_work(write, code))
    for number in range(ACTIVITIES):
        of = code("A", number)
        write("STATUS,%s,S,2024-01-02\nSTATUS,%s,F,2024-01-09\n" % (of, of))
    for number in range(CREWS):
        write("RES,%s,%s\n" % (code("CREW-", number), title(number)))
    for number in range(40000):
        crew, amount = code("CREW-", number % CREWS), random.randint(0, 10**12)
        write("LOAD,%s,%s,%d\n" % (code("A", number % ACTIVITIES), crew, amount))
    write("END\n")


def limits_of_work(write: Write, code: Code) -> list[int]:
    """The activities with four pieces each; returns the budget of each account."""
    budgets = [0] * ACCOUNTS
    for number in range(ACTIVITIES):
        is_chain = number < EVENTS - 1
        begin = number if is_chain else random.randrange(EVENTS - 1)
        end = begin + 1 if is_chain else min(EVENTS - 1, begin + 1 + random.randrange(40))
        cost, slope = random.randint(10, 9_999_999), random.randint(1, 999_999)
        budgets[number % ITEMS] += cost
        item = code("ITEM-", 1 + number % ITEMS)
        crash = random.randint(0, 7)
        write("ACT,%s,%s,%s,%s," % (code("A", number), code("E", begin), code("E", end), item))
        write("12,12,14,12,%d,%d,%d,%s\n" % (crash, cost, slope, title(number)))
        for _ in range(4):
            slope += random.randint(1, 99)
            write("PIECE,%s,1,%d\n" % (code("A", number), slope))
    return budgets


def limits_of_money(write: Write, code: Code, budgets: list[int]) -> None:
    """The accounts, their charges, and of each account one amount to go a month."""
    for number in range(ACCOUNTS):
        item = code("ITEM-", 1 + number % ITEMS)
        write(
            "ACCT,%s,%s,%d,%s\n" % (code("ACCOUNT-", number), item, budgets[number], title(number))
        )
    for number in range(500000):
        of = code("ACCOUNT-", random.randrange(ACCOUNTS))
        day = "2024-%02d-%02d" % (1 + number % 12, 1 + number % 28)
        write("CHARGE,%s,%s,%d\n" % (of, day, random.randint(0, 10**12)))
    for number in range(100000):
        day = "2024-%02d-%02d" % (1 + number // ACCOUNTS, 1 + number % 28)
        amount = random.randint(0, 10**12)
        write("TOGO,%s,%s,%d\n" % (code("ACCOUNT-", number % ACCOUNTS), day, amount))


def cycle(write: Write, activities: int = 4998) -> None:
    """Activities in a cycle, which the program has to name."""

    def activity(code: str, begin: int, end: int) -> None:
        """An activity that takes no time off."""
        write("ACT,%s,E%d,E%d,1,1,1,1,1,1,0,0,\n" % (code, begin, end))

    version, most = ("", 10000) if activities <= 4998 else (",2", 20000)
    write(
        "PROJECT,CYCLE,E0,E%d,2024-01-01,1,,Activities in a cycle%s\nWBS,1,,Whole\n"
        % (activities + 1, version)
    )
    for number in range(activities + 2):
        write("EVENT,E%d,\n" % number)
    for number in range(most - 1 - activities):
        activity("OUT-%d" % number, 1 + number % activities, activities + 1)
    activity("IN", 0, 1)
    for number in range(1, activities + 1):
        activity("A%d" % number, number, 1 + number % activities)
    write("END\n")


def loop(write: Write, items: int = 9999) -> None:
    """Items in a loop, which the program has to name."""
    write("PROJECT,LOOP,S,T,2024-01-01,1,,Items in a loop\nWBS,TOP,,Whole\n")
    for number in range(1, 10000):
        write("WBS,ITEM-%d,ITEM-%d,\n" % (number, number + 1 if number < 9999 else 10000 - items))
    write("EVENT,S,\nEVENT,T,\nACT,A,S,T,TOP,1,1,1,1,1,0,0,\nEND\n")


def bench(write: Write, count: int) -> None:
    """What `pert bench` solves, as a deck."""
    state = count

    def draw() -> int:
        """The next number of the benchmark's own sequence."""
        nonlocal state
        state = (75 * state + 74) % 65537
        return state

    last = (count + 1) // 2
    write("PROJECT,BENCH,E0,E%d,2024-01-01,1,,Bench\nWBS,1,,Bench\n" % last)
    for number in range(last + 1):
        write("EVENT,E%d,\n" % number)
    costs = 0
    for number in range(1, count + 1):
        begin, end = number - 1, number
        if number > last:
            begin = draw() % last
            end = min(last, begin + 1 + draw() % 4)
        normal = (end - begin) * (1 + draw() % 20)
        crash = draw() % (normal + 1)
        slope = 1 + draw() % 9
        cost = 10 + draw() % 90
        costs += cost
        write(
            "ACT,A%d,E%d,E%d,1,%d,%d,%d,%d,%d,%d,%d,\n"
            % (number, begin, end, normal, normal, normal, normal, crash, cost, slope)
        )
    write("ACCT,X,1,%d,\nEND\n" % costs)


def priced(write: Write, name: str, events: int, ends: Ends, pieces: int, steepest: int) -> None:
    """A deck of activities between these ends, each with durations, slope and pieces drawn."""
    version = 2 if events > 5000 or len(ends) > 10000 else 1
    write("PROJECT,%s,E0,E%d,2024-01-01,1,,,%d\nWBS,1,,Work\n" % (name, events - 1, version))
    for number in range(events):
        write("EVENT,E%d,\n" % number)
    costs = 0
    for number, (begin, end) in enumerate(ends):
        normal = random.randint(2, 40)
        crash = random.randint(0, normal - 1)
        cost = random.randint(10, 9_999)
        slope = random.randint(1, steepest)
        costs += cost
        write(
            "ACT,A%d,E%d,E%d,1,%d,%d,%d,%d,%d,%d,%d,\n"
            % (number, begin, end, normal, normal, normal, normal, crash, cost, slope)
        )
        left = normal - crash - 1
        for _ in range(random.randint(0, pieces)):
            if left > 0:
                units = random.randint(1, left)
                slope += random.randint(1, steepest)
                left -= units
                write("PIECE,A%d,%d,%d\n" % (number, units, slope))
    write("ACCT,X,1,%d,\nEND\n" % costs)


def wide(
    write: Write,
    events: int,
    activities: int,
    pieces: int = 0,
    layers: int = 40,
    steepest: int = 99,
) -> None:
    """Events in layers, with activities from each layer to the next."""
    within = events - 2
    layer = [
        [1 + e for e in range(i * within // layers, (i + 1) * within // layers)]
        for i in range(layers)
    ]
    ends = [(0, e) for e in layer[0]] + [(e, events - 1) for e in layer[-1]]
    for here, there in zip(layer, layer[1:]):
        for k in range(max(len(here), len(there))):
            ends.append((here[k % len(here)], there[k % len(there)]))
    while len(ends) < activities:
        i = random.randrange(layers - 1)
        ends.append((random.choice(layer[i]), random.choice(layer[i + 1])))
    priced(write, "WIDE", events, ends, pieces, steepest)


def long(write: Write, events: int, activities: int, pieces: int = 0, steepest: int = 99) -> None:
    """Events in a row, with activities over at most 40 of them."""
    ends = [(e, e + 1) for e in range(events - 1)]
    while len(ends) < activities:
        begin = random.randrange(events - 1)
        ends.append((begin, min(events - 1, begin + 1 + random.randrange(40))))
    priced(write, "LONG", events, ends, pieces, steepest)


def series(write: Write, events: int, activities: int, pieces: int = 0, steepest: int = 99) -> None:
    """From one activity, each step puts two in a row or side by side in place of one that is
    drawn.
    """
    ends, places = [(0, events - 1)], 2
    while len(ends) < activities:
        number = random.randrange(len(ends))
        begin, end = ends[number]
        # So many more events and activities are needed that all of the former are placed among the
        # latter.
        if random.randrange(activities - len(ends)) < events - places:
            ends[number] = (begin, places - 1)
            ends.append((places - 1, end))
            places += 1
        else:
            ends.append((begin, end))
    priced(write, "SERIES", events, ends, pieces, steepest)


def broad(write: Write, name: str, events: int, ends: Ends) -> None:
    """A deck of activities between these ends, where the length falls in about as many steps as
    there are activities: durations are up to 99,999 days, and each may fall to nothing."""
    version = 2 if events > 5000 or len(ends) > 10000 else 1
    write("PROJECT,%s,E0,E%d,2024-01-01,1,,,%d\nWBS,1,,Work\n" % (name, events - 1, version))
    for number in range(events):
        write("EVENT,E%d,\n" % number)
    for number, (begin, end) in enumerate(ends):
        normal = random.randint(2, 99_999)
        slope = random.randint(1, 99)
        fields = (number, begin, end, normal, normal, normal, normal, slope)
        write("ACT,A%d,E%d,E%d,1,%d,%d,%d,%d,0,0,%d,\n" % fields)
    write("ACCT,X,1,0,\nEND\n")


def parallel(write: Write, activities: int) -> None:
    """Activities side by side between two events."""
    broad(write, "PARALLEL", 2, [(0, 1)] * activities)


def star(write: Write, events: int) -> None:
    """Activities from the start to each event, and from there to the end."""
    middle = range(1, events - 1)
    ends = [end for event in middle for end in ((0, event), (event, events - 1))]
    broad(write, "STAR", events, ends)


def doubling(write: Write, levels: int) -> None:
    """Each level carries as much flow again, at first through the level below and then back
    through it, so that the curve turns twice as often (after Zadeh 1973, whose networks do so for
    shortest augmenting paths). A way that is longer than an activity may be is two."""
    longest, shortest, capacity, start, end = 1, 1, 1, "A1", "B1"
    events, arcs = [start, end], [(start, end, 1, 1)]

    def way(begin: str, stop: str, length: int) -> None:
        """An activity, or two if one may not be so long."""
        if length > 100_000:
            middle = "M%d" % len(arcs)
            events.append(middle)
            arcs.append((begin, middle, length - length // 2, capacity))
            begin, length = middle, length // 2
        arcs.append((begin, stop, length, capacity))

    for level in range(2, levels + 1):
        across = longest + 1
        along = across - shortest
        first, last = "A%d" % level, "B%d" % level
        events += [first, last]
        way(first, start, along + 1)
        way(end, last, along)
        way(first, end, across)
        way(start, last, across)
        longest, shortest = 2 * along + 1 + longest, 2 * across - longest
        capacity, start, end = 2 * capacity, first, last
    write("PROJECT,DOUBLING,%s,%s,2024-01-01,1,,,2\nWBS,W,,Whole\nWBS,V,W,Work\n" % (start, end))
    for event in events:
        write("EVENT,%s,\n" % event)
    for number, (begin, stop, normal, slope) in enumerate(arcs):
        write(
            "ACT,T%d,%s,%s,V,%d,%d,%d,%d,0,0,%d,\n"
            % (number, begin, stop, normal, normal, normal, normal, slope)
        )
    write("ACCT,A,V,0,\nEND\n")


def tasks(write: Write, count: int = 4000, afters: int = 8000) -> None:
    """A deck of tasks, in a chain with further AFTER cards."""
    write("PROJECT,TASKS,S,T,2024-01-01,1,,A large deck of tasks\nWBS,1,,Whole\nWBS,1.1,1,Work\n")
    costs = 0
    for number in range(count):
        normal = random.randint(1, 20)
        cost = random.randint(10, 9_999)
        costs += cost
        write(
            "TASK,A%d,1.1,%d,%d,%d,%d,%d,%d,%d,Card number %d\n"
            % (
                number,
                normal,
                normal,
                normal + 2,
                normal,
                random.randint(0, normal),
                cost,
                random.randint(1, 99),
                number,
            )
        )
    for number in range(afters):
        # First a chain, and then tasks that come after one of the 40 before them.
        task = number + 1 if number < count - 1 else random.randrange(1, count)
        write(
            "AFTER,A%d,A%d\n"
            % (task, task - 1 if number < count - 1 else max(0, task - 1 - random.randrange(40)))
        )
    write("ACCT,X,1.1,%d,\nEND\n" % costs)


DECKS: dict[str, Callable[..., None]] = {
    "plain": plain,
    "full": full,
    "limits": limits,
    "cycle": cycle,
    "loop": loop,
    "bench": bench,
    "wide": wide,
    "long": long,
    "series": series,
    "parallel": parallel,
    "star": star,
    "doubling": doubling,
    "tasks": tasks,
}


def main() -> None:
    """Writes the deck that is named."""
    random.seed(7)
    if not sys.argv[1:] or sys.argv[1] not in DECKS:
        sys.exit(__doc__)
    words = (int(word) if word.isdigit() else word for word in sys.argv[2:7])
    DECKS[sys.argv[1]](sys.stdout.write, *words)


if __name__ == "__main__":
    main()
