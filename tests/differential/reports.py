#!/usr/bin/env python3
"""Compares `load P` and `optimum` with a plain computation, on many small decks. It is outside
the gate.

    tests/differential/reports.py [COUNT [SEED]] [--programs FOLDER]     COUNT decks (default: 1000), the same ones for a seed

Each deck has two to five events, up to six activities, a tree of items with up to three levels,
resources with loads, and terms of time. The complete text of `load` is computed from the
estimates; the length, the costs, BELOW and ABOVE of `optimum` from all schedules. The schedule of
`optimum` is checked line by line: it must be possible and cost what it says. The script shares no
code with the program.
"""

from __future__ import annotations

import datetime
import itertools
import os
import random
import subprocess
import sys
from collections.abc import Iterator, Sequence

TOP = os.path.dirname(os.path.dirname(os.path.dirname(os.path.abspath(__file__))))

# The two events, the item, the three estimates, the two durations, the cost and the slope
Activity = tuple[int, int, int, int, int, int, int, int, int, int]


def drawn_activity(draw: random.Random, begin: int, end: int, leaves: list[int]) -> Activity:
    """Draws the numbers of an activity. One in five takes no time."""
    opt = draw.choice([0, 1, 2, 3])
    likely = opt + draw.choice([0, 1, 2])
    pess = likely + draw.choice([0, 1, 5])
    if draw.random() < 0.2:
        opt = likely = pess = 0
    normal = draw.choice([0, 1, 2, 3])
    crash = draw.randint(0, normal)
    item = draw.choice(leaves)
    cost, slope = draw.choice([0, 7, 100, 12345]), draw.choice([0, 1, 4, 9])
    return begin, end, item, opt, likely, pess, normal, crash, cost, slope


class Deck:
    """A generated deck, as plain data."""

    def __init__(self, draw: random.Random) -> None:
        """Draws a deck. The order of the draws decides which deck a seed gives."""
        self.events = draw.randint(2, 5)
        self.unit = draw.choice([1, 1, 2, 7])
        ends = [(e, e + 1) for e in range(self.events - 1)]
        while len(ends) < 6 and draw.random() < 0.7:
            begin = draw.randrange(self.events - 1)
            ends.append((begin, draw.randint(begin + 1, self.events - 1)))
        self.items: list[tuple[str, int | None]] = [("W", None)]
        for i in range(draw.randint(1, 6)):
            self.items.append(("W%d" % i, draw.randrange(len(self.items))))
        parents = {parent for _, parent in self.items}
        leaves = [i for i in range(len(self.items)) if i not in parents]
        self.acts = [drawn_activity(draw, *two, leaves) for two in ends]
        self.resources = draw.randint(0, 3)
        self.loads = [
            (
                draw.randrange(len(self.acts)),
                draw.randrange(self.resources),
                draw.choice([0, 1, 7, 1000]),
            )
            for _ in range(draw.randint(0, 6) if self.resources else 0)
        ]
        penalty = draw.choice([0, 3, 10])
        self.terms = (
            draw.choice([0, 1, 3, 4, 20]),
            draw.randint(0, 8),
            draw.randint(0, penalty),
            penalty,
        )

    def text(self) -> str:
        """Returns the deck as cards."""
        lines = ["PROJECT,N,E0,E%d,2024-01-01,%d,," % (self.events - 1, self.unit)]
        lines += ["TERMS,%d,%d,%d,%d" % self.terms]
        lines += [
            "WBS,%s,%s," % (code, "" if up is None else self.items[up][0])
            for code, up in self.items
        ]
        lines += ["EVENT,E%d," % e for e in range(self.events)]
        for a, (begin, end, item, *numbers) in enumerate(self.acts):
            lines.append(
                "ACT,A%d,E%d,E%d,%s,%s,"
                % (a, begin, end, self.items[item][0], ",".join(map(str, numbers)))
            )
        for i, (code, _) in enumerate(self.items):
            cost = sum(act[8] for act in self.acts if act[2] == i)
            if cost:
                lines.append("ACCT,X%d,%s,%d," % (i, code, cost))
        lines += ["RES,R%d," % r for r in range(self.resources)]
        lines += ["LOAD,A%d,R%d,%d" % load for load in self.loads]
        return "\n".join(lines + ["END", ""])

    def early(self, lengths: Sequence[int]) -> list[int]:
        """Returns the earliest time of each event, if the activities take these times."""
        times = [0] * self.events
        for e in range(1, self.events):
            times[e] = max(
                times[act[0]] + length for act, length in zip(self.acts, lengths) if act[1] == e
            )
        return times

    def preorder(self, item: int = 0) -> Iterator[int]:
        """Gives an item and those below it, in the order of a report."""
        yield item
        for child, (_, parent) in enumerate(self.items):
            if parent == item:
                yield from self.preorder(child)

    def is_below(self, item: int | None, other: int) -> bool:
        """Whether an item is another, or lies below it."""
        while item is not None:
            if item == other:
                return True
            item = self.items[item][1]
        return False


def share(begin: int, length: int, amount: int, t: int) -> int:
    """Returns how much of an even load has come by a time. One without a length comes at once."""
    if t <= begin:
        return 0
    return amount if t >= begin + length else amount * (t - begin) // length


def load_text(deck: Deck, days: int) -> str:
    """Returns the complete text of the report, with periods of so many days."""
    lengths = [(act[3] + 4 * act[4] + act[5]) * deck.unit for act in deck.acts]
    times = deck.early(lengths)
    periods = times[-1] // (6 * days) + 1

    def part(a: int, amount: int, k: int) -> int:
        """Returns what an activity puts into a period."""
        begin, length = times[deck.acts[a][0]], lengths[a]
        return share(begin, length, amount, 6 * days * (k + 1)) - share(
            begin, length, amount, 6 * days * k
        )

    start = datetime.date(2024, 1, 1)
    lines = ["LOAD N %d" % days]
    lines += [
        "%-16s %6d %s" % ("PERIOD", k, start + datetime.timedelta(days=days * k))
        for k in range(periods)
    ]
    lines.append("ITEMS")
    for item in deck.preorder():
        for k in range(periods):
            amount = sum(
                part(a, act[8], k) for a, act in enumerate(deck.acts) if deck.is_below(act[2], item)
            )
            if amount:
                lines.append("%-16s %6d %14d" % (deck.items[item][0], k, amount))
    lines.append("RESOURCES")
    for resource in range(deck.resources):
        for k in range(periods):
            amount = sum(part(a, quantity, k) for a, r, quantity in deck.loads if r == resource)
            if amount:
                lines.append("%-16s %6d %14d" % ("R%d" % resource, k, amount))
    return "\n".join(lines) + "\n"


def cost_of(deck: Deck, durations: Sequence[int]) -> int:
    """Returns what the activities cost with these durations."""
    return sum(act[8] + act[9] * (act[6] - d) for act, d in zip(deck.acts, durations))


def optimum(deck: Deck) -> list[str]:
    """The seven lines of the optimum before its schedule."""
    found: dict[int, int] = {}
    for durations in itertools.product(*(range(act[7], act[6] + 1) for act in deck.acts)):
        length = deck.early(durations)[-1]
        cost = cost_of(deck, durations)
        found[length] = min(cost, found.get(length, cost))
    shortest = deck.early([act[7] for act in deck.acts])[-1]
    longest = deck.early([act[6] for act in deck.acts])[-1]
    least = {
        at: min(cost for length, cost in found.items() if length <= at)
        for at in range(shortest, longest + 1)
    }
    overhead, target, bonus, penalty = deck.terms
    time = {
        at: overhead * at + penalty * max(0, at - target) - bonus * max(0, target - at)
        for at in least
    }
    total = {at: least[at] + time[at] for at in least}
    best = min(total, key=lambda at: (total[at], at))
    below = str(total[best - 1] - total[best]) if best > shortest else "-"
    above = str(total[best + 1] - total[best]) if best < longest else "-"
    return [
        "OPTIMUM N",
        "LENGTH %d" % best,
        "DIRECT %d" % least[best],
        "TIME %d" % time[best],
        "TOTAL %d" % total[best],
        "BELOW " + below,
        "ABOVE " + above,
    ]


def is_schedule(deck: Deck, lines: list[str], length: int, cost: int) -> bool:
    """The lines of events and activities are those of a schedule for the length at this cost."""
    times = [int(line.split()[2]) for line in lines[: deck.events]]
    durations = [int(line.split()[2]) for line in lines[deck.events :]]
    named = ["EVENT E%d" % e for e in range(deck.events)] + [
        "ACT A%d" % a for a in range(len(deck.acts))
    ]
    return (
        [line.rsplit(" ", 1)[0] for line in lines] == named
        and times[0] == 0
        and times[-1] <= length
        and all(
            act[7] <= d <= act[6] and times[act[0]] + d <= times[act[1]]
            for act, d in zip(deck.acts, durations)
        )
        and cost_of(deck, durations) == cost
    )


def main() -> None:
    """Compares deck by deck, and ends at the first that differs."""
    words = sys.argv[1:]
    folder = words[words.index("--programs") + 1] if "--programs" in words else None
    numbers = [int(word) for word in words if word.isdigit()]
    count = numbers[0] if numbers else 1000
    draw = random.Random(numbers[1] if len(numbers) > 1 else 7)
    pert = (
        os.path.join(folder, "pert")
        if folder
        else os.path.join(TOP, "crates", "pert", "out", "pert")
    )

    def run(deck: Deck, *form: str) -> str:
        """Returns what the program prints, or how it ended."""
        told = subprocess.run(
            [pert, *form], input=deck.text(), capture_output=True, text=True, check=False
        )
        return (
            told.stdout
            if told.returncode == 0
            else "status %d: %s" % (told.returncode, told.stderr)
        )

    for number in range(count):
        deck = Deck(draw)
        days = draw.choice([1, 2, 7, 30])
        told, wanted = run(deck, "load", str(days)), load_text(deck, days)
        if told != wanted:
            print(deck.text(), "load", days, "\nTOLD\n", told, "\nWANTED\n", wanted, sep="")
            sys.exit("differential: load of deck %d differs" % number)
        lines, best = run(deck, "optimum").splitlines(), optimum(deck)
        if lines[:7] != best or not is_schedule(
            deck, lines[7:], int(best[1].split()[1]), int(best[2].split()[1])
        ):
            print(deck.text(), "TOLD", *lines, "WANTED", *best, sep="\n")
            sys.exit("differential: optimum of deck %d differs" % number)
    print("differential: %d decks, load and optimum are those of a plain computation" % count)


if __name__ == "__main__":
    main()
