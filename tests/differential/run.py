#!/usr/bin/env python3
"""Compares the curve that `pert certify` writes with every schedule, on many small networks. It
is outside the gate.

    tests/differential/run.py [COUNT [SEED]] [--programs FOLDER]     COUNT networks (default: 2000), the same ones for a seed

Each network has two to five events and up to six activities, with pieces, slopes of 0, dummies,
parallel activities, and activities that can't be shortened. The least cost of each length is
searched for among all whole durations, and must equal the cost in the certificate at that length.
Each certificate also goes through `pert_check`. The script shares no code with the program.
"""

from __future__ import annotations

import itertools
import os
import random
import re
import subprocess
import sys
import tempfile
from collections.abc import Sequence

TOP = os.path.dirname(os.path.dirname(os.path.dirname(os.path.abspath(__file__))))

# The two events, the durations, the cost, what each unit costs by which it is shortened, and its
# pieces
Activity = tuple[int, int, int, int, int, list[int], list[tuple[int, int]]]


def network(draw: random.Random) -> tuple[int, list[Activity]]:
    """A network in which each event lies on a way from the first to the last, as a list of
    activities.
    """
    events = draw.randint(2, 5)
    ends = [(e, e + 1) for e in range(events - 1)]
    while len(ends) < 6 and draw.random() < 0.75:
        begin = draw.randrange(events - 1)
        ends.append((begin, draw.randint(begin + 1, events - 1)))
    activities: list[Activity] = []
    for begin, end in ends:
        normal = draw.choice([0, 1, 2, 3, 4])
        crash = draw.randint(0, normal)
        slopes: list[int] = []
        left, slope = normal - crash, draw.choice([0, 1, 2, 5])
        pieces: list[int] = []
        first = left
        while first > 1 and len(pieces) < 2 and draw.random() < 0.5:
            units = draw.randint(1, first - 1)
            pieces.append(units)
            first -= units
        slopes += [slope] * first
        rows = []
        for units in pieces:
            slope += draw.randint(1, 4)
            rows.append((units, slope))
            slopes += [slope] * units
        activities.append((begin, end, normal, crash, draw.randint(0, 9), slopes, rows))
    return events, activities


def deck(events: int, activities: list[Activity]) -> str:
    """Returns a network as the cards of a deck."""
    lines = ["PROJECT,N,E0,E%d,2024-01-01,1,," % (events - 1), "WBS,1,,"]
    lines += ["EVENT,E%d," % e for e in range(events)]
    for a, (begin, end, normal, crash, cost, slopes, rows) in enumerate(activities):
        slope = slopes[0] if slopes else 0
        lines.append(
            "ACT,A%d,E%d,E%d,1,%d,%d,%d,%d,%d,%d,%d,"
            % (a, begin, end, normal, normal, normal, normal, crash, cost, slope)
        )
        lines += ["PIECE,A%d,%d,%d" % (a, units, slope) for units, slope in rows]
    lines.append("ACCT,X,1,%d," % sum(activity[4] for activity in activities))
    return "\n".join(lines + ["END", ""])


def length_of(events: int, activities: list[Activity], durations: Sequence[int]) -> int:
    """Returns the length of the project with these durations."""
    times = [0] * events
    for e in range(1, events):
        times[e] = max(times[a[0]] + d for a, d in zip(activities, durations) if a[1] == e)
    return times[-1]


def least_costs(events: int, activities: list[Activity]) -> dict[int, int]:
    """The least cost of each length from the all-crash to the all-normal one, among all
    whole-number durations.
    """
    found: dict[int, int] = {}
    for durations in itertools.product(*(range(a[3], a[2] + 1) for a in activities)):
        length = length_of(events, activities, durations)
        cost = sum(a[4] + sum(a[5][: a[2] - d]) for a, d in zip(activities, durations))
        found[length] = min(cost, found.get(length, cost))
    shortest = length_of(events, activities, [a[3] for a in activities])
    longest = length_of(events, activities, [a[2] for a in activities])
    return {
        at: min(cost for length, cost in found.items() if length <= at)
        for at in range(shortest, longest + 1)
    }


def certified_costs(text: str) -> dict[int, int]:
    """Returns what a certificate says that each length costs."""
    costs: dict[int, int] = {}
    for upper, lower, cost, slope in re.findall(
        r"^SEGMENT (\d+) (\d+) (\d+) (\d+)$", text, flags=re.M
    ):
        for at in range(int(lower), int(upper) + 1):
            costs[at] = int(cost) + int(slope) * (int(upper) - at)
    return costs


def main() -> None:
    """Compares network by network, and ends at the first that differs."""
    words = sys.argv[1:]
    folder = words[words.index("--programs") + 1] if "--programs" in words else None
    numbers = [int(word) for word in words if word.isdigit()]
    count = numbers[0] if numbers else 2000
    draw = random.Random(numbers[1] if len(numbers) > 1 else 7)
    pert, check = (
        os.path.join(folder, name) if folder else os.path.join(TOP, "crates", name, "out", name)
        for name in ("pert", "pert_check")
    )
    with tempfile.TemporaryDirectory() as scratch:
        path = os.path.join(scratch, "deck.csv")
        for number in range(count):
            events, activities = network(draw)
            with open(path, "w") as out:
                out.write(deck(events, activities))
            with open(path) as source:
                told = subprocess.run(
                    [pert, "certify"], stdin=source, capture_output=True, text=True, check=False
                )
            verdict = subprocess.run(
                [check, path], input=told.stdout, capture_output=True, text=True, check=False
            )
            if (
                told.returncode
                or verdict.returncode
                or certified_costs(told.stdout) != least_costs(events, activities)
            ):
                print(
                    deck(events, activities),
                    told.stdout,
                    told.stderr,
                    verdict.stdout,
                    least_costs(events, activities),
                    sep="\n",
                )
                sys.exit("differential: network %d differs" % number)
    print("differential: %d networks, each length costs the least of all schedules" % count)


if __name__ == "__main__":
    main()
