#!/usr/bin/env python3
"""Compares the decks that `arrows` writes with a plain computation, and their curves with every
schedule of the tasks. It is outside the gate.

    tests/differential/tasks.py [COUNT [SEED]] [--programs FOLDER]     COUNT decks (default: 1000), the same ones for a seed

Each deck has one to five tasks with pieces, up to seven AFTER cards, some of them twice, a tree
of items, accounts, charges, statuses, loads and terms of time, with its cards in any order. The
complete text of `arrows` is computed here. The least cost of each length is searched for among
all whole durations of the tasks, each of which begins when the last task before it has ended; it
must be what `curve` prints for the text. Each text is migrated, and its certificate goes through
`pert_check`. The script shares no code with the program.
"""

from __future__ import annotations

import csv
import io
import itertools
import os
import random
import subprocess
import sys
import tempfile
from collections.abc import Sequence

TOP = os.path.dirname(os.path.dirname(os.path.dirname(os.path.abspath(__file__))))
Card = list[object]
TITLES = ["", "", "Dig", "Dig, fill", 'The "big" one', "Grün"]


class Task:
    """A task of a generated deck; `slopes` has what each unit costs by which it is shortened, and
    `pieces` how the cards say that.
    """

    def __init__(self, draw: random.Random, code: str, item: str) -> None:
        """Draws a task."""
        self.code, self.item = code, item
        self.estimates = sorted(draw.randint(0, 9) for _ in range(3))
        self.normal = draw.choice([0, 1, 2, 3, 4])
        self.crash = draw.randint(0, self.normal)
        self.cost, self.slope = draw.choice([0, 7, 100]), draw.choice([0, 1, 2, 5])
        self.title = draw.choice(TITLES)
        self.pieces: list[tuple[int, int]] = []
        left, slope = self.normal - self.crash, self.slope
        while left > 1 and draw.random() < 0.5:
            units = draw.randint(1, left - 1)
            slope += draw.randint(1, 4)
            self.pieces.append((units, slope))
            left -= units
        self.slopes = [self.slope] * left + [
            slope for units, slope in self.pieces for _ in range(units)
        ]

    def numbers(self) -> list[int | str]:
        """Returns the fields of its card after the item."""
        return [*self.estimates, self.normal, self.crash, self.cost, self.slope, self.title]

    def cost_at(self, duration: int) -> int:
        """Returns what it costs with a duration."""
        return self.cost + sum(self.slopes[: self.normal - duration])


class Deck:
    """A generated deck of tasks, as plain data: a list of cards for each kind."""

    def __init__(self, draw: random.Random) -> None:
        """Draws a deck. The order of the draws decides which deck a seed gives."""
        self.version: list[str] = draw.choice([[], [""], ["1"], ["2"]])
        self.project: list[object] = [
            "PROJECT",
            "N",
            *draw.choice([("S", "T"), ("A0", "1")]),
            "2024-01-01",
            draw.choice([1, 2, 7]),
            draw.choice(["", 0, 9]),
            draw.choice(TITLES),
        ]
        self.as_of = draw.choice([None, "2024-01-01", "2024-01-09"])
        penalty = draw.choice([0, 3])
        self.terms = draw.choice([None, (0, 0, 0, 0), (4, 6, draw.randint(0, penalty), penalty)])
        items = [("W", "")]
        for i in range(draw.randint(1, 4)):
            items.append(("W%d" % i, draw.choice(items)[0]))
        parents = {parent for _, parent in items}
        leaves = [code for code, _ in items if code not in parents]
        self.tasks = [Task(draw, "A%d" % i, draw.choice(leaves)) for i in range(draw.randint(1, 5))]
        draw.shuffle(self.tasks)
        # who comes before whom, by an order that has nothing to do with that of the cards
        order = draw.sample(range(len(self.tasks)), len(self.tasks))
        self.afters: list[tuple[int, int]] = []
        for _ in range(draw.randint(0, 7)):
            if len(order) > 1:
                before, after = (order[k] for k in sorted(draw.sample(range(len(order)), 2)))
                self.afters.append((before, after))
        self.items: list[Card] = [
            ["WBS", code, parent, draw.choice(TITLES)]
            for code, parent in draw.sample(items, len(items))
        ]
        self.draw_money_and_work(draw, leaves)

    def draw_money_and_work(self, draw: random.Random, leaves: list[str]) -> None:
        """Draws the cards of accounts, of progress and of resources."""
        self.pieces: list[Card] = [
            ["PIECE", task.code, *piece] for task in self.tasks for piece in task.pieces
        ]
        costs = {
            leaf: sum(task.cost for task in self.tasks if task.item == leaf) for leaf in leaves
        }
        self.accounts: list[Card] = [
            ["ACCT", "X" + leaf, leaf, cost, draw.choice(TITLES)]
            for leaf, cost in costs.items()
            if cost or draw.random() < 0.5
        ]
        codes = [card[1] for card in self.accounts]
        self.charges: list[Card] = [
            ["CHARGE", draw.choice(codes), "2024-01-05", draw.randint(0, 99)]
            for _ in range(draw.randint(0, 3))
            if codes
        ]
        self.togos: list[Card] = [
            ["TOGO", code, "2024-01-07", draw.randint(0, 99)]
            for code in codes
            if draw.random() < 0.3
        ]
        self.statuses: list[Card] = [
            ["STATUS", task.code, "S", "2024-01-01"] for task in self.tasks if draw.random() < 0.3
        ]
        self.resources: list[Card] = [
            ["RES", "R%d" % r, draw.choice(TITLES)] for r in range(draw.randint(0, 2))
        ]
        self.loads: list[Card] = [
            [
                "LOAD",
                draw.choice(self.tasks).code,
                draw.choice(self.resources)[1],
                draw.randint(0, 9),
            ]
            for _ in range(draw.randint(0, 3))
            if self.resources
        ]

    def text(self, draw: random.Random) -> str:
        """The deck, its kinds of cards in any order; cards of a kind keep theirs."""
        kinds: list[list[Card]] = [
            [["ASOF", self.as_of]] if self.as_of else [],
            [["TERMS", *self.terms]] if self.terms else [],
            self.items,
            [["TASK", task.code, task.item, *task.numbers()] for task in self.tasks],
            [
                ["AFTER", self.tasks[after].code, self.tasks[before].code]
                for before, after in self.afters
            ],
            self.pieces,
            self.accounts,
            self.charges,
            self.togos,
            self.statuses,
            self.resources,
            self.loads,
        ]
        rest: list[list[Card]] = [list(kind) for kind in kinds]
        behind: list[Card] = []
        while any(rest):
            behind.append(draw.choice([kind for kind in rest if kind]).pop(0))
        return lines([self.project + self.version, *behind, ["END"]])

    def links(self) -> list[tuple[str, str, str]]:
        """The links of the plan, each with its two events: of the AFTER cards, from the start to
        the tasks that are after none, and from the tasks that are before none to the end.
        """
        start, end = map(str, self.project[2:4])
        count = range(1, len(self.tasks) + 1)
        befores = {before for before, _ in self.afters}
        afters = {after for _, after in self.afters}
        found = [
            ("_a%d" % (j + 1), "_e%d" % (before + 1), "_b%d" % (after + 1))
            for j, (before, after) in enumerate(self.afters)
        ]
        found += [("_s%d" % i, start, "_b%d" % i) for i in count if i - 1 not in afters]
        return found + [("_t%d" % i, "_e%d" % i, end) for i in count if i - 1 not in befores]

    def arrows(self) -> str:
        """The plan that is drawn of the tasks."""
        start, end = map(str, self.project[2:4])
        count = range(1, len(self.tasks) + 1)
        top = next(card[1] for card in self.items if card[2] == "")
        events = [start, *(code for i in count for code in ("_b%d" % i, "_e%d" % i)), end]
        return lines(
            [
                [*self.project, 2],
                ["ASOF", self.as_of or "2024-01-01"],
                *([["TERMS", *self.terms]] if self.terms and any(self.terms) else []),
                *self.items,
                ["WBS", "_links", top, ""],
                *(["EVENT", code, ""] for code in events),
                *(
                    ["ACT", task.code, "_b%d" % i, "_e%d" % i, task.item, *task.numbers()]
                    for i, task in zip(count, self.tasks)
                ),
                *(["ACT", *link, "_links", 0, 0, 0, 0, 0, 0, 0, ""] for link in self.links()),
                *self.pieces,
                *self.accounts,
                *self.charges,
                *self.togos,
                *self.statuses,
                *self.resources,
                *self.loads,
                ["END"],
            ]
        )

    def length_of(self, durations: Sequence[int]) -> int:
        """When the last task ends where each begins as soon as it may."""
        ends: dict[int, int] = {}

        def end_of(task: int) -> int:
            """Returns when a task ends, which each of those after it asks again."""
            if task not in ends:
                ends[task] = (
                    max(
                        (end_of(before) for before, after in self.afters if after == task),
                        default=0,
                    )
                    + durations[task]
                )
            return ends[task]

        return max(map(end_of, range(len(self.tasks))))

    def least_costs(self) -> dict[int, int]:
        """The least cost of each length from the shortest to that of the normal durations, among
        all whole-number durations.
        """
        found: dict[int, int] = {}
        for durations in itertools.product(
            *(range(task.crash, task.normal + 1) for task in self.tasks)
        ):
            length = self.length_of(durations)
            cost = sum(task.cost_at(duration) for task, duration in zip(self.tasks, durations))
            found[length] = min(cost, found.get(length, cost))
        longest = self.length_of([task.normal for task in self.tasks])
        return {
            at: min(cost for length, cost in found.items() if length <= at)
            for at in range(min(found), longest + 1)
        }


def lines(cards: Sequence[Sequence[object]]) -> str:
    """Returns cards as the text of a deck."""
    out = io.StringIO()
    csv.writer(out, lineterminator="\n").writerows(cards)
    return out.getvalue()


def costs_of(curve: str) -> dict[int, int]:
    """What a curve says that each length costs."""
    costs: dict[int, int] = {}
    slope: int | None = None
    for line in curve.splitlines():
        length, cost, after = line.split()
        if slope is not None:
            upper = min(costs)
            costs.update(
                (at, costs[upper] + slope * (upper - at)) for at in range(int(length) + 1, upper)
            )
        costs[int(length)] = int(cost)
        slope = None if after == "-" else int(after)
    return costs


def run(program: str, text: str, word: str) -> str:
    """Returns what a program prints, or how it ended."""
    told = subprocess.run([program, word], input=text.encode(), capture_output=True, check=False)
    out, err = told.stdout.decode(), told.stderr.decode()
    return out if told.returncode == 0 else "status %d: %s%s" % (told.returncode, out, err)


def compare(deck: Deck, text: str, pert: str, check: str, path: str, number: int) -> None:
    """Compares what the programs say of a deck, and ends the run if it differs."""
    wanted, plan = deck.arrows(), run(pert, text, "arrows")
    with open(path, "w", encoding="utf-8", newline="") as out:
        out.write(plan)
    least, curve = deck.least_costs(), run(pert, plan, "curve")
    certificate = run(pert, plan, "certify")
    verdict = run(check, certificate, path)
    if plan != wanted or run(pert, plan, "migrate") != plan:
        print(text, "TOLD", plan, "WANTED", wanted, sep="\n")
        sys.exit("differential: the arrows of deck %d differ" % number)
    certified = "certified %d\n" % certificate.count("\nSEGMENT ")
    if "status" in curve or costs_of(curve) != least or verdict != certified:
        print(text, "TOLD", curve, verdict, "WANTED", least, sep="\n")
        sys.exit("differential: the curve of deck %d differs" % number)


def main() -> None:
    """Compares deck by deck, and ends at the first that differs."""
    words = sys.argv[1:]
    folder = words[words.index("--programs") + 1] if "--programs" in words else None
    numbers = [int(word) for word in words if word.isdigit()]
    count = numbers[0] if numbers else 1000
    draw = random.Random(numbers[1] if len(numbers) > 1 else 7)
    pert, check = (
        os.path.join(folder or os.path.join(TOP, "crates", name, "out"), name)
        for name in ("pert", "pert_check")
    )
    with tempfile.TemporaryDirectory() as scratch:
        for number in range(count):
            deck = Deck(draw)
            path = os.path.join(scratch, "plan.csv")
            compare(deck, deck.text(draw), pert, check, path, number)
    print(
        "differential: %d decks of tasks, drawn as plainly, and each length costs the least of all"
        " schedules of the tasks" % count
    )


if __name__ == "__main__":
    main()
