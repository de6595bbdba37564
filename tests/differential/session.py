#!/usr/bin/env python3
"""What a what-if session answers, computed plainly and slowly: the model for
tests/differential/sessions.py and tests/hostile/sessions.py.

    tests/differential/session.py DECK <LINES     answers as `pert_whatif DECK` does, for decks with a few activities

A session keeps the deck and its current edits. This file decides which line is refused, and why.
Curves, reports of times and least costs of a deck come from the caller: it runs the programs
again, or uses the functions `plain_..` below, which try all durations.
"""

from __future__ import annotations

import csv
import datetime
import io
import itertools
import os
import re
import sys
from collections.abc import Callable, Sequence

CODE = rb"[A-Za-z0-9._-]{1,16}"
NUMBER = rb"(?:0|[1-9][0-9]{0,12})"
# what an edit changes, and the limit of its numbers
EDITS = {
    b"ESTIMATE": (("opt", "likely", "pess"), 100_000),
    b"NORMAL": (("normal",), 100_000),
    b"CRASH": (("crash",), 100_000),
    b"SLOPE": (("slope",), 100_000_000),
}
PLACES = {"opt": 5, "likely": 6, "pess": 7, "normal": 8, "crash": 9, "cost": 10, "slope": 11}
LIMITS = {"normal": 100_000, "crash": 100_000, "slope": 100_000_000}
KEPT = 1_000
# how many bytes of lines a session takes
MOST = 134_217_728

Report = Callable[[str], str]
Cost = Callable[[str, int], "int | None"]


class Deck:
    """The cards of an accepted deck, of which the six numbers of an activity can be changed."""

    def __init__(self, text: str) -> None:
        """Reads a deck that is accepted, so that nothing of it is checked."""
        self.cards = [row for row in csv.reader(io.StringIO(text)) if any(row)]
        self.acts = {row[1]: row for row in self.cards if row[0] == "ACT"}

    def get(self, act: str, name: str) -> int:
        """Returns a number of an activity."""
        return int(self.acts[act][PLACES[name]])

    def set(self, act: str, name: str, number: int) -> None:
        """Puts another number in its place."""
        self.acts[act][PLACES[name]] = str(number)

    def pieces(self, act: str) -> list[tuple[int, int]]:
        """Returns the units and the slope of each piece."""
        return [
            (int(row[2]), int(row[3])) for row in self.cards if row[0] == "PIECE" and row[1] == act
        ]

    def text(self) -> str:
        """Returns the deck with its edits."""
        out = io.StringIO()
        csv.writer(out, lineterminator="\n").writerows(self.cards)
        return out.getvalue()


def misfit(deck: Deck, act: str) -> int | None:
    """The first of the reasons 4 to 6 that the activity's numbers give."""
    slopes = [deck.get(act, "slope")] + [slope for _, slope in deck.pieces(act)]
    units = sum(units for units, _ in deck.pieces(act))
    if deck.get(act, "crash") > deck.get(act, "normal"):
        return 4
    if not deck.get(act, "opt") <= deck.get(act, "likely") <= deck.get(act, "pess"):
        return 5
    if len(slopes) > 1 and (
        sorted(set(slopes)) != slopes or units >= deck.get(act, "normal") - deck.get(act, "crash")
    ):
        return 6
    return None


class Session:
    """`curve`, `times` and `cost` answer for the text of a deck: the breakpoints, the report, and
    the least cost of a length, if any.
    """

    def __init__(self, text: str, curve: Report, times: Report, cost: Cost) -> None:
        """Begins with a deck and no edits."""
        self.deck = Deck(text)
        self.curve, self.times, self.cost = curve, times, cost
        self.kept: list[tuple[str, dict[str, int]]] = []

    def answer(self, line: bytes) -> str:
        """Returns the complete answer to a line, which has no line feed."""
        answer = self.reply(line)
        return answer if isinstance(answer, str) else "NO %d\n" % answer

    def reply(self, line: bytes) -> str | int:
        """Returns the answer, or the reason why the line is refused."""
        if len(line) > 96:
            return 1
        if line == b"UNDO":
            if not self.kept:
                return 7
            act, before = self.kept.pop()
            for name, number in before.items():
                self.deck.set(act, name, number)
            return "OK\n"
        if line == b"CURVE":
            return self.curve(self.deck.text())
        if line == b"TIMES":
            return self.times(self.deck.text())
        word = line.split(b" ")[0]
        if word == b"TRY":
            return self.trial(line)
        if word not in EDITS:
            return 1
        names, limit = EDITS[word]
        if not re.fullmatch(word + b" " + CODE + (b" " + NUMBER) * len(names), line):
            return 1
        act, numbers = line.split(b" ")[1].decode(), [
            int(number) for number in line.split(b" ")[2:]
        ]
        if act not in self.deck.acts:
            return 2
        if max(numbers) > limit:
            return 3
        before = self.put(act, dict(zip(names, numbers)))
        reason = misfit(self.deck, act)
        if reason:
            self.put(act, before)
            return reason
        self.kept = (self.kept + [(act, before)])[-KEPT:]
        return "OK\n"

    def trial(self, line: bytes) -> str | int:
        """Answers TRY, after which the deck is as it was."""
        if not re.fullmatch(b"TRY " + CODE + (b" " + NUMBER) * 4, line):
            return 1
        act, numbers = line.split(b" ")[1].decode(), [
            int(number) for number in line.split(b" ")[2:]
        ]
        if act not in self.deck.acts:
            return 2
        if any(number > limit for number, limit in zip(numbers, LIMITS.values())):
            return 3
        before = self.put(act, dict(zip(LIMITS, numbers)))
        reason: int | str | None = misfit(self.deck, act)
        if not reason:
            cost = self.cost(self.deck.text(), numbers[3])
            reason = 8 if cost is None else "COST %d\n" % cost
        self.put(act, before)
        return reason

    def put(self, act: str, numbers: dict[str, int]) -> dict[str, int]:
        """Puts the numbers in place, and gives those that stood there."""
        before = {name: self.deck.get(act, name) for name in numbers}
        for name, number in numbers.items():
            self.deck.set(act, name, number)
        return before


def lines_of(text: bytes) -> list[bytes]:
    """The lines of a session's input: the last one needs no line feed, where it is not empty."""
    lines = text.split(b"\n")
    return lines[:-1] if lines[-1] == b"" else lines


def arcs(deck: Deck) -> list[tuple[str, str]]:
    """Returns the two events of each activity."""
    return [(row[2], row[3]) for row in deck.acts.values()]


def sums(deck: Deck, first: str, lengths: Sequence[int], back: bool = False) -> dict[str, int]:
    """The greatest sum of lengths over the walks from the first event to each one (or from each
    one to it).
    """
    at = {first: 0}
    for _ in deck.acts:
        for (begin, end), length in zip(arcs(deck), lengths):
            if back:
                begin, end = end, begin
            if begin in at and at.get(end, -1) < at[begin] + length:
                at[end] = at[begin] + length
    return at


def least_costs(deck: Deck) -> dict[int, int]:
    """The least cost of each length of the range, among all durations."""
    start, end = deck.cards[0][2], deck.cards[0][3]
    choices = []
    for act in deck.acts:
        rises = [deck.get(act, "slope")] * (
            deck.get(act, "normal")
            - deck.get(act, "crash")
            - sum(units for units, _ in deck.pieces(act))
        )
        for units, slope in deck.pieces(act):
            rises += [slope] * units
        cost = deck.get(act, "cost")
        choices.append(
            [(deck.get(act, "normal") - n, cost + sum(rises[:n])) for n in range(len(rises) + 1)]
        )
    found: dict[int, int] = {}
    for chosen in itertools.product(*choices):
        length = sums(deck, start, [duration for duration, _ in chosen])[end]
        found[length] = min(found.get(length, 1 << 62), sum(cost for _, cost in chosen))
    longest = sums(deck, start, [choice[0][0] for choice in choices])[end]
    return {
        at: min(cost for length, cost in found.items() if length <= at)
        for at in range(min(found), longest + 1)
    }


def plain_cost(text: str, length: int) -> int | None:
    """Returns the least cost of a length, or nothing if no schedule has it."""
    return least_costs(Deck(text)).get(length)


def plain_curve(text: str) -> str:
    """Returns the curve as `pert curve` prints it."""
    costs = least_costs(Deck(text))
    longest, shortest = max(costs), min(costs)
    lines = []
    for at in range(longest, shortest, -1):
        slope = costs[at - 1] - costs[at]
        if at == longest or slope != costs[at] - costs[at + 1]:
            lines.append("%d %d %d\n" % (at, costs[at], slope))
    return "".join(lines) + "%d %d -\n" % (shortest, costs[shortest])


def plain_times(text: str) -> str:
    """Returns the report as `pert times` prints it."""
    deck = Deck(text)
    _, code, start, end, first, units, directed = deck.cards[0][:7]
    unit, rows = int(units), list(deck.acts.values())
    expected = [(int(row[5]) + 4 * int(row[6]) + int(row[7])) * unit for row in rows]
    variance = [((int(row[7]) - int(row[5])) * unit) ** 2 for row in rows]
    early, rest = sums(deck, start, expected), sums(deck, end, expected, back=True)
    by = 6 * int(directed) if directed else early[end]
    late = {event: by - rest[event] for event in rest}
    out = ["TIMES %s\n" % code, "%-16s %12s %12s %12s DATE\n" % ("EVENT", "TE", "TL", "SLACK")]
    for row in deck.cards:
        if row[0] == "EVENT":
            day = datetime.date.fromisoformat(first) + datetime.timedelta(
                days=-(-early[row[1]] // 6)
            )
            out.append(
                "%-16s %12d %12d %12d %s\n"
                % (row[1], early[row[1]], late[row[1]], late[row[1]] - early[row[1]], day)
            )
    out.append("%-16s %12s %16s %12s\n" % ("ACTIVITY", "EXPECTED", "VARIANCE", "SLACK"))
    for row, length, square in zip(rows, expected, variance):
        out.append(
            "%-16s %12d %16d %12d\n"
            % (row[1], length, square, late[row[3]] - early[row[2]] - length)
        )
    event, total = start, 0
    while event != end:
        k = next(
            k
            for k, row in enumerate(rows)
            if row[2] == event and early[event] + expected[k] + rest[row[3]] == early[end]
        )
        out.append("CRITICAL %s\n" % rows[k][1])
        total += variance[k]
        event = rows[k][3]
    return "".join(out) + "VARIANCE %d\n" % total


def main() -> None:
    """Replaces the program, as far as tests/hostile/sessions.py needs it."""
    if len(sys.argv) != 2:
        sys.stderr.write("usage: pert_whatif DECK\n")
        sys.exit(2)
    try:
        with open(sys.argv[1], encoding="utf-8") as file:
            session = Session(file.read(), plain_curve, plain_times, plain_cost)
        taken = 0
        for line in iter(lambda: sys.stdin.buffer.readline(MOST + 1), b""):
            taken += len(line)
            if taken > MOST:
                sys.exit(8)
            os.write(1, session.answer(line[:-1] if line.endswith(b"\n") else line).encode())
    except (IsADirectoryError, FileNotFoundError):
        sys.exit(4)
    except OSError:
        sys.exit(5)


if __name__ == "__main__":
    main()
