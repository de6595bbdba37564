#!/usr/bin/env python3
"""Checks the certificate of a project's time-cost curve. Shares nothing with pert and pert_check.

    python3 check.py DECK < CERTIFICATE

Prints `certified N` and ends with 0, or prints `not certified line K reason R` and ends with 6: K
is the first line at which something is wrong, R the condition that fails there
(docs/certificate.md), or 0 if the line is malformed or missing. A deck that cannot be used ends it
with one line on standard error: status 1 if a card is wrong, 4 if the file cannot be read.

Of the deck it tests what a certificate depends on: known kinds of cards, PROJECT first and END
last, codes, numbers, no code twice, events and activities that are there, durations and pieces in
order. Everything else is left to `pert check`.
"""

from __future__ import annotations

import csv
import io
import re
import sys
from collections.abc import Callable, Container
from dataclasses import dataclass, field
from typing import BinaryIO

CODE = "([A-Za-z0-9._-]{1,16})"
NUMBER = "(0|[1-9][0-9]{0,17})"
FLOWS = "((?: (?:0|[1-9][0-9]{0,17})){2,6})"
HEAD = f"CERT ([12]) {CODE} {NUMBER} {NUMBER}"
STEP = f"STEP {CODE}"
SEGMENT = f"SEGMENT {NUMBER} {NUMBER} {NUMBER} {NUMBER}"
EVENT = f"EVENT {CODE} {NUMBER} ([01])"
ACT = f"ACT {CODE} {NUMBER}{FLOWS}"
LONGEST = 192  # bytes of a line with its line feed

KINDS = "PROJECT ASOF TERMS WBS EVENT ACT PIECE ACCT CHARGE TOGO STATUS RES LOAD END".split()


# ---- The deck


class Refused(Exception):
    """Something is wrong with the deck. The text says what."""


@dataclass
class Card:
    """A record of the deck: its number, counted from 1, and its fields."""

    number: int
    fields: list[str]

    @property
    def kind(self) -> str:
        """The kind of the card, which is its first field."""
        return self.fields[0]

    def code(self, at: int) -> str:
        """Returns the code in a field."""
        return self._field(at, "[A-Za-z0-9._-]{1,16}", "a code")

    def amount(self, at: int) -> int:
        """Returns the number in a field."""
        return int(self._field(at, "0|[1-9][0-9]{0,12}", "a number"))

    def _field(self, at: int, form: str, what: str) -> str:
        """Returns a field, which must have this form."""
        if len(self.fields) <= at or not re.fullmatch(form, self.fields[at]):
            raise Refused(f"record {self.number}: field {at + 1} is not {what}")
        return self.fields[at]

    def known(self, at: int, codes: Container[str]) -> str:
        """Returns the code in a field, which an earlier or later card must have."""
        code = self.code(at)
        if code not in codes:
            raise Refused(f"record {self.number}: {code} is on no card")
        return code


@dataclass
class Activity:
    """An ACT card, with the units and slopes of its PIECE cards in card order."""

    code: str
    start: str
    end: str
    normal: int
    crash: int
    cost: int
    slope: int
    pieces: list[tuple[int, int]] = field(default_factory=list)
    knees: list[tuple[int, int]] = field(default_factory=list)

    def find_knees(self) -> None:
        """Lists the durations at which one unit less begins to cost more, each with its rise."""
        self.knees = [(self.normal, self.slope)]
        slope_before = self.slope
        for k, (_, slope) in enumerate(self.pieces):
            below = sum(units for units, _ in self.pieces[k:])
            if slope <= slope_before:
                raise Refused(f"the pieces of {self.code} do not rise")
            if self.crash + below >= self.normal:
                raise Refused(f"the pieces of {self.code} leave nothing to its first slope")
            self.knees.append((self.crash + below, slope - slope_before))
            slope_before = slope


class Deck:
    """What a certificate depends on: version, code, events, and activities in card order."""

    def __init__(self, name: str) -> None:
        """Reads the deck of a file."""
        self.events: list[str] = []
        self.named: dict[str, Activity] = {}
        cards = read_cards(name)
        project = cards[0]
        self.code = project.code(1)
        self.events = codes_of(cards, "EVENT")
        self.start = project.known(2, self.events)
        self.end = project.known(3, self.events)
        self.read_activities(cards)
        self.activities = list(self.named.values())
        for activity in self.activities:
            activity.find_knees()
        self.version = 2 if any(activity.pieces for activity in self.activities) else 1

    def read_activities(self, cards: list[Card]) -> None:
        """Reads the activities first, since a PIECE card may be before its ACT card."""
        events = set(self.events)
        items = set(codes_of(cards, "WBS"))
        codes = set(codes_of(cards, "ACT"))
        for card in cards:
            if card.kind == "ACT":
                card.known(4, items)
                ends = card.known(2, events), card.known(3, events)
                normal, crash, cost, slope = (card.amount(at) for at in range(8, 12))
                if crash > normal:
                    raise Refused(
                        f"record {card.number}: the crash duration is above the normal one"
                    )
                self.named[card.code(1)] = Activity(card.code(1), *ends, normal, crash, cost, slope)
        for card in cards:
            if card.kind == "PIECE":
                activity = self.named[card.known(1, codes)]
                activity.pieces.append((card.amount(2), card.amount(3)))


def read_cards(name: str) -> list[Card]:
    """Returns the cards of a file. An empty line is no record, one of commas is no card.

    Up to two byte order marks in front are dropped, as pert does.
    """
    with open(name, encoding="utf-8-sig", newline="") as file:
        text = file.read().removeprefix("\ufeff")
    records = [record for record in csv.reader(io.StringIO(text, newline="")) if record]
    cards = [Card(number, fields) for number, fields in enumerate(records, 1) if any(fields)]
    if not cards or cards[0].kind != "PROJECT" or cards[-1].kind != "END":
        raise Refused("the first card is not PROJECT, or the last one not END")
    for card in cards:
        if card.kind not in KINDS:
            raise Refused(f"record {card.number}: unknown kind of card")
    return cards


def codes_of(cards: list[Card], kind: str) -> list[str]:
    """Returns the codes of the cards of a kind, none of which may occur twice."""
    codes: dict[str, None] = {}
    for card in cards:
        if card.kind == kind:
            if card.code(1) in codes:
                raise Refused(f"record {card.number}: {card.code(1)} occurs twice")
            codes[card.code(1)] = None
    return list(codes)


# ---- The lines of a certificate


class Wrong(Exception):
    """A condition fails, or a line is malformed. The argument is the condition, or 0."""


def ask(condition: int, holds: bool) -> None:
    """Raises a condition that does not hold."""
    if not holds:
        raise Wrong(condition)


class Lines:
    """The lines of a certificate, one by one. `count` is the number of the line read last."""

    def __init__(self, stream: BinaryIO) -> None:
        """Begins before the first line."""
        self.stream = stream
        self.count = 0

    def next(self) -> str:
        """Returns the next line, which must have its line feed."""
        self.count += 1
        line = self.stream.readline(LONGEST)
        ask(0, line.endswith(b"\n"))
        return line[:-1].decode("ascii", "replace")

    def end(self) -> None:
        """Checks that nothing follows the last line."""
        self.count += 1
        ask(0, self.stream.read(1) == b"")


def read(form: str, line: str) -> tuple[str, ...]:
    """Returns the words of a line, which must have this form."""
    found = re.fullmatch(form, line)
    if found is None:
        raise Wrong(0)
    return found.groups()


def read_walk(lines: Lines, most: int) -> tuple[list[str], str]:
    """Returns the activities of a walk, and the line after it."""
    codes: list[str] = []
    line = lines.next()
    while line.startswith("STEP ") and len(codes) < most:
        codes.append(read(STEP, line)[0])
        line = lines.next()
    return codes, line


# ---- The fifteen conditions


@dataclass
class Segment:
    """A SEGMENT line, and what the lines after it have added up to so far."""

    upper: int
    lower: int
    cost: int
    slope: int
    time: dict[str, int] = field(default_factory=dict)
    moves: dict[str, int] = field(default_factory=dict)
    inflow: dict[str, int] = field(default_factory=dict)
    outflow: dict[str, int] = field(default_factory=dict)
    paid: int = 0
    gain: int = 0
    stops: bool = False

    @property
    def fall(self) -> int:
        """By how much the length falls from the upper end to the lower one."""
        return self.upper - self.lower


def check(deck: Deck, lines: Lines) -> int:
    """Returns how many segments the certificate has, or raises `Wrong`."""
    version, code, events, activities = read(HEAD, lines.next())
    ask(1, int(version) == deck.version and code == deck.code)
    ask(1, (int(events), int(activities)) == (len(deck.events), len(deck.activities)))
    ask(0, lines.next() == "NORMAL")
    normal_walk, line = read_walk(lines, len(deck.events))
    ask(0, line == "CRASH")
    crash_walk, line = read_walk(lines, len(deck.events))
    segments = 0
    before: Segment | None = None
    while before is None or line != "END":
        upper, lower, cost, slope = map(int, read(SEGMENT, line))
        segment = Segment(upper, lower, cost, slope)
        if before is None:
            ask(2, is_through_walk(deck, normal_walk, lambda a: a.normal, upper))
        ask(15, begins_right(before, segment))
        check_segment(deck, lines, segment, before is None)
        segments += 1
        before = segment
        line = lines.next()
    ask(3, is_through_walk(deck, crash_walk, lambda a: a.crash, before.lower))
    lines.end()
    return segments


def is_through_walk(
    deck: Deck, codes: list[str], duration: Callable[[Activity], int], length: int
) -> bool:
    """The activities lead from the start to the end, each from where the one before ends, and
    their durations add up to the length."""
    at, total = deck.start, 0
    for code in codes:
        activity = deck.named.get(code)
        if activity is None or activity.start != at:
            return False
        at = activity.end
        total += duration(activity)
    return at == deck.end and total == length


def begins_right(before: Segment | None, segment: Segment) -> bool:
    """Condition 15 at a SEGMENT line. No segment follows one with equal ends."""
    if before is None:
        return segment.fall > 0 or (segment.fall == 0 and segment.slope == 0)
    return before.fall > 0 and segment.upper == before.lower and segment.fall > 0


def check_segment(deck: Deck, lines: Lines, segment: Segment, is_first: bool) -> None:
    """Checks the lines of a segment, in the order of the deck's cards."""
    for code in deck.events:
        check_event(deck, segment, code, lines.next())
    for activity in deck.activities:
        line = lines.next()
        said, duration, flows = read(ACT, line)
        numbers = [int(flow) for flow in flows.split()]
        ask(0, deck.version == 2 or len(numbers) == 2)
        ask(4, said == activity.code and len(numbers) == len(activity.knees) + 1)
        check_activity(segment, activity, int(duration), numbers, is_first)
    ask(0, lines.next() == "CLOSE")
    check_close(deck, segment)


def check_event(deck: Deck, segment: Segment, code: str, line: str) -> None:
    """Checks an EVENT line, and keeps its time and whether the event moves."""
    said, time, bit = read(EVENT, line)
    ask(4, said == code)
    if code == deck.start:
        ask(5, int(time) == 0 and bit == "0")
    if code == deck.end:
        ask(5, int(time) == segment.upper and (bit == "1" or segment.fall == 0))
    ask(15, segment.fall > 0 or bit == "0")
    segment.time[code] = int(time)
    segment.moves[code] = int(bit)


def check_activity(
    segment: Segment, activity: Activity, duration: int, flows: list[int], is_first: bool
) -> None:
    """Checks an ACT line, and adds its flows, its cost and its gain to the segment's."""
    turn = segment.moves[activity.end] - segment.moves[activity.start]
    at_upper = segment.time[activity.end] - segment.time[activity.start]
    at_lower = at_upper - segment.fall * turn
    ask(6, at_upper >= activity.crash and at_lower >= activity.crash)
    ask(7, duration == min(activity.normal, at_upper))
    ask(7, not is_first or duration == activity.normal)
    for flow, (_, rise) in zip(flows, activity.knees):
        ask(8, flow <= rise)
    for gap in (at_upper, at_lower):
        for flow, (knee, rise) in zip(flows, activity.knees):
            ask(11, flow == 0 or gap <= knee)
            ask(11, flow == rise or gap >= knee)
        ask(11, flows[-1] == 0 or gap <= activity.crash)
    ask(15, segment.fall > 0 or sum(flows) == 0)
    add(segment.outflow, activity.start, sum(flows))
    add(segment.inflow, activity.end, sum(flows))
    segment.paid += activity.cost
    for knee, rise in activity.knees:
        segment.paid += rise * max(0, knee - duration)
    if turn > 0:  # forward: the gap shrinks
        segment.gain += sum(rise for knee, rise in activity.knees if knee > at_lower)
        segment.stops |= at_lower == activity.crash
        segment.stops |= any(at_upper > knee == at_lower for knee, _ in activity.knees)
    if turn < 0:  # backward: the gap grows
        segment.gain -= sum(rise for knee, rise in activity.knees if knee > at_upper)
        segment.stops |= any(at_upper < knee == at_lower for knee, _ in activity.knees)


def add(sums: dict[str, int], event: str, flow: int) -> None:
    """Adds a flow to what goes through an event."""
    sums[event] = sums.get(event, 0) + flow


def check_close(deck: Deck, segment: Segment) -> None:
    """Checks the sums of a segment, after its last line."""
    for event in deck.events:
        if event not in (deck.start, deck.end):
            ask(9, segment.inflow.get(event, 0) == segment.outflow.get(event, 0))
    ask(10, segment.outflow.get(deck.start, 0) == segment.slope)
    ask(12, segment.paid == segment.cost)
    if segment.fall > 0:
        ask(13, segment.gain == segment.slope)
        ask(14, segment.stops)


def main(words: list[str]) -> int:
    """Reads the deck and the certificate, prints the answer and returns the status."""
    if words == ["--help"]:
        print(__doc__.strip())
        return 0
    if len(words) != 1:
        print(__doc__.strip(), file=sys.stderr)
        return 2
    try:
        deck = Deck(words[0])
    except Refused as refused:
        print(f"check.py: {words[0]}: {refused}", file=sys.stderr)
        return 1
    except (OSError, UnicodeDecodeError, csv.Error) as error:
        print(f"check.py: {words[0]} cannot be read: {error}", file=sys.stderr)
        return 4
    lines = Lines(sys.stdin.buffer)
    try:
        print("certified", check(deck, lines))
    except Wrong as wrong:
        print("not certified line", lines.count, "reason", wrong.args[0])
        return 6
    return 0


if __name__ == "__main__":
    sys.exit(main(sys.argv[1:]))
