"""How the work of a package is planned and earned: the techniques of earned value.

The techniques are those of ANSI/EIA-748 and of PMI's practice standard for earned value management.
A plan is a list of pieces of budget, each of which is earned evenly over a time or at one moment;
times are units of the baseline's calendar after its start.
"""

from collections.abc import Iterable, Mapping, Sequence
from dataclasses import dataclass, replace
from fractions import Fraction
from itertools import chain

from pert_companion.model.registers import PackageRule, Technique


@dataclass(frozen=True)
class Piece:
    """A part of a budget, and from when to when it is planned to be earned."""

    amount: Fraction
    begin: Fraction
    end: Fraction
    opens: bool = False
    """Whether it is earned as soon as the moment has passed, and not when it is reached."""

    def value_at(self, time: Fraction) -> Fraction:
        """Returns what is planned to be earned of it by a time."""
        if time > self.end or (time == self.end and not self.opens):
            return self.amount
        if time <= self.begin:
            return Fraction(0)
        return self.amount * (time - self.begin) / (self.end - self.begin)

    def scaled(self, factor: Fraction) -> "Piece":
        """Returns the piece with an amount so many times as large."""
        return replace(self, amount=self.amount * factor)


@dataclass(frozen=True)
class Planned:
    """One real task in the baseline's schedule: what it costs and when, in units from its start."""

    item: str
    cost: Fraction
    begin: int
    end: int

    def scaled(self, scale: Fraction) -> "Planned":
        """Returns the same task with its cost in other units of money."""
        return replace(self, cost=self.cost * scale)

    def pieces(self, technique: Technique) -> list[Piece]:
        """Returns when its cost is planned to be earned by a technique that measures tasks."""
        begin, end = Fraction(self.begin), Fraction(self.end)
        if technique is Technique.AT_FINISH or begin == end:
            return [Piece(self.cost, end, end)]
        if technique is Technique.HALVES:
            half = self.cost / 2
            return [Piece(half, begin, begin, opens=True), Piece(half, end, end)]
        return [Piece(self.cost, begin, end)]


@dataclass(frozen=True)
class Done:
    """How far a task is."""

    share: Fraction
    """From 0 to 1."""
    has_begun: bool

    def earned(self, technique: Technique) -> Fraction:
        """Returns the share of its cost that it has earned by a technique that measures tasks."""
        if technique is Technique.AT_FINISH:
            return Fraction(1 if self.share == 1 else 0)
        if technique is Technique.HALVES and self.share < 1:
            return Fraction(1, 2) if self.has_begun else Fraction(0)
        return self.share


@dataclass(frozen=True)
class Measured:
    """A package: when its budget is planned to be earned, and what is earned of it."""

    item: str
    rule: PackageRule
    pieces: tuple[Piece, ...]
    earned: Fraction

    @property
    def budget(self) -> Fraction:
        """Returns its budget at completion."""
        return sum((piece.amount for piece in self.pieces), Fraction(0))

    def planned_at(self, time: Fraction) -> Fraction:
        """Returns its planned value at a time."""
        return sum((piece.value_at(time) for piece in self.pieces), Fraction(0))


def measured_by_tasks(rule: PackageRule, tasks: Iterable[tuple[Planned, Done]]) -> Measured:
    """Returns a package whose technique measures each task."""
    pieces: list[Piece] = []
    earned = Fraction(0)
    for planned, done in tasks:
        pieces.extend(planned.pieces(rule.technique))
        earned += planned.cost * done.earned(rule.technique)
    return Measured(rule.item, rule, tuple(pieces), earned)


def measured_by_milestones(
    rule: PackageRule, budget: Fraction, milestones: Mapping[str, tuple[Planned, Done]]
) -> Measured:
    """Returns a package that earns the weight of each milestone when that is reached."""
    pieces: list[Piece] = []
    earned = Fraction(0)
    for code, weight in rule.weights:
        planned, done = milestones[code]
        part = budget * weight / 100
        pieces.append(Piece(part, Fraction(planned.end), Fraction(planned.end)))
        earned += part if done.share == 1 else 0
    return Measured(rule.item, rule, tuple(pieces), earned)


def measured_as_planned(
    rule: PackageRule, budget: Fraction, span: tuple[Fraction, Fraction], time: Fraction
) -> Measured:
    """Returns level of effort: spread evenly over a span of time, and earned as planned."""
    piece = Piece(budget, *span)
    return Measured(rule.item, rule, (piece,), piece.value_at(time))


def measured_like(rule: PackageRule, budget: Fraction, base: Measured) -> Measured:
    """Returns an apportioned package, which earns the share that its base has earned."""
    if not base.budget:
        return Measured(rule.item, rule, (), Fraction(0))
    factor = budget / base.budget
    pieces = tuple(piece.scaled(factor) for piece in base.pieces)
    return Measured(rule.item, rule, pieces, base.earned * factor)


def time_of_value(pieces: Iterable[Piece], earned: Fraction) -> Fraction:
    """Returns the first time at which what is planned reaches an amount (Lipke 2003).

    One sweep over the begins and ends of pieces: between them the planned value grows evenly, so
    the time is exact. For more than all pieces it is the last end.
    """
    if earned <= 0:
        return Fraction(0)
    growth, jumps = _growth(pieces)
    time, value, rate = Fraction(0), Fraction(0), Fraction(0)
    for moment in sorted(growth.keys() | jumps.keys()):
        reached = value + rate * (moment - time)
        if rate and reached >= earned:
            return time + (earned - value) / rate
        time, value = moment, reached + jumps.get(moment, 0)
        if value >= earned:
            return time
        rate += growth.get(moment, 0)
    return time


def planned_values(pieces: Iterable[Piece], times: Sequence[int]) -> list[Fraction]:
    """Returns what is planned to be earned of all pieces by each of some rising times."""
    growth, jumps = _growth(pieces)
    moments = sorted(growth.keys() | jumps.keys())
    found: list[Fraction] = []
    time, value, rate, at = Fraction(0), Fraction(0), Fraction(0), 0
    for wanted in times:
        while at < len(moments) and moments[at] <= wanted:
            moment = moments[at]
            value += rate * (moment - time) + jumps.get(moment, 0)
            rate += growth.get(moment, 0)
            time, at = moment, at + 1
        found.append(value + rate * (wanted - time))
    return found


def _growth(
    pieces: Iterable[Piece],
) -> tuple[dict[Fraction, Fraction], dict[Fraction, Fraction]]:
    """Returns how the rate of the planned value changes at each time, and by what it jumps."""
    growth: dict[Fraction, Fraction] = {}
    jumps: dict[Fraction, Fraction] = {}
    for piece in pieces:
        if piece.begin == piece.end:
            jumps[piece.end] = jumps.get(piece.end, Fraction(0)) + piece.amount
            continue
        rate = piece.amount / (piece.end - piece.begin)
        growth[piece.begin] = growth.get(piece.begin, Fraction(0)) + rate
        growth[piece.end] = growth.get(piece.end, Fraction(0)) - rate
    return growth, jumps


def all_pieces(packages: Sequence[Measured]) -> list[Piece]:
    """Returns the pieces of several packages."""
    return list(chain.from_iterable(package.pieces for package in packages))
