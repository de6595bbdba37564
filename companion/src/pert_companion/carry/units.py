"""Chooses the unit of a deck, and turns working minutes into whole units of it."""

import math
from collections.abc import Iterable, Sequence
from dataclasses import dataclass

from pert_companion.carry.model import Node, Tie
from pert_companion.model.calendar import Calendar
from pert_companion.model.errors import UsageError
from pert_companion.model.figures import day_words
from pert_companion.model.losses import Loss, LossKind
from pert_companion.model.plan import Estimates, Task

MAX_UNITS = 100_000
"""The longest duration of a deck, in units."""
HOUR = 60
UNITS = ("auto", "days", "hours")


def minutes_of_unit(word: str, calendar: Calendar, nodes: Sequence[Node]) -> int:
    """Returns the working minutes of a unit: of `days`, `hours`, so many `N` minutes, or `auto`.

    `auto` is a day if all durations and lags are whole days. Else it is the longest time that they
    are all multiples of, or the hour if a task would be too long in such units.
    """
    if word == "days":
        return calendar.day_minutes
    if word == "hours":
        return HOUR
    if word.isascii() and word.isdigit() and 1 <= len(word) <= 4 and int(word) > 0:
        return int(word)
    if word != "auto":
        raise UsageError(f"--unit {word}: say auto, days, hours, or a number of minutes")
    common = math.gcd(calendar.day_minutes, *_times(nodes))
    longest = max((node.minutes for node in nodes), default=0)
    if longest > common * MAX_UNITS:
        return HOUR if longest <= HOUR * MAX_UNITS else calendar.day_minutes
    return common


def _times(nodes: Iterable[Node]) -> Iterable[int]:
    """Yields the durations and lags of nodes in minutes."""
    for node in nodes:
        yield node.minutes
        for tie in node.starts + node.finishes:
            yield abs(tie.lag)
        task = node.task
        if task is not None and task.crash is not None:
            yield node.plan_minutes(task.crash.minutes)
        if task is not None and task.estimates is not None:
            yield from _estimates(node, task.estimates)


def _estimates(node: Node, given: Estimates) -> tuple[int, int, int]:
    """Returns the three estimates of a task in minutes of the plan's calendar."""
    minutes = (given.optimistic, given.likely, given.pessimistic)
    optimistic, likely, pessimistic = map(node.plan_minutes, minutes)
    return optimistic, likely, pessimistic


def unit_name(minutes: int, calendar: Calendar) -> str:
    """Returns how a unit is called: `days`, `hours`, `half days` or `units of 90 minutes`."""
    if minutes == calendar.day_minutes:
        return "days"
    if minutes == HOUR:
        return "hours"
    if minutes * 2 == calendar.day_minutes:
        return "half days"
    return f"units of {minutes} minutes"


@dataclass
class Rounding:
    """Turns minutes into units; what is not whole is rounded up and is a loss."""

    unit_minutes: int
    day_minutes: int
    losses: list[Loss]

    def units(self, minutes: int, where: str, task: str, field: str) -> int:
        """Returns a time in units, rounded up; longer than a deck can have is a loss too."""
        units = -(-minutes // self.unit_minutes)
        if units * self.unit_minutes != minutes:
            why = f"rounded up to {self._words(units)}"
            text = f"{minutes} working minutes"
            self.losses.append(Loss(LossKind.FRACTION, where, task, field, text, why))
        if units > MAX_UNITS:
            why = f"this deck has durations up to {self._words(MAX_UNITS)}; that is taken"
            text = self._words(units)
            self.losses.append(Loss(LossKind.DURATION, where, task, field, text, why))
            units = MAX_UNITS
        return units

    def _words(self, units: int) -> str:
        """Returns units as people say them, in days."""
        return day_words(units * self.unit_minutes, self.day_minutes)

    def set_durations(self, node: Node) -> None:
        """Gives a node its durations in units: each estimate and the normal one; no crash yet."""
        node.normal = self.units(node.minutes, node.where, node.name, "duration")
        node.crash = node.normal
        node.estimates = (node.normal,) * 3
        if node.task is not None and node.task.estimates is not None:
            node.estimates = self._estimates(node, node.task)

    def _estimates(self, node: Node, task: Task) -> tuple[int, int, int]:
        assert task.estimates is not None
        given = _estimates(node, task.estimates)
        optimistic = self.units(given[0], node.where, node.name, "optimistic")
        likely = self.units(given[1], node.where, node.name, "likely")
        pessimistic = self.units(given[2], node.where, node.name, "pessimistic")
        if not optimistic <= likely <= pessimistic:
            text = f"{optimistic} {likely} {pessimistic}"
            why = f"the estimates are not in order; {node.normal} is taken three times"
            self.losses.append(
                Loss(LossKind.DURATION, node.where, node.name, "estimates", text, why)
            )
            return (node.normal,) * 3
        return optimistic, likely, pessimistic

    def set_lag(self, node: Node, tie: Tie) -> None:
        """Gives a tie its lag in units."""
        where = node.where if tie.link is None or not tie.link.where else tie.link.where
        tie.lag = self.units(tie.lag, where, node.name, "lag")
