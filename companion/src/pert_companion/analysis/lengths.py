"""Chooses a length of work: by days, by the day on which it is to end, or by what it costs.

Lengths that people give are in days of work; a `Work` counts them in units of its deck.
"""

from dataclasses import dataclass
from datetime import date
from decimal import Decimal

from pert_companion.model.amounts import Measure, measure_of
from pert_companion.model.errors import InputError
from pert_companion.programs.results import cost_at
from pert_companion.state.work import Work


@dataclass(frozen=True)
class LengthChoice:
    """The length that somebody asks for; without any of these, the one of normal durations."""

    days: Decimal | None = None
    """So many days of work."""
    by: date | None = None
    """The longest length whose last day of work is not after this one."""
    cheapest: bool = False
    """The cheapest length with the price of time (TERMS)."""


@dataclass(frozen=True)
class Step:
    """The next shortening of a schedule: a day, or less if no complete day is left."""

    minutes: int
    """Working minutes."""
    cost: int
    """In units of money of the deck."""


def chosen_length(work: Work, choice: LengthChoice) -> int:
    """Returns the length in units that a choice names.

    Raises `InputError` that says which lengths or dates there are if it names none, and
    `ProgramError` if the cheapest one is asked for and the deck has no TERMS.
    """
    if choice.days is not None:
        return _of_days(work, choice.days)
    if choice.by is not None:
        return longest_by(work, choice.by)
    if choice.cheapest:
        return work.optimum.point.length
    return work.longest


def choice_of(work: Work, length: int) -> LengthChoice:
    """Returns the choice of a length in units, as people name it."""
    if length == work.longest:
        return LengthChoice()
    return LengthChoice(days=Decimal(measure_of(work.side).days(length)))


def named_length(work: Work, choice: LengthChoice) -> int | None:
    """Returns the length in units that a choice names by days or by a date; None for others.

    Errors are those of `chosen_length`.
    """
    if choice.days is None and choice.by is None:
        return None
    return chosen_length(work, choice)


def _of_days(work: Work, days: Decimal) -> int:
    units = measure_of(work.side).units(days)
    check_length(work, units)
    return units


def check_length(work: Work, units: int) -> None:
    """Raises `InputError` that says which lengths there are if the work has none of these units."""
    if work.shortest <= units <= work.longest:
        return
    measure = measure_of(work.side)
    raise InputError(
        f"there is no schedule of {measure.words(units)}: the shortest has"
        f" {_named(work, measure, work.shortest)}, and at normal durations it has"
        f" {_named(work, measure, work.longest)}"
    )


def longest_by(work: Work, day: date) -> int:
    """Returns the longest length in units whose last day of work is not after a day.

    Raises `InputError` that names the earliest end if there is none.
    """
    units = min(work.longest, work.clock.units_until(day))
    if units >= work.shortest:
        return units
    least = work.shortest
    raise InputError(
        f"no schedule ends by {day}: the earliest ends on {work.clock.end(least)}, after"
        f" {measure_of(work.side).words(least)} of work from {work.clock.first_day} on"
    )


def _named(work: Work, measure: Measure, units: int) -> str:
    return f"{measure.words(units)} (to {work.clock.end(units)})"


def next_step(work: Work, length: int) -> Step | None:
    """Returns what a day less costs at a length in units; None at the shortest length."""
    units = min(measure_of(work.side).step, length - work.shortest)
    if units <= 0:
        return None
    more = cost_at(work.curve, length - units)[0] - cost_at(work.curve, length)[0]
    return Step(units * work.side.unit_minutes, more)
