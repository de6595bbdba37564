"""The options of a decision: lengths of the work that is left, and what each costs in all.

What an option costs in all is the least cost of its work plus the price of its time, by the TERMS
of the deck: overhead for each unit, a bonus for each unit before the target, a penalty for each one
after it. Amounts are in units of money of the deck, lengths in units.
"""

from collections.abc import Iterable, Sequence
from dataclasses import dataclass
from datetime import date
from enum import Enum

from pert_companion.model.amounts import measure_of
from pert_companion.model.cards import TermsCard
from pert_companion.model.deck import Deck
from pert_companion.programs import results
from pert_companion.state.project import ProjectState
from pert_companion.state.work import Work


class Reason(Enum):
    """Why a length is an option."""

    TODAY = "today’s plan"
    CONTRACT = "contract date"
    PLANNED = "planned end"
    TARGET = "target"
    DEADLINE = "deadline"
    CHEAPEST = "cheapest in all"
    CHOSEN = "chosen"
    SHORTEST = "shortest"


@dataclass(frozen=True)
class Mark:
    """A length that somebody may want, and why."""

    length: int
    reason: Reason
    name: str = ""
    """Of which task a deadline is."""


@dataclass(frozen=True)
class Option:
    """A length with its price, next to that of today's plan."""

    length: int
    marks: tuple[Mark, ...]
    end: date | None
    """The last day of work; None after the year 9999."""
    work: int
    """The least cost of the work."""
    time: int | None
    """The price of its time; None without TERMS."""
    against_today: int
    """What it costs in all beyond today's plan; below 0 if it saves."""
    work_against_today: int
    step: int
    """The units of the next shortening: a day, or less if no complete day is left."""
    next: int | None
    """What that costs in all; None at the shortest length."""

    @property
    def total(self) -> int:
        """Returns what it costs in all: the work and its time."""
        return self.work + (self.time or 0)

    @property
    def time_against_today(self) -> int:
        """Returns what its time costs beyond that of today's plan."""
        return self.against_today - self.work_against_today

    def has(self, reason: Reason) -> bool:
        """Says whether it is an option for this reason."""
        return any(mark.reason is reason for mark in self.marks)


@dataclass(frozen=True)
class TimePrice:
    """What the time of a length costs."""

    overhead: int
    bonus: int
    """At least 0: what the contract pays."""
    penalty: int

    @property
    def total(self) -> int:
        """Returns the sum, in which the bonus is below 0."""
        return self.overhead - self.bonus + self.penalty


def time_price(terms: TermsCard, length: int) -> TimePrice:
    """Returns what the time of a length costs."""
    return TimePrice(
        terms.overhead * length,
        terms.bonus * max(0, terms.target - length),
        terms.penalty * max(0, length - terms.target),
    )


def total_cost(work: Work, length: int) -> int:
    """Returns what the work costs at a length, in all."""
    cost, _ = results.cost_at(work.curve, length)
    terms = work.deck.terms
    return cost if terms is None else cost + time_price(terms, length).total


def optimal_length(work: Work) -> int | None:
    """Returns the cheapest length in all; None without TERMS to say what that is."""
    return None if work.deck.terms is None else work.optimum.point.length


def options(state: ProjectState, held: Sequence[tuple[Reason, date]] = ()) -> tuple[Option, ...]:
    """Returns the options for what is left, from the longest to the shortest.

    `held` are days that the project is held to. Days that no schedule ends on are no options.
    """
    work = state.rest
    marks = [Mark(work.longest, Reason.TODAY), Mark(work.shortest, Reason.SHORTEST)]
    marks.extend(Mark(work.clock.units_until(day), reason) for reason, day in held)
    if work.deck.terms is not None:
        marks.append(Mark(work.deck.terms.target, Reason.TARGET))
        marks.append(Mark(work.optimum.point.length, Reason.CHEAPEST))
    marks.extend(deadline_marks(state))
    return options_at(work, marks)


def chosen_option(work: Work, length: int) -> Option:
    """Returns the option of a length that somebody has in mind."""
    (option,) = options_at(work, [Mark(length, Reason.CHOSEN)])
    return option


def deadline_marks(state: ProjectState) -> list[Mark]:
    """Returns the lengths that end on deadlines of tasks with which the project ends.

    A deadline in the middle of the project says nothing about its end.
    """
    work = state.rest
    leading = _events_before_work(work.network)
    last = {card.code for card in work.network.activities if card.ends not in leading}
    marks = []
    for task in state.side.tasks:
        if task.deadline is not None and task.parts[-1] in last:
            length = work.clock.units_until(task.deadline)
            marks.append(Mark(length, Reason.DEADLINE, task.name or task.code))
    return marks


def _events_before_work(network: Deck) -> set[str]:
    """Returns the events after which there is work, at once or behind dummies."""
    before: dict[str, list[str]] = {}
    for card in network.activities:
        if card.is_dummy:
            before.setdefault(card.ends, []).append(card.begins)
    found = {card.begins for card in network.activities if not card.is_dummy}
    waiting = list(found)
    while waiting:
        earlier = [event for event in before.get(waiting.pop(), ()) if event not in found]
        found.update(earlier)
        waiting.extend(earlier)
    return found


def options_at(work: Work, marks: Iterable[Mark]) -> tuple[Option, ...]:
    """Returns the options of these marks, each length once, from the longest to the shortest."""
    by_length: dict[int, list[Mark]] = {}
    for mark in marks:
        if work.shortest <= mark.length <= work.longest:
            by_length.setdefault(mark.length, []).append(mark)
    return tuple(_option(work, length, by_length[length]) for length in sorted(by_length)[::-1])


def _option(work: Work, length: int, marks: Sequence[Mark]) -> Option:
    """Returns the option of one length."""
    cost, _ = results.cost_at(work.curve, length)
    total, terms = total_cost(work, length), work.deck.terms
    step = min(measure_of(work.side).step, length - work.shortest)
    return Option(
        length=length,
        marks=tuple(marks),
        end=work.clock.end(length),
        work=cost,
        time=None if terms is None else time_price(terms, length).total,
        against_today=total - total_cost(work, work.longest),
        work_against_today=cost - work.curve[0].cost,
        step=step,
        next=total_cost(work, length - step) - total if step else None,
    )
