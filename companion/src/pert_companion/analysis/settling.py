"""A schedule of several calendars whose units are those of its own dates.

The units of a deck are counted at normal dates. At a chosen length, or once work has begun, a task
with another calendar falls on other days and may last other units. Then the deck is counted again
at these dates and solved again for the same length, until nothing changes any more.
"""

from collections.abc import Iterator
from dataclasses import dataclass, replace
from datetime import datetime

from pert_companion.analysis.latest import contract_end
from pert_companion.analysis.passes import Passes, passes_at
from pert_companion.carry.recounting import recounted
from pert_companion.model.amounts import measure_of
from pert_companion.model.cards import AfterCard
from pert_companion.model.text_form import TextForm
from pert_companion.programs import results
from pert_companion.state.work import Work

ROUNDS = 5
"""How often a deck is counted again at most."""
SHORTER = 3
"""How many units shorter a length is tried if none of its schedules ends in time."""


@dataclass(frozen=True)
class Settled:
    """The work of a schedule, counted at its dates, and the durations of its cards."""

    work: Work
    point: results.Point
    rounds: int = 0
    """How often it was counted again."""
    is_settled: bool = True
    """Whether the units of the last dates are those that it counts."""
    wanted: int | None = None
    """The length in units that was asked for; None for that of normal durations."""
    end: datetime = datetime.max
    """When it ends by the calendars of its tasks, of a plan with several."""
    curve: tuple[results.Breakpoint, ...] = ()
    """The curve as it is counted at normal durations, of a plan with several calendars."""

    def text(self, on_terminal: bool = False) -> str:
        """Returns what counting could not keep, for people; an empty text if it kept all."""
        return "; ".join(self._texts(TextForm(on_terminal, self.work.side.money_scale)))

    def _texts(self, form: TextForm) -> Iterator[str]:
        measure, found = measure_of(self.work.side), self.point.length
        if self.wanted is not None and self.wanted != found:
            yield (
                f"counted at its dates, no schedule has {measure.words(self.wanted)}: this one has"
                f" {measure.words(found)}"
            )
        elif not self.is_settled:
            yield "its units change with its dates; this is the best of the schedules found"
        if not self.curve or not self.curve[-1].length <= found <= self.curve[0].length:
            return
        counted, _ = results.cost_at(self.curve, found)
        if counted != self.point.cost:
            yield (
                f"counted at its dates it costs {form.money(self.point.cost)}, and"
                f" {form.money(counted)} on the curve, which counts at those of normal"
                " durations"
            )
        if self.work.shortest != self.curve[-1].length:
            yield (
                f"counted at its dates the shortest is {measure.words(self.work.shortest)}, not"
                f" {measure.words(self.curve[-1].length)}"
            )


def settled(work: Work, length: int | None) -> Settled:
    """Returns the cheapest schedule of a length in units; None is that of normal durations.

    If counting comes to no end, it is the cheapest schedule found that ends in time by the
    calendars of its tasks, perhaps one of a shorter length, or else the earliest. The length
    becomes the nearest one that there is, if the units of its dates do not allow it.
    """
    if work.side.logic is None:
        return Settled(work, _point(work, length), wanted=length)
    found = _settled_at(work, length, length)
    if length is None:
        return found
    found = replace(found, curve=work.curve)
    wanted = work.clock.end_moment(length)
    for shorter in range(length - 1, max(work.shortest, length - SHORTER) - 1, -1):
        if found.end <= wanted:
            break
        other = _settled_at(work, shorter, length)
        found = replace(other, curve=work.curve) if other.end <= wanted else found
    return found


def _settled_at(work: Work, length: int | None, wanted: int | None) -> Settled:
    """Returns the schedule of a length that counts itself, or the best one found."""
    point = _point(work, length)
    tried: list[Settled] = []
    while True:
        passes = passes_at(work.side, point.durations, contract_end(work.side, work.deck))
        again = _counted_at(work, passes)
        found = Settled(work, point, len(tried), False, wanted, passes.end)
        if again is None or _counts(again) == _counts(work):
            return replace(found, is_settled=again is not None)
        tried.append(found)
        if len(tried) > ROUNDS or _is_known(again, tried):
            return _best(tried, wanted)
        work = again
        point = _point(work, length)


def _is_known(work: Work, tried: list[Settled]) -> bool:
    """Says whether work is counted as in an earlier round, so that counting goes in a circle."""
    return any(_counts(work) == _counts(each.work) for each in tried)


def _best(tried: list[Settled], wanted: int | None) -> Settled:
    """Returns the cheapest schedule that ends in time, or the one that ends first."""
    if wanted is not None:
        end = tried[0].work.clock.end_moment(wanted)
        in_time = [each for each in tried if each.end <= end]
        if in_time:
            return min(in_time, key=lambda each: each.point.cost)
    return min(tried, key=lambda each: each.end)


def _point(work: Work, length: int | None) -> results.Point:
    """Returns the schedule of the nearest length that the work has."""
    if length is None:
        return work.normal
    return work.point(min(max(length, work.shortest), work.longest))


def _counted_at(work: Work, passes: Passes) -> Work | None:
    """Returns the work with the units of the dates of a schedule; None if it has none."""
    made = recounted(work.deck, work.side, passes.recount())
    if made is None:
        return None
    deck, side = made
    return replace(work, deck=deck, side=side, source=None, _points={}, _times={})


@dataclass(frozen=True)
class _Counts:
    """What two ways of counting the same plan may differ in."""

    cards: dict[str, tuple[int, int, int]]
    """The durations and the slope of each card of work, by code."""
    links: frozenset[AfterCard]
    starts: dict[str, datetime]
    """From when on tasks with a calendar of their own are counted, by code."""


def _counts(work: Work) -> _Counts:
    cards = {card.code: (card.normal, card.crash, card.slope) for card in work.deck.work}
    starts = {task.code: task.own.start for task in work.side.tasks if task.own is not None}
    return _Counts(cards, frozenset(work.deck.afters), starts)
