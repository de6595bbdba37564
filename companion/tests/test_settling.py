"""A deck that is counted again at other dates counts what a walk hour by hour finds there."""

from dataclasses import replace

from hourly import HourTask, dates_by_hours, moment_of
from hypothesis import assume, given
from hypothesis import strategies as st
from test_passes import BEGIN, START, Case, cases, is_exact, property_settings

from pert_companion.analysis.passes import passes_at
from pert_companion.carry import Carried, CarryOptions
from pert_companion.carry.recounting import recounted
from pert_companion.importing.conversion import carried_by_dates
from pert_companion.model.deck import Deck
from pert_companion.model.sidefile import SideTask

HOURS = CarryOptions(unit="60")


def counted(case: Case) -> Carried:
    """Returns the deck of a plan with several calendars, in hours."""
    carried = carried_by_dates(case.plan, HOURS)
    assume(carried.side.logic is not None and is_exact(carried.losses))
    return carried


def ends_of_cards(deck: Deck, durations: dict[str, int]) -> dict[str, int]:
    """Returns when each card ends, in units: the longest way to it."""
    before: dict[str, list[str]] = {}
    for after in deck.afters:
        before.setdefault(after.task, []).append(after.before)
    ends: dict[str, int] = {}
    while len(ends) < len(deck.tasks):
        for card in deck.tasks:
            needed = before.get(card.code, [])
            if all(each in ends for each in needed):
                begin = max([ends[each] for each in needed], default=0)
                ends[card.code] = begin + durations.get(card.code, card.normal)
    return ends


@given(cases())
@property_settings(2)
def test_a_deck_at_its_own_dates_stays(case: Case) -> None:
    """Counted again at normal durations, a deck has the durations and links that it had."""
    carried = counted(case)
    normal = {card.code: card.normal for card in carried.deck.tasks}
    dates = passes_at(carried.side, normal).recount()
    made = recounted(carried.deck, carried.side, dates)
    assert made is not None
    wanted = {(card.code, card.normal, card.crash, card.slope) for card in carried.deck.tasks}
    found = {(card.code, card.normal, card.crash, card.slope) for card in made[0].tasks}
    assert found == wanted and set(made[0].afters) == set(carried.deck.afters)


def can_be_shortened(task: SideTask) -> bool:
    """Says whether a test can shorten a task: it is one card, of the plan's calendar.

    One whose finish waits for others may pause in a deck if it is shorter.
    """
    is_one_card = len(task.parts) == 1 and task.finish_moment is None
    return task.own is None and is_one_card and task.normal > 1


@given(cases(), st.integers(1, 3))
@property_settings()
def test_a_deck_counts_what_its_tasks_span_at_other_dates(case: Case, share: int) -> None:
    """Tasks of the plan's calendar take a share of their time; all others are counted again."""
    carried = counted(case)
    side = carried.side
    shorter = {
        task.code: max(1, task.normal // (share + 1))
        for task in side.tasks
        if can_be_shortened(task)
    }
    assume(shorter)
    durations = {card.code: card.normal for card in carried.deck.tasks} | shorter
    made = recounted(carried.deck, side, passes_at(side, durations).recount())
    assume(made is not None)
    assert made is not None
    deck, again = made
    assume(all(len(task.parts) == 1 for task in again.tasks))
    hours = {task.uid: shorter.get(task.code) for task in side.tasks}
    tasks = tuple(_with_hours(task, hours[task.name]) for task in case.tasks)
    walked = dates_by_hours(tasks, case.links, BEGIN)
    ends, calendar = ends_of_cards(deck, shorter), case.plan.calendar
    origin = calendar.position(calendar.morning(START))
    for entry in again.tasks:
        end = ends[entry.finish_moment or entry.parts[-1]] * again.unit_minutes
        assert end == calendar.position(moment_of(walked[entry.uid][1])) - origin, entry.uid


def _with_hours(task: HourTask, hours: int | None) -> HourTask:
    return task if hours is None else replace(task, hours=hours)
