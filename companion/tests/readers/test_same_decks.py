"""One plan in each format becomes the same deck, byte for byte, and the same side file.

The plan has everything that planners' files say. Where a format has no place for a fact, its files
are compared with those of the others without that fact.
"""

from collections.abc import Callable, Mapping
from dataclasses import replace
from datetime import timedelta
from functools import cache
from itertools import combinations
from pathlib import Path

import pytest

from every_format import FORMATS, Fact, Format, without
from pert_companion import readers
from pert_companion.carry import CarryOptions, carry
from pert_companion.importing.conversion import Capacities, Imported, import_plan
from pert_companion.model.calendar import Calendar
from pert_companion.model.plan import ConstraintKind, LinkKind, Plan
from pert_companion.model.sidefile import SideFile, SideTask
from pert_companion.model.source import Source
from pert_companion.readers.base import ReaderOptions
from planner_files import mspdi_bytes, planner_bytes, xer_bytes
from sample_plan import sample_plan
from two_months import DAY, NOW, START, changed, dated, running, station

PAIRS = list(combinations(FORMATS, 2))
STATES = ("planned", "running")
DAYS = [START + timedelta(days=number) for number in range(420)]


@cache
def plan_of(state: str) -> Plan:
    """Returns the plan as it was planned, or in its second month."""
    planned = dated(station())
    return running(planned) if state == "running" else planned


@cache
def imported(name: str, state: str, facts: frozenset[Fact]) -> Imported:
    """Returns the import of a file of a format, of the plan without some facts; nothing is lost."""
    form, plan = FORMATS[name], without(plan_of(state), facts)
    said = {}
    if form.is_told_days_and_capacities:
        said = {each.name: each.capacity for each in plan.resources if each.capacity is not None}
    source, deck = Source(Path(f"plan{form.ending}"), form.write(plan)), Path("none/plan.csv")
    given, capacities = options_of(form, plan), Capacities(said)
    found = import_plan(source, given, CarryOptions(), deck, capacities=capacities)
    assert (found.format, found.losses) == ("table" if name == "csv" else name, ())
    return found


def options_of(form: Format, plan: Plan) -> ReaderOptions:
    """Returns what the import of a file is told."""
    options = ReaderOptions()
    if form.is_list:
        options = ReaderOptions(name=plan.name, start=START, decimal=".", day_first=False)
    if form.is_told_days_and_capacities:
        options = replace(options, holidays=plan.calendar.exceptions)
    return options if form.has_status_date else replace(options, data_date=plan.data_date)


def worked(calendar: Calendar) -> tuple[object, ...]:
    """Returns the shifts of each day of more than a year, and how long days and weeks are."""
    shifts = tuple(calendar.shifts_on(day) for day in DAYS)
    return shifts, calendar.day_minutes, calendar.week_minutes, calendar.month_days


def side_facts(side: SideFile, facts: frozenset[Fact]) -> dict[str, object]:
    """Returns what a side file says, without what formats call their calendars and groups."""
    assert side.logic is not None
    days = {each.name: worked(each) for each in side.logic.calendars}
    ties = [(replace(tie, calendar=""), days.get(tie.calendar)) for tie in side.logic.ties]
    return {
        "start": side.start,
        "data date": side.data_date,
        "unit": (side.unit_minutes, side.money_scale),
        "calendar": worked(side.calendar),
        "tasks": [_task_facts(task, days, facts) for task in side.tasks],
        "groups": [(group.code, group.name) for group in side.groups],
        "waits": side.waits,
        "cards": side.cards,
        "capacities": [replace(each, is_said=False) for each in side.capacities],
        "begin": side.logic.begin,
        "ties": sorted(ties, key=str),
    }


def _task_facts(task: SideTask, days: Mapping[str, object], facts: frozenset[Fact]) -> object:
    """Returns what a side file says of a task, with the days of its own calendar.

    GanttProject has no actual dates, counts the finish by the calendar of the plan, and has whole
    percentages, so that what is left is compared in days.
    """
    plain = replace(task, row=None, uid=task.uid.removeprefix("T"))
    if Fact.ACTUAL_DATES in facts:
        days_left = None if task.remaining is None else -(-task.remaining // DAY)
        plain = replace(plain, actual_start=None, actual_finish=None, remaining=days_left)
    if task.own is None:
        return plain, None
    if Fact.ACTUAL_DATES in facts:
        plain = replace(plain, listed_finish=None)
    return replace(plain, own=replace(task.own, calendar="")), days[task.own.calendar]


@pytest.mark.parametrize("state", STATES)
@pytest.mark.parametrize(("one", "other"), PAIRS)
def test_two_formats(one: str, other: str, state: str) -> None:
    """The decks have the same bytes, and the side files say the same."""
    facts = FORMATS[one].lacks | FORMATS[other].lacks
    first, second = imported(one, state, facts), imported(other, state, facts)
    assert first.carried.data == second.carried.data
    found, wanted = (side_facts(each.side, facts) for each in (first, second))
    for name, value in found.items():
        assert value == wanted[name], name
    assert resources_of(first.plan) == resources_of(second.plan)


def resources_of(plan: Plan) -> set[object]:
    """Returns what a plan says of its resources."""
    return {(each.name, each.kind, each.unit, each.rate, each.capacity) for each in plan.resources}


def test_the_plan_has_everything() -> None:
    """What the tests compare is there: cards of all kinds, and what the side file keeps."""
    found = imported("mspdi", "running", frozenset())
    deck, side = found.carried.deck, found.side
    assert side.logic is not None
    for cards in (deck.statuses, deck.charges, deck.to_go, deck.loads, deck.resources):
        assert cards
    assert deck.as_of == NOW + timedelta(days=1)
    assert {tie.kind for tie in side.logic.ties if tie.before} == set(LinkKind)
    assert {tie.lag > 0 for tie in side.logic.ties if tie.lag} == {True, False}
    kinds = {task.constraint.kind for task in side.tasks if task.constraint is not None}
    assert kinds == set(ConstraintKind)
    first = side.tasks[0]
    assert first.minutes == 0 and first.actual_start == first.actual_finish == START


@pytest.mark.parametrize("name", FORMATS)
def test_each_fact_is_in_the_file(name: str) -> None:
    """A file without a fact that its format has is another one."""
    form = FORMATS[name]
    told = {Fact.CAPACITIES} if form.is_told_days_and_capacities else set()
    complete = without(plan_of("running"), form.lacks)
    for fact in set(Fact) - form.lacks - told:
        less = without(complete, (fact,))
        assert less == complete or form.write(less) != form.write(complete), fact


def deck_of(data: bytes) -> bytes:
    """Returns the deck of a planner's file, from which nothing is lost."""
    reading = readers.read(Source(Path("plan.file"), data), ReaderOptions())
    carried = carry(reading.plan)
    assert reading.losses == carried.losses == ()
    return carried.data


def without_costs(plan: Plan) -> Plan:
    """Returns a plan as Planner can say it: its tasks cost what their resources do."""
    return changed(plan, lambda task: replace(task, cost=None))


def test_gnome_planner() -> None:
    """Planner has no crash durations, costs of tasks and working lags; the rest is the same."""
    plan = without_costs(sample_plan(with_crash=False, with_lags=False))
    assert deck_of(planner_bytes(plan)) == deck_of(mspdi_bytes(plan))


@pytest.mark.parametrize("name", ("mspdi", "xer"))
def test_the_order_of_links_does_not_matter(name: str) -> None:
    """Files differ in the order of their links; decks do not."""
    plan = sample_plan()
    writers: dict[str, Callable[..., bytes]] = {"mspdi": mspdi_bytes, "xer": xer_bytes}
    write = writers[name]
    turned = replace(plan, links=tuple(reversed(plan.links)))
    assert deck_of(write(turned)) == deck_of(write(plan))
