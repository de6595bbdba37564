"""Dates by passes over several calendars are those of a walk hour by hour."""

from collections.abc import Sequence
from dataclasses import dataclass
from datetime import date, timedelta

from examples import example_count
from hourly import (
    HourLink,
    Hours,
    HourTask,
    dates_by_hours,
    float_by_hours,
    moment_of,
)
from hypothesis import HealthCheck, given, settings
from hypothesis import strategies as st

from pert_companion.analysis.passes import Passes, passes_at
from pert_companion.carry import logic_of
from pert_companion.importing.conversion import carried_by_dates
from pert_companion.model.calendar import Calendar, free_days, merged_shifts
from pert_companion.model.deck import Deck
from pert_companion.model.logic import CLOCK_NAME
from pert_companion.model.losses import Loss
from pert_companion.model.plan import (
    Constraint,
    ConstraintKind,
    Lag,
    LagCalendar,
    Link,
    LinkKind,
    Plan,
    Task,
)
from pert_companion.model.sidefile import from_json, to_json

OFFICE = Hours(frozenset(range(5)), frozenset({8, 9, 10, 11, 13, 14, 15, 16}))
SITE = Hours(frozenset(range(6)), frozenset(range(6, 16)))
NIGHTS = Hours(frozenset(range(7)), frozenset({22, 23, 0, 1, 2, 3, 4, 5}))
WEEKENDS = Hours(frozenset({5, 6}), frozenset(range(9, 15)))
ALWAYS = Hours(frozenset(range(7)), frozenset(range(24)))
HOLIDAYS = frozenset({date(2026, 3, 11), date(2026, 3, 12), date(2026, 3, 23)})
WEEK = {"Site": SITE, "Nights": NIGHTS, "Weekends": WEEKENDS, CLOCK_NAME: ALWAYS}
START = date(2026, 3, 2)
BEGIN = 24 + 8


def calendar_of(name: str, hours: Hours) -> Calendar:
    """Returns the package's calendar of such hours."""
    shifts = merged_shifts((hour * 60, hour * 60 + 60) for hour in hours.hours)
    week = tuple(shifts if day in hours.weekdays else () for day in range(7))
    return Calendar(name, week, free_days(hours.free), day_minutes=60 * len(hours.hours))


@dataclass(frozen=True)
class Case:
    """The same plan for the package and for the walk hour by hour."""

    plan: Plan
    tasks: tuple[HourTask, ...]
    links: tuple[HourLink, ...]


@dataclass(frozen=True)
class Drawn:
    """A task as it is drawn: its hours, its calendar, its constraint."""

    hours: int
    calendar: str
    kind: str
    day: int


DRAWN_TASKS = st.builds(
    Drawn,
    st.integers(0, 30),
    st.sampled_from(["", "", *WEEK]),
    st.sampled_from(["", "", "", "S", "F"]),
    st.integers(0, 20),
)
DRAWN_LINKS = st.tuples(
    st.integers(0, 5),
    st.integers(0, 5),
    st.sampled_from(["FS", "FS", "SS", "FF", "SF"]),
    st.sampled_from([0, 0, 0, 5, 16, 30, -4]),
    st.booleans(),
)


def constraint_of(drawn: Drawn) -> Constraint | None:
    """Returns an earliest day of a task, after the first day, or None."""
    if not drawn.kind or drawn.day == 0:
        return None
    kinds = {"S": ConstraintKind.START_NO_EARLIER, "F": ConstraintKind.FINISH_NO_EARLIER}
    return Constraint(kinds[drawn.kind], START + timedelta(days=drawn.day))


@st.composite
def cases(draw: st.DrawFn) -> Case:
    """Draws plans of up to six tasks with calendars, links and lags of all kinds."""
    plan_hours = Hours(
        OFFICE.weekdays, OFFICE.hours, draw(st.sampled_from([frozenset(), HOLIDAYS]))
    )
    drawn = draw(st.lists(DRAWN_TASKS, min_size=1, max_size=6))
    setting = draw(st.sampled_from(list(LagCalendar)))
    tasks, hour_tasks = [], []
    for number, each in enumerate(drawn):
        name, constraint = f"t{number}", constraint_of(each)
        own = each.calendar if each.hours else ""
        tasks.append(
            Task(name, name, name, each.hours * 60, constraint=constraint, calendar=own or None)
        )
        hours = WEEK[own] if own else plan_hours
        is_start = constraint is not None and each.kind == "S"
        is_finish = constraint is not None and each.kind == "F"
        day = None if constraint is None else constraint.day
        hour_tasks.append(
            HourTask(name, each.hours, hours, day if is_start else None, day if is_finish else None)
        )
    links, hour_links = [], []
    for before, after, kind, lag, elapsed in draw(st.lists(DRAWN_LINKS, max_size=6)):
        if not before < after < len(tasks):
            continue
        links.append(Link(f"t{before}", f"t{after}", LinkKind(kind), Lag(lag * 60, elapsed)))
        by = {LagCalendar.PREDECESSOR: before, LagCalendar.SUCCESSOR: after}.get(setting)
        hours = plan_hours if by is None else hour_tasks[by].calendar
        hour_links.append(
            HourLink(f"t{before}", f"t{after}", kind, lag, ALWAYS if elapsed else hours)
        )
    plan = Plan(
        "P",
        START,
        calendar_of("Office", plan_hours),
        tuple(tasks),
        tuple(links),
        calendars=tuple(calendar_of(name, hours) for name, hours in WEEK.items()),
        lag_calendar=setting,
    )
    return Case(plan, tuple(hour_tasks), tuple(hour_links))


def property_settings(share: int = 1) -> settings:
    """Returns the settings of a property."""
    return settings(
        max_examples=max(20, example_count(100) // share),
        deadline=None,
        suppress_health_check=[HealthCheck.too_slow, HealthCheck.data_too_large],
    )


def passes_of(plan: Plan) -> Passes | None:
    """Returns the passes over a plan by the names of its tasks; None if one calendar says all."""
    found = logic_of(plan)
    return None if found is None else Passes(plan.calendar, *found)


@given(cases())
@property_settings()
def test_early_dates_are_those_of_a_walk_by_hours(case: Case) -> None:
    """Every task starts and ends in the hour in which a walk over all hours says so."""
    passes = passes_of(case.plan)
    if passes is None:
        return
    for name, (start, finish) in dates_by_hours(case.tasks, case.links, BEGIN).items():
        found = passes.early[name]
        assert (found.start, found.finish) == (moment_of(start), moment_of(finish)), name


@given(cases())
@property_settings(4)
def test_floats_are_those_of_a_walk_by_hours(case: Case) -> None:
    """No task can begin an hour later than its float says, and each can begin by then."""
    passes = passes_of(case.plan)
    if passes is None:
        return
    for task in case.tasks:
        hours = float_by_hours(task, case.tasks, case.links, BEGIN)
        assert passes.total_float(task.name) // 60 == hours, task.name


def ends_of_cards(deck: Deck) -> dict[str, int]:
    """Returns when each card ends at normal durations, in units: the longest way to it."""
    before: dict[str, list[str]] = {}
    for after in deck.afters:
        before.setdefault(after.task, []).append(after.before)
    normal = {card.code: card.normal for card in deck.tasks}
    ends: dict[str, int] = {}
    while len(ends) < len(normal):
        for code, units in normal.items():
            if all(each in ends for each in before.get(code, [])):
                ends[code] = max([ends[each] for each in before.get(code, [])], default=0) + units
    return ends


def is_exact(losses: Sequence[Loss]) -> bool:
    """Says whether all links and lags are carried over as they are."""
    return not any(loss.field in ("link", "lag", "duration") for loss in losses)


@given(cases())
@property_settings()
def test_a_deck_counts_tasks_as_they_fall_at_their_dates(case: Case) -> None:
    """Each task ends in the deck as many units after the first day as the plan's calendar says."""
    carried = carried_by_dates(case.plan)
    if carried.side.logic is None or not is_exact(carried.losses):
        return
    assert from_json(to_json(carried.side), "P") == carried.side
    ends, calendar = ends_of_cards(carried.deck), case.plan.calendar
    origin = calendar.position(calendar.morning(START))
    walked = dates_by_hours(case.tasks, case.links, BEGIN)
    for task in carried.side.tasks:
        end = ends[task.finish_moment or task.parts[-1]] * carried.side.unit_minutes
        assert end == calendar.position(moment_of(walked[task.uid][1])) - origin, task.uid
    normal = {card.code: card.normal for card in carried.deck.tasks}
    again = passes_at(carried.side, normal)
    for task in carried.side.tasks:
        start, finish = walked[task.uid]
        found = again.early[task.code]
        assert (found.start, found.finish) == (moment_of(start), moment_of(finish)), task.uid
