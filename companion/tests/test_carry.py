"""A plan becomes a deck whose dates are the planner's, or what cannot be is named."""

from dataclasses import dataclass, replace
from datetime import timedelta
from decimal import Decimal

from cpm import Dates, as_late, dates_of
from examples import example_count
from hypothesis import HealthCheck, assume, given, settings
from hypothesis import strategies as st
from plans import ALL_FEATURES, FIRST_DAY, Feature, plans


from pert_companion.carry import Carried, carry
from pert_companion.model.calendar import Calendar
from pert_companion.model.days import counted
from pert_companion.model.plan import Link, LinkKind, Plan, Progress, Task
from pert_companion.model.sidefile import SideTask, card_codes, from_json, to_json
from pert_companion.programs.client import Programs
from pert_companion.state.project import ProjectState
from pert_companion.analysis.scheduling import normal_schedule
from pert_companion.state.work import with_durations

EXAMPLES = example_count(40)
PROGRAMS = Programs()
DATES = frozenset(
    {
        Feature.HOURS,
        Feature.LINK_KINDS,
        Feature.LAGS,
        Feature.SHARE_LAGS,
        Feature.CRASH,
        Feature.CONSTRAINTS,
        Feature.HOLIDAYS,
        Feature.WEEKS,
    }
)
"""What has a say in dates and is carried over exactly."""


def property_settings(share: int = 1) -> settings:
    """Returns the settings of a property that runs programs."""
    return settings(
        max_examples=max(1, EXAMPLES // share),
        deadline=None,
        suppress_health_check=[HealthCheck.too_slow, HealthCheck.data_too_large],
    )


@dataclass(frozen=True)
class Span:
    """When a real task begins and ends in the deck at normal durations, in units."""

    start: int
    finish: int


def spans_of(carried: Carried) -> dict[str, Span]:
    """Returns the early dates of real tasks, as `pert` computes them from the deck."""
    network = PROGRAMS.network(carried.deck)
    point = PROGRAMS.normal(network)
    times = PROGRAMS.times(with_durations(network, point.durations))
    begins = {card.code: times.events[card.begins].early // 6 for card in network.activities}

    def span(task: SideTask) -> Span:
        last = task.parts[-1]
        finish = begins[last] + point.durations[last]
        start = begins[task.parts[0]]
        if task.finish_moment is not None:
            finish = begins[task.finish_moment]
            start = finish - task.normal if task.start_moment is None else start
        return Span(start, finish)

    return {task.uid: span(task) for task in carried.side.tasks}


def has_exact_links(carried: Carried) -> bool:
    """Says whether all durations, lags and links are carried over as they are."""
    return not any(loss.field in ("link", "lag", "duration") for loss in carried.losses)


def early_dates(plan: Plan) -> dict[str, Dates]:
    """Returns the dates of the tests' own method; plans that it cannot say are passed over."""
    try:
        return dates_of(plan)
    except NotImplementedError:
        assume(False)
        raise


@given(plans(DATES | {Feature.LEADS, Feature.ELAPSED_LAGS, Feature.GROUP_LINKS}))
@property_settings()
def test_early_dates_are_those_of_the_calendar(plan: Plan) -> None:
    """Every task starts and ends at normal durations when a plain CPM says so, in one piece."""
    carried = carry(plan)
    assume(has_exact_links(carried))
    dates = early_dates(plan)
    origin = plan.calendar.position(plan.calendar.morning(plan.start))
    unit = carried.side.unit_minutes
    for uid, span in spans_of(carried).items():
        assert span.start * unit == dates[uid].start - origin, uid
        assert span.finish * unit == dates[uid].finish - origin, uid


@given(plans(DATES))
@property_settings()
def test_late_dates_are_those_of_the_calendar(plan: Plan) -> None:
    """Every task has the total float of a plain CPM, if no link has a lead."""
    carried = carry(plan)
    assume(has_exact_links(carried))
    dates = as_late(plan, early_dates(plan))
    for task in normal_schedule(ProjectState(PROGRAMS, carried.deck, carried.side).plan).tasks:
        assert task.total_float_minutes == dates[task.uid].total_float, task.uid
        assert task.is_critical == (dates[task.uid].total_float <= 0), task.uid


def test_a_finish_that_waits_is_no_later_than_its_start_allows() -> None:
    """B ends after A and C begins with B: A has 3 days of float, though the deck's end has 8."""
    days = {"A": 2, "B": 5, "C": 10}
    tasks = tuple(Task(name, name, name, count * 480) for name, count in days.items())
    links = (
        Link("A", "B", LinkKind.FINISH_FINISH),
        Link("B", "C", LinkKind.START_START),
    )
    carried = carry(Plan("P", FIRST_DAY, Calendar(), tasks, links))
    found = normal_schedule(ProjectState(PROGRAMS, carried.deck, carried.side).plan).tasks
    assert [task.total_float_minutes // 480 for task in found] == [3, 0, 0]
    assert [task.is_critical for task in found] == [False, True, True]


@st.composite
def progress_of(draw: st.DrawFn, task: Task) -> Progress:
    """Returns progress with dates that may make no sense."""
    percent = draw(st.sampled_from([None, 0, 10, 50, 75, 100]))
    began = draw(st.none() | st.integers(-3, 20))
    ended = draw(st.none() | st.integers(-3, 25))
    return replace(
        task.progress,
        percent=None if percent is None else Decimal(percent),
        actual_start=None if began is None else FIRST_DAY + timedelta(days=began),
        actual_finish=None if ended is None else FIRST_DAY + timedelta(days=ended),
    )


@given(st.data(), plans(ALL_FEATURES))
@property_settings()
def test_every_deck_is_accepted(data: st.DataObject, plan: Plan) -> None:
    """`pert arrows` and `pert check` accept each deck, with progress too, and side files fit."""
    outline = []
    for entry in plan.outline:
        if isinstance(entry, Task) and data.draw(st.booleans()):
            entry = replace(entry, progress=data.draw(progress_of(entry)))
        outline.append(entry)
    data_date = FIRST_DAY + timedelta(days=data.draw(st.integers(0, 40)))
    carried = carry(replace(plan, outline=tuple(outline), data_date=data_date))
    network = PROGRAMS.pert(carried.data, "arrows")
    PROGRAMS.pert(network, "check")
    ready = counted(carried.deck, carried.side).to_bytes()
    PROGRAMS.pert(PROGRAMS.pert(ready, "arrows"), "value")
    codes = card_codes(carried.side)
    assert sorted(codes) == sorted(card.code for card in carried.deck.tasks)
    assert from_json(to_json(carried.side), "wing.json") == carried.side
    for loss in carried.losses + carried.side_losses:
        assert loss.where.startswith("row ") and loss.name and loss.why
