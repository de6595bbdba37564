"""A schedule in the file of P6 or GanttProject that its plan came from, and imported again."""

from collections.abc import Callable
from dataclasses import dataclass
from pathlib import Path

import pytest
from hypothesis import HealthCheck, assume, given, settings
from hypothesis import strategies as st

from chosen_lengths import (
    check_dates,
    check_listed,
    in_one_piece,
    rest_dates,
    state_of,
    three_lengths,
)
from cpm import Dates
from examples import length_count
from file_changes import listed_fields, unlisted
from mspdi_files import full_mspdi
from p6_files import DURATION_TYPES, full_pmxml, full_xer
from pert_companion import readers
from pert_companion.analysis.schedule import Schedule
from pert_companion.analysis.scheduling import rest_schedule
from pert_companion.carry import Carried, CarryOptions, carry
from pert_companion.model.plan import Plan, Task
from pert_companion.model.source import Source
from pert_companion.programs.results import cost_at
from pert_companion.readers.base import ReaderOptions
from pert_companion.state.remaining import State
from pert_companion.writers.changed_fields import CHANGED
from pert_companion.writers.into import WAYS_BACK
from planner_files import gan_bytes
from plans import Feature, plans

PLANNED = frozenset(
    (
        Feature.LINK_KINDS,
        Feature.LAGS,
        Feature.CRASH,
        Feature.CRASH_COST,
        Feature.COSTS,
        Feature.HOLIDAYS,
        Feature.WEEKS,
        Feature.LISTED_DATES,
        Feature.RESOURCES,
    )
)
RUNNING = PLANNED | {Feature.PROGRESS}
SLOW = settings(
    max_examples=length_count(12),
    deadline=None,
    suppress_health_check=list(HealthCheck),
)


@dataclass(frozen=True)
class Format:
    """A format: how a test writes a plan, and what its files can say."""

    name: str
    write: Callable[[Plan, str], bytes]
    features: frozenset[Feature] = RUNNING
    lists_finishes: bool = True
    """Whether it lists when tasks under way end."""


def full_gan(plan: Plan, _: str) -> bytes:
    """Returns a plan as GanttProject has it, which has no types of durations."""
    return gan_bytes(plan)


FORMATS = {
    "mspdi": Format("mspdi", full_mspdi, RUNNING | {Feature.CONSTRAINTS}),
    "xer": Format("xer", full_xer, RUNNING | {Feature.CONSTRAINTS}),
    "pmxml": Format("pmxml", full_pmxml, RUNNING | {Feature.CONSTRAINTS}),
    "gan": Format("gan", full_gan, lists_finishes=False),
}
EVERY = pytest.mark.parametrize("format_name", FORMATS)


def read(data: bytes, plan: Plan) -> Plan:
    """Reads a file. GanttProject's has no date of the progress."""
    options = ReaderOptions(data_date=plan.data_date)
    return readers.read(Source(Path("plan"), data), options).plan


def into(name: str, data: bytes, schedule: Schedule, carried: Carried) -> bytes:
    """Returns a file with a schedule, which it takes completely."""
    changed, faults = WAYS_BACK[name].put(data, "plan", schedule, carried.side)
    assert faults == []
    return changed


@EVERY
@SLOW
@given(st.data())
def test_dates_of_the_chosen_durations(format_name: str, data: st.DataObject) -> None:
    """At three lengths a plan that has not begun shows the dates of the CPM."""
    form = FORMATS[format_name]
    features = form.features - {Feature.PROGRESS}
    plan = in_one_piece(data.draw(plans(features=features, least=2, most=9)))
    assume(any(isinstance(entry, Task) for entry in plan.outline))
    original = form.write(plan, data.draw(st.sampled_from(DURATION_TYPES)))
    carried = carry(read(original, plan))
    for schedule in three_lengths(carried):
        changed = into(format_name, original, schedule, carried)
        assert unlisted(format_name, original, changed) == []
        check_dates(read(changed, plan), schedule)


def check_left(plan: Plan, schedule: Schedule) -> None:
    """Compares the dates that a running plan lists with those of what is left of each task."""
    left = {
        task.uid: task.left_minutes for task in schedule.tasks if task.state is not State.FINISHED
    }
    calendar = plan.calendar
    tasks = {task.uid: task for task in plan.tasks()}
    for uid, (start, finish) in rest_dates(plan, left).items():
        task = tasks[uid]
        if task.progress.actual_start is not None:
            days = {calendar.end_at(finish).date()}
            days |= {calendar.at(start).date()} if task.is_milestone else set()
            assert task.listed_finish in days
            continue
        check_listed(plan, task, Dates(start, finish, start, finish))


@EVERY
@SLOW
@given(st.data())
def test_running_plans_come_back(format_name: str, data: st.DataObject) -> None:
    """An export at any length, imported again, has the curve of what was left from there on."""
    form = FORMATS[format_name]
    plan = in_one_piece(data.draw(plans(features=form.features, least=2, most=9)))
    assume(any(isinstance(entry, Task) for entry in plan.outline))
    original = form.write(plan, data.draw(st.sampled_from(DURATION_TYPES)))
    carried = carry(read(original, plan))
    unit = CarryOptions(unit=str(carried.side.unit_minutes))
    before = state_of(carried).rest.curve
    for schedule in three_lengths(carried):
        changed = into(format_name, original, schedule, carried)
        assert unlisted(format_name, original, changed) == []
        again = carry(read(changed, plan), unit)
        after = state_of(again).rest.curve
        assert (after[0].length, after[-1].length) == (schedule.length, before[-1].length)
        for length in range(after[-1].length, schedule.length + 1):
            assert cost_at(after, length)[0] == cost_at(before, length)[0]
        normal = rest_schedule(state_of(again))
        assert [task.left_minutes for task in normal.tasks] == [
            task.left_minutes for task in schedule.tasks
        ]
        assert [task.finish for task in normal.tasks] == [task.finish for task in schedule.tasks]
        if form.lists_finishes:
            check_left(read(changed, plan), schedule)


@EVERY
@SLOW
@given(st.data())
def test_what_has_its_dates_stays(format_name: str, data: st.DataObject) -> None:
    """A plan that has not begun and has its dates stays as it is, byte for byte."""
    form = FORMATS[format_name]
    features = form.features - {Feature.PROGRESS}
    plan = in_one_piece(data.draw(plans(features=features, least=2, most=9)))
    assume(any(isinstance(entry, Task) for entry in plan.outline))
    original = form.write(plan, DURATION_TYPES[0])
    carried = carry(read(original, plan))
    schedule = rest_schedule(state_of(carried))
    dated = into(format_name, original, schedule, carried)
    assert into(format_name, dated, schedule, carried) == dated


@pytest.mark.parametrize("format_name", CHANGED)
def test_the_page_lists_what_changes(format_name: str) -> None:
    """docs/exporting.md lists the fields that the code may change."""
    fields = {kind: set(names) for kind, names in CHANGED[format_name].items()}
    assert listed_fields(format_name) == fields
