"""The six formats of planners' files: how a plan is written in each, and what each cannot hold."""

import csv
import io
from collections.abc import Callable, Iterable, Mapping, Sequence
from dataclasses import dataclass, replace
from datetime import date
from decimal import Decimal
from enum import Enum, auto

from openpyxl import Workbook

from lists import Value, coded_rows
from pert_companion.model.moments import midnight
from pert_companion.model.plan import (
    Baseline,
    ConstraintKind,
    Lag,
    Plan,
    Progress,
    Resource,
    ResourceKind,
    Task,
)
from planner_files import exception_days, gan_bytes, mspdi_bytes, pmxml_bytes, xer_bytes
from two_months import WORDS, changed


class Fact(Enum):
    """Something that a plan has, and that some format has no place for."""

    BASELINES = auto()
    BASELINE_COSTS = auto()
    BASELINE_FINISHES = auto()
    """GanttProject has a start and a duration, which it counts in the calendar of the plan."""
    DEADLINES = auto()
    LONE_DEADLINES = auto()
    """Those of tasks without a constraint: P6 has them as a second constraint."""
    CONSTRAINTS = auto()
    """All but the earliest start."""
    MATERIALS = auto()
    RATES = auto()
    CAPACITIES = auto()
    """GanttProject has one of each resource."""
    ACTUAL_DATES = auto()
    """GanttProject has a start and a percentage, of which the rest follows."""
    ACTUAL_COSTS = auto()
    OWN_LAGS = auto()
    """Those of links to tasks with calendars of their own, which GanttProject's do not run by."""


def without(plan: Plan, facts: Iterable[Fact]) -> Plan:
    """Returns a plan without some facts."""
    for fact in facts:
        plan = _REMOVED[fact](plan)
    return plan


def _in_tasks(change: Callable[[Plan, Task], Task]) -> Callable[[Plan], Plan]:
    """Returns what changes each task of a plan."""
    return lambda plan: changed(plan, lambda task: change(plan, task))


def _in_baselines(change: Callable[[Plan, Baseline], Baseline]) -> Callable[[Plan], Plan]:
    """Returns what changes each baseline of a plan."""

    def in_task(plan: Plan, task: Task) -> Task:
        return replace(task, baselines=tuple(change(plan, saved) for saved in task.baselines))

    return _in_tasks(in_task)


def _in_resources(change: Callable[[Resource], Resource]) -> Callable[[Plan], Plan]:
    """Returns what changes each resource of a plan."""
    return lambda plan: replace(plan, resources=tuple(map(change, plan.resources)))


def _counted_finish(plan: Plan, start: date | None, minutes: int | None) -> date | None:
    """Returns the last day of so many minutes of the plan's working time."""
    if start is None or not minutes:
        return start
    return plan.calendar.end_of(midnight(start), minutes).date()


def _counted_baseline(plan: Plan, saved: Baseline) -> Baseline:
    return replace(saved, finish=_counted_finish(plan, saved.start, saved.minutes))


def _counted_dates(plan: Plan, task: Task) -> Task:
    """Returns a task whose finish and remaining duration are those of its start and percentage.

    What is left is whole days, as of a plan of whole days.
    """
    done = task.progress
    if done.percent is None:
        return task
    finish = None
    if done.actual_finish is not None:
        finish = _counted_finish(plan, done.actual_start, task.minutes)
    left = -(-task.minutes * (100 - int(done.percent)) // (100 * 480)) * 480
    return replace(task, progress=replace(done, actual_finish=finish, remaining=left))


def _without_constraint(_: Plan, task: Task) -> Task:
    known = task.constraint
    is_kept = known is not None and known.kind is ConstraintKind.START_NO_EARLIER
    return task if is_kept else replace(task, constraint=None)


def _without_lone_deadline(_: Plan, task: Task) -> Task:
    return task if task.constraint is not None else replace(task, deadline=None)


def _without_costs(_: Plan, task: Task) -> Task:
    progress: Progress = replace(task.progress, actual_cost=None, remaining_cost=None)
    return replace(task, progress=progress)


def _without_materials(plan: Plan) -> Plan:
    kept = [each for each in plan.resources if each.kind is ResourceKind.WORK]
    known = {each.uid for each in kept}
    used = tuple(each for each in plan.assignments if each.resource in known)
    return replace(plan, resources=tuple(kept), assignments=used)


def _without_own_lags(plan: Plan) -> Plan:
    own = {task.uid for task in plan.tasks() if task.calendar is not None}
    links = tuple(
        replace(link, lag=Lag()) if link.successor in own else link for link in plan.links
    )
    return replace(plan, links=links)


def _one_of(resource: Resource) -> Resource:
    is_crew = resource.kind is ResourceKind.WORK
    return replace(resource, capacity=Decimal(1) if is_crew else None)


_REMOVED: Mapping[Fact, Callable[[Plan], Plan]] = {
    Fact.BASELINES: _in_tasks(lambda _, task: replace(task, baselines=())),
    Fact.BASELINE_COSTS: _in_baselines(lambda _, saved: replace(saved, cost=None)),
    Fact.BASELINE_FINISHES: _in_baselines(_counted_baseline),
    Fact.DEADLINES: _in_tasks(lambda _, task: replace(task, deadline=None)),
    Fact.LONE_DEADLINES: _in_tasks(_without_lone_deadline),
    Fact.CONSTRAINTS: _in_tasks(_without_constraint),
    Fact.MATERIALS: _without_materials,
    Fact.RATES: _in_resources(lambda resource: replace(resource, rate=None)),
    Fact.CAPACITIES: _in_resources(_one_of),
    Fact.ACTUAL_DATES: _in_tasks(_counted_dates),
    Fact.ACTUAL_COSTS: _in_tasks(_without_costs),
    Fact.OWN_LAGS: _without_own_lags,
}


@dataclass(frozen=True)
class Format:
    """How a plan is written in a format, what that lacks, and what its import has to be told."""

    name: str
    ending: str
    write: Callable[[Plan], bytes]
    lacks: frozenset[Fact] = frozenset()
    has_way_back: bool = True
    is_list: bool = False
    """Whether an import is told the name, the first day, and how numbers and dates are written."""
    has_status_date: bool = True
    is_told_days_and_capacities: bool = False
    """Whether an import is told free days and capacities, of which the file has none."""


def _xer(plan: Plan) -> bytes:
    return xer_bytes(plan, codes=True)


def _pmxml(plan: Plan) -> bytes:
    return pmxml_bytes(plan, codes=True)


def _gan(plan: Plan) -> bytes:
    """Returns a file whose column of calendars says their weekdays."""

    def in_words(task: Task) -> Task:
        return replace(task, calendar=WORDS.get(task.calendar or ""))

    return gan_bytes(changed(plan, in_words))


def _csv(plan: Plan) -> bytes:
    text = io.StringIO(newline="")
    csv.writer(text).writerows(coded_rows(plan, False, WORDS))
    return text.getvalue().encode()


def _xlsx(plan: Plan) -> bytes:
    """Returns a workbook with sheets of calendars, free days and resources."""
    book = Workbook()
    book.remove(book.active)
    free: list[list[Value]] = [[day] for day, _, _ in exception_days(plan.calendar)]
    people: list[list[Value]] = [
        [each.name, _number(each.rate), _number(each.capacity)] for each in plan.resources
    ]
    calendars: list[list[Value]] = [[each.name, WORDS[each.name]] for each in plan.calendars]
    sheets: Mapping[str, Sequence[Sequence[Value]]] = {
        "Plan": coded_rows(plan, True, {}),
        "Calendars": [["Name", "Weekdays"], *calendars],
        "Holidays": [["Day"], *free],
        "Resources": [["Name", "Rate", "Max Units"], *people],
    }
    for name, rows in sheets.items():
        sheet = book.create_sheet(name)
        for row in rows:
            sheet.append(row)
    data = io.BytesIO()
    book.save(data)
    return data.getvalue()


def _number(value: Decimal | None) -> float | None:
    return None if value is None else float(value)


_NOT_IN_GAN = frozenset(
    (
        Fact.BASELINE_COSTS,
        Fact.BASELINE_FINISHES,
        Fact.DEADLINES,
        Fact.CONSTRAINTS,
        Fact.MATERIALS,
        Fact.CAPACITIES,
        Fact.ACTUAL_DATES,
        Fact.ACTUAL_COSTS,
        Fact.OWN_LAGS,
    )
)
FORMATS = {
    each.name: each
    for each in (
        Format("mspdi", ".xml", mspdi_bytes),
        Format("xer", ".xer", _xer, frozenset((Fact.BASELINES, Fact.LONE_DEADLINES))),
        Format("pmxml", ".xml", _pmxml, frozenset((Fact.LONE_DEADLINES,))),
        Format("gan", ".gan", _gan, _NOT_IN_GAN, has_status_date=False),
        Format(
            "csv",
            ".csv",
            _csv,
            frozenset((Fact.RATES,)),
            has_way_back=False,
            is_list=True,
            has_status_date=False,
            is_told_days_and_capacities=True,
        ),
        Format(
            "xlsx",
            ".xlsx",
            _xlsx,
            has_way_back=False,
            is_list=True,
            has_status_date=False,
        ),
    )
}
