"""Random plans written in planners' formats and read back are the same plans."""

from collections.abc import Callable
from dataclasses import replace
from datetime import timedelta
from pathlib import Path

from hypothesis import HealthCheck, given, settings

from pert_companion import readers
from pert_companion.model.calendar import Calendar
from pert_companion.model.plan import Constraint, ConstraintKind, Plan, Progress, Task
from pert_companion.model.source import Source
from pert_companion.readers.base import ReaderOptions, Reading
from examples import example_count
from planner_files import (
    PLANNER_CONSTRAINTS,
    crews,
    gan_bytes,
    mspdi_bytes,
    planner_bytes,
    pmxml_bytes,
    xer_bytes,
)
from plans import ALL_FEATURES, FIRST_DAY, Feature, plans

IN_MSPDI = ALL_FEATURES - {Feature.ESTIMATES}
IN_P6 = frozenset(
    (
        Feature.HOURS,
        Feature.LINK_KINDS,
        Feature.LAGS,
        Feature.LEADS,
        Feature.CRASH,
        Feature.CRASH_COST,
        Feature.COSTS,
        Feature.CONSTRAINTS,
        Feature.LISTED_DATES,
        Feature.PROGRESS,
        Feature.RESOURCES,
        Feature.HOLIDAYS,
        Feature.WEEKS,
    )
)
IN_GAN = frozenset(
    (
        Feature.LINK_KINDS,
        Feature.LAGS,
        Feature.LEADS,
        Feature.GROUP_LINKS,
        Feature.CRASH,
        Feature.CRASH_COST,
        Feature.COSTS,
        Feature.RESOURCES,
        Feature.HOLIDAYS,
        Feature.WEEKS,
    )
)
IN_PLANNER = frozenset(
    (
        Feature.HOURS,
        Feature.LINK_KINDS,
        Feature.ELAPSED_LAGS,
        Feature.GROUP_LINKS,
        Feature.CONSTRAINTS,
        Feature.LISTED_DATES,
        Feature.RESOURCES,
        Feature.HOLIDAYS,
        Feature.WEEKS,
    )
)
FEW = settings(
    max_examples=example_count(30),
    deadline=None,
    suppress_health_check=[HealthCheck.too_slow],
)
DAYS = 420


def read_back(name: str, data: bytes) -> Reading:
    """Reads a file, which is found to be of the format by its content."""
    source = Source(Path("plan.file"), data)
    assert readers.detect(source) == name
    return readers.read(source, ReaderOptions())


def working_days(calendar: Calendar) -> list[object]:
    """Returns the shifts of each day of more than a year."""
    return [calendar.shifts_on(FIRST_DAY + timedelta(days=number)) for number in range(DAYS)]


def facts(plan: Plan, change: Callable[[Task], Task] = lambda task: task) -> dict[str, object]:
    """Returns what a plan says, without places in files and the ids of groups and resources."""
    names = {resource.uid: resource.name for resource in plan.resources}
    groups = {group.uid: group.uid.removeprefix("W") for group in plan.groups()}
    tasks = {}
    for task in plan.tasks():
        parent = None if task.parent is None else groups[task.parent]
        plain = replace(change(task), where="", row=None, code="", parent=parent)
        tasks[task.uid] = plain
    used = {each.resource for each in plan.assignments}
    resources = {(r.name, r.kind, r.unit) for r in plan.resources if r.uid in used}
    links = {(link.predecessor, link.successor, link.kind, link.lag) for link in plan.links}
    above = {groups[g.uid]: None if g.parent is None else groups[g.parent] for g in plan.groups()}
    return {
        "name": plan.name,
        "start": plan.start,
        "tasks": tasks,
        "groups": {groups[group.uid]: group.name for group in plan.groups()},
        "above": above,
        "links": links,
        "days": working_days(plan.calendar),
        "lengths": (plan.calendar.day_minutes, plan.calendar.week_minutes),
        "data date": plan.data_date,
        "resources": resources,
        "work": {(a.task, names[a.resource], a.quantity) for a in plan.assignments},
    }


def check(reading: Reading, plan: Plan, change: Callable[[Task], Task] = lambda task: task) -> None:
    """Compares a plan that was read with the one that was written, fact by fact."""
    assert reading.losses == ()
    found, wanted = facts(reading.plan, change), facts(plan, change)
    for name, value in wanted.items():
        assert found[name] == value, name


def of_crews(plan: Plan) -> Plan:
    """Returns a plan without its materials."""
    known = {resource.uid for resource in crews(plan)}
    assignments = tuple(each for each in plan.assignments if each.resource in known)
    return replace(plan, resources=tuple(crews(plan)), assignments=assignments)


@FEW
@given(plans(features=IN_MSPDI))
def test_mspdi(plan: Plan) -> None:
    """MS Project's XML says everything but three-point estimates."""
    check(read_back("mspdi", mspdi_bytes(plan)), plan)


def _as_p6_has_it(task: Task) -> Task:
    """Returns a task with the dates that P6 shows: the actual ones, if there are any."""
    progress = task.progress
    if task.is_milestone and progress.percent is not None:
        progress = replace(progress, remaining=0)
    return replace(
        task,
        listed_start=progress.actual_start or task.listed_start,
        listed_finish=progress.actual_finish or task.listed_finish,
        progress=progress,
        minutes=task.minutes,
    )


@FEW
@given(plans(features=IN_P6))
def test_xer(plan: Plan) -> None:
    """XER says no elapsed lags, shares, estimates, deadlines and baselines."""
    check(read_back("xer", xer_bytes(plan)), plan, _as_p6_has_it)


@FEW
@given(plans(features=IN_P6))
def test_pmxml(plan: Plan) -> None:
    """P6's XML says what XER says."""
    check(read_back("pmxml", pmxml_bytes(plan)), plan, _as_p6_has_it)


def _without_dates(task: Task) -> Task:
    return replace(task, listed_start=None, listed_finish=None)


@FEW
@given(plans(features=IN_GAN))
def test_gan(plan: Plan) -> None:
    """GanttProject says whole days, and its tasks always have dates."""
    plan = of_crews(replace(plan, calendar=replace(plan.calendar, name="GanttProject")))
    check(read_back("gan", gan_bytes(plan)), plan, _without_dates)


def _as_planner_has_it(task: Task) -> Task:
    constraint = task.constraint
    if constraint is not None and constraint.kind not in PLANNER_CONSTRAINTS:
        constraint = None
    return replace(task, constraint=constraint)


@FEW
@given(plans(features=IN_PLANNER))
def test_gnome_planner(plan: Plan) -> None:
    """GNOME Planner has crews, calendars, lags by the clock and four kinds of constraints."""
    plan = of_crews(plan)
    check(read_back("gnome_planner", planner_bytes(plan)), plan, _as_planner_has_it)


@FEW
@given(plans(features=IN_MSPDI))
def test_character_sets_of_xml(plan: Plan) -> None:
    """XML in UTF-16 is the same plan, and found by its content too."""
    text = mspdi_bytes(plan).decode().replace('encoding="UTF-8"', 'encoding="UTF-16"')
    check(read_back("mspdi", text.encode("utf-16")), plan)


@FEW
@given(plans(features=IN_P6))
def test_character_sets_of_xer(plan: Plan) -> None:
    """XER in the character set of western Windows is the same plan, and says what was assumed."""
    plan = replace(plan, name="Übergabe")
    reading = read_back("xer", xer_bytes(plan, encoding="cp1252"))
    check(reading, plan, _as_p6_has_it)
    assert any("cp1252" in note for note in reading.plan.notes)


def test_constraint_kinds_are_all_written() -> None:
    """The files of these tests know every kind of constraint that a plan can have."""
    day = FIRST_DAY + timedelta(days=7)
    for kind in ConstraintKind:
        constraint = Constraint(kind, None if kind.name == "AS_LATE_AS_POSSIBLE" else day)
        task = Task("1", "", "Dig", 480, constraint=constraint, progress=Progress())
        plan = Plan("Plan", FIRST_DAY, Calendar(), (task,))
        for name, data in (("mspdi", mspdi_bytes(plan)), ("xer", xer_bytes(plan))):
            assert next(read_back(name, data).plan.tasks()).constraint == constraint
