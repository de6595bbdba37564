"""Proposals from overtime: what is proposed, that it is listed, and that nothing else changes."""

from dataclasses import replace
from datetime import date
from decimal import Decimal
from fractions import Fraction

import pytest
from hypothesis import given, settings
from hypothesis import strategies as st

from pert_companion.importing.overtime import Overtime, parse_overtime, propose_overtime
from pert_companion.model.calendar import Calendar
from pert_companion.model.errors import UsageError
from pert_companion.model.plan import (
    Assignment,
    Crash,
    Plan,
    Progress,
    Resource,
    ResourceKind,
    Task,
)
from plans import ALL_FEATURES, plans

DAY = 480
TWO_HOURS = Overtime(120, Fraction(1, 2))


def plan_of(*tasks: Task) -> Plan:
    """Returns a plan in which two masons of 30 an hour work on each task."""
    work = tuple(Assignment(task.uid, "M", Decimal(2 * task.minutes)) for task in tasks)
    masons = Resource("M", "Masons", rate=Decimal(30))
    plan = Plan("House", date(2026, 3, 2), Calendar(), tasks)
    return replace(plan, resources=(masons,), assignments=work)


def crashes(plan: Plan) -> list[Crash | None]:
    """Returns the shortest durations of the tasks."""
    return [task.crash for task in plan.tasks()]


def test_ten_days() -> None:
    """10 days of 8 hours are 8 days of 10; a day of two masons costs 480, half of it is 240."""
    plan = plan_of(Task("1", "row 2", "Walls", 10 * DAY))
    proposed, lines = propose_overtime(plan, TWO_HOURS)
    assert crashes(proposed) == [Crash(8 * DAY, slope=Decimal(240))]
    assert lines == [
        "proposed: row 2, task 'Walls': shortest duration 8 days of 10, 240 for each day less "
        "(2 h of overtime a day at +50 %: Masons 30/h)"
    ]


def test_durations_are_rounded_up() -> None:
    """Seven days take 5.6: six; 3 days take 2.4: no gain; 12 hours take 9.6: ten."""
    plan = plan_of(
        Task("1", "row 2", "A", 7 * DAY),
        Task("2", "row 3", "B", 3 * DAY),
        Task("3", "row 4", "C", 720),
        Task("4", "row 5", "D", 50),
    )
    proposed, lines = propose_overtime(plan, TWO_HOURS)
    found = [crash.minutes if crash else None for crash in crashes(proposed)]
    assert found == [6 * DAY, None, 600, 40]
    assert lines[-1] == ("no proposal for 1 task, since it is too short to gain by overtime: 'B'")


def test_what_has_no_proposal() -> None:
    """Tasks with a shortest duration, finished ones, and those without workers or rates."""
    own = Crash(5 * DAY, slope=Decimal(1))
    tasks = [
        Task("1", "row 2", "Own", 10 * DAY, crash=own),
        Task("2", "row 3", "Done", 10 * DAY, progress=Progress(Decimal(100))),
        Task("3", "row 4", "Milestone", 0),
        Task("4", "row 5", "Alone", 10 * DAY),
        *(Task(str(n), f"row {n}", f"Norate {n}", 10 * DAY) for n in range(5, 10)),
    ]
    plan = plan_of(*tasks)
    kept = [a for a in plan.assignments if a.task in "123"]
    kept += [Assignment(str(n), "X", Decimal(480)) for n in range(5, 10)]
    kept += [Assignment("4", "C", Decimal(12)), Assignment("4", "M", Decimal(0))]
    crew = Resource("X", "Crew")
    concrete = Resource("C", "Concrete", ResourceKind.MATERIAL, "m3", Decimal(90))
    plan = replace(plan, assignments=tuple(kept), resources=(*plan.resources, crew, concrete))
    proposed, lines = propose_overtime(plan, TWO_HOURS)
    assert proposed == plan
    assert lines == [
        "no proposal for 1 task, since no resource works on it: 'Alone'",
        "no proposal for 5 tasks, since a resource has no rate: "
        "'Norate 5', 'Norate 6', 'Norate 7' ..",
    ]


def test_many_resources_are_counted_and_clipped() -> None:
    """The price has every crew, the line names three."""
    plan = plan_of(Task("1", "row 2", "Walls", 10 * DAY))
    more = tuple(Resource(f"R{n}", f"Crew {n}", rate=Decimal(10)) for n in range(4))
    work = tuple(Assignment("1", crew.uid, Decimal(10 * DAY)) for crew in more)
    twice = (Assignment("1", "M", Decimal(0)), *plan.assignments)
    plan = replace(plan, resources=(*plan.resources, *more), assignments=twice + work)
    proposed, lines = propose_overtime(plan, TWO_HOURS)
    assert crashes(proposed) == [Crash(8 * DAY, slope=Decimal(400))]
    assert lines[0].endswith("Masons 30/h, Crew 0 10/h, Crew 1 10/h ..)")


@pytest.mark.parametrize(
    ("text", "wanted"),
    [
        ("2h@50%", Overtime(120, Fraction(1, 2))),
        ("90min @ 25 %", Overtime(90, Fraction(1, 4))),
        ("1.5@12.5%", Overtime(90, Fraction(1, 8))),
        ("2h@0%", Overtime(120, Fraction(0))),
    ],
)
def test_option(text: str, wanted: Overtime) -> None:
    """The option has hours a day and a premium in per cent."""
    assert parse_overtime(text) == wanted


@pytest.mark.parametrize(
    "text",
    [
        "",
        "2h",
        "2h@50",
        "2h@x%",
        "x@50%",
        "0h@50%",
        "17h@50%",
        "2h@1001%",
        "2h@-5%",
        "0.001h@5%",
    ],
)
def test_wrong_options(text: str) -> None:
    """Other texts are wrong usage."""
    with pytest.raises(UsageError, match="write it as 2h@50%"):
        parse_overtime(text)


@settings(max_examples=40, deadline=None)
@given(plans(features=ALL_FEATURES), st.integers(1, 480), st.integers(0, 200))
def test_each_proposal_is_listed(plan: Plan, minutes: int, percent: int) -> None:
    """Only tasks without a shortest duration change, and each of them has its line."""
    rated = tuple(replace(each, rate=Decimal(20)) for each in plan.resources)
    plan = replace(plan, resources=rated)
    overtime = Overtime(minutes, Fraction(percent, 100))
    proposed, lines = propose_overtime(plan, overtime)
    changed = 0
    for before, after in zip(plan.tasks(), proposed.tasks(), strict=True):
        if before == after:
            continue
        changed += 1
        assert before.crash is None and after.crash is not None
        assert replace(after, crash=None) == before
        assert 0 < after.crash.minutes < before.minutes
        # the hours of overtime of the shorter duration hold what is taken off
        assert after.crash.minutes * minutes >= (before.minutes - after.crash.minutes) * DAY
    assert changed == sum(line.startswith("proposed:") for line in lines)
