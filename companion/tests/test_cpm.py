"""The tests' own critical path method, by hand on small plans."""

from dataclasses import replace
from datetime import date
from fractions import Fraction

import pytest
from cpm import CircleError, dates_of

from pert_companion.model.calendar import Calendar, free_days
from pert_companion.model.plan import (
    Constraint,
    ConstraintKind,
    Group,
    Lag,
    Link,
    LinkKind,
    Plan,
    Task,
)

DAY = 480
START = date(2026, 9, 1)


def plan_of(days: dict[str, int], *links: Link) -> Plan:
    """Returns a plan with tasks of so many days."""
    tasks = tuple(Task(uid, uid, uid, count * DAY) for uid, count in days.items())
    return Plan("P", START, Calendar(), tasks, links)


def counts(plan: Plan) -> dict[str, tuple[int, int, int, int]]:
    """Returns the dates of each task in days after the start."""
    origin = plan.calendar.position(plan.calendar.morning(plan.start))
    found = {}
    for uid, dates in dates_of(plan).items():
        positions = (dates.start, dates.finish, dates.late_start, dates.late_finish)
        found[uid] = tuple((position - origin) // DAY for position in positions)
    return found  # type: ignore[return-value]


@pytest.mark.parametrize(
    "kind, lag, expected",
    [
        (LinkKind.FINISH_START, 0, {"A": (0, 4, 0, 4), "B": (4, 7, 4, 7)}),
        (LinkKind.FINISH_START, -1, {"A": (0, 4, 0, 4), "B": (3, 6, 3, 6)}),
        (LinkKind.START_START, 2, {"A": (0, 4, 0, 4), "B": (2, 5, 2, 5)}),
        (LinkKind.FINISH_FINISH, 2, {"A": (0, 4, 0, 4), "B": (3, 6, 3, 6)}),
        (LinkKind.START_FINISH, 1, {"A": (0, 4, 0, 4), "B": (0, 3, 1, 4)}),
    ],
)
def test_the_kinds_of_links(
    kind: LinkKind, lag: int, expected: dict[str, tuple[int, int, int, int]]
) -> None:
    """Each kind ties the ends that its name says."""
    plan = plan_of({"A": 4, "B": 3}, Link("A", "B", kind, Lag(lag * DAY)))
    assert counts(plan) == expected


def test_dates_are_of_the_calendar() -> None:
    """Elapsed lags, shares and constraints are counted on the working calendar."""
    holidays = free_days([date(2026, 12, day) for day in (24, 25, 28, 29, 30, 31)])
    plan = plan_of({"A": 5, "B": 5}, Link("A", "B", lag=Lag(14 * 1440, elapsed=True)))
    plan = replace(plan, start=date(2026, 12, 14), calendar=Calendar(exceptions=holidays))
    assert counts(plan)["B"] == (9, 14, 9, 14)
    dates = dates_of(plan)["B"]
    assert dates.first_day(plan.calendar) == date(2027, 1, 4)
    assert dates.last_day(plan.calendar) == date(2027, 1, 8)
    assert dates.total_float == 0
    half = plan_of({"A": 4, "B": 1}, Link("A", "B", lag=Lag(share=Fraction(1, 2))))
    assert counts(half)["B"] == (6, 7, 6, 7)
    first, second = plan_of({"A": 4, "B": 2}).tasks()
    snet = replace(first, constraint=Constraint(ConstraintKind.START_NO_EARLIER, date(2026, 9, 5)))
    fnet = replace(
        second,
        constraint=Constraint(ConstraintKind.FINISH_NO_EARLIER, date(2026, 9, 7)),
    )
    both = replace(plan_of({}), outline=(snet, fnet))
    assert counts(both) == {"A": (4, 8, 4, 8), "B": (3, 5, 6, 8)}
    manual = replace(first, manual=True, listed_start=date(2026, 9, 8))
    assert counts(replace(both, outline=(manual, fnet)))["A"] == (5, 9, 5, 9)


def test_groups_and_circles() -> None:
    """A link of a group is one of each of its tasks; a circle is an error."""
    group = Group("G", "G", "G")
    inner = [replace(task, parent="G") for task in plan_of({"A": 2, "B": 5}).tasks()]
    last = Task("C", "C", "C", DAY)
    milestone = Task("M", "M", "M", 0)
    outline = (group, *inner, last, milestone)
    plan = replace(plan_of({}), outline=outline, links=(Link("G", "C"), Link("C", "M")))
    assert counts(plan)["M"] == (6, 6, 6, 6)
    assert dates_of(plan)["M"].last_day(plan.calendar) == date(2026, 9, 9)
    with pytest.raises(NotImplementedError):
        dates_of(replace(plan, links=(Link("G", "C", LinkKind.START_START),)))
    with pytest.raises(NotImplementedError):
        dates_of(replace(plan, links=(Link("C", "G", LinkKind.FINISH_FINISH),)))
    with pytest.raises(CircleError):
        dates_of(plan_of({"A": 1, "B": 1}, Link("A", "B"), Link("B", "A")))
