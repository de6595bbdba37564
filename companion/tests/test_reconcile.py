"""Dates of a deck are compared with the dates that the file lists."""

from dataclasses import replace
from datetime import date, datetime

from pert_companion.analysis.scheduling import TaskDates
from pert_companion.importing.reconcile import reconcile
from pert_companion.model.calendar import Calendar
from pert_companion.model.sidefile import SideFile, SideTask

CALENDAR = Calendar()
MONDAY = datetime(2026, 9, 7, 8)
FRIDAY = datetime(2026, 9, 11, 17)


def scheduled(code: str, start: datetime, finish: datetime, minutes: int = 2400) -> TaskDates:
    """Returns the dates of a task in a schedule."""
    return TaskDates(code, start, finish, minutes == 0)


TASKS = (scheduled("A", MONDAY, FRIDAY), scheduled("M", MONDAY, MONDAY, 0))


def side_file(*tasks: SideTask) -> SideFile:
    """Returns a side file of these tasks."""
    return SideFile("", "", MONDAY.date(), CALENDAR, 480, tasks)


A = SideTask("A", "7", 12, "Delivery", (), ("A",))
M = SideTask("M", "8", None, "Done", (), ("M",))


def test_starts_and_finishes_are_compared() -> None:
    """A task with other dates is named with both days; one without dates is not counted."""
    same = replace(A, listed_start=MONDAY.date(), listed_finish=FRIDAY.date())
    found = reconcile(side_file(same, M), TASKS)
    assert (found.compared, found.differences) == (1, ())
    assert found.summary() == "1 task has your planner's dates"
    late = replace(same, listed_start=date(2026, 11, 2), listed_finish=date(2026, 11, 6))
    milestone = replace(M, listed_start=MONDAY.date())
    found = reconcile(side_file(late, milestone), TASKS)
    assert found.summary() == (
        "1 of 2 tasks have your planner's dates; 1 differs, first: row 12 Delivery, 2026-11-02 in"
        " the file, 2026-09-07 by its links"
    )
    short = replace(same, listed_finish=date(2026, 9, 10))
    found = reconcile(side_file(short, replace(M, listed_finish=date(2026, 9, 9))), TASKS)
    assert [difference.field for difference in found.differences] == [
        "finish",
        "finish",
    ]
    assert found.differences[1].line() == (
        "id 8 Done, finish 2026-09-09 in the file, 2026-09-07 by its links"
    )
    assert "2 differ, first" in found.summary()


def test_a_milestone_has_the_evening_or_the_morning() -> None:
    """The moment of a milestone is the Friday's evening and the Monday's morning."""
    for day in (date(2026, 9, 4), date(2026, 9, 7)):
        milestone = replace(M, listed_start=day, listed_finish=day)
        assert not reconcile(side_file(milestone), TASKS).differences
    other = replace(M, listed_start=date(2026, 9, 5))
    assert reconcile(side_file(other), TASKS).differences


def test_a_file_without_dates_is_said() -> None:
    """Nothing to compare with is no agreement."""
    assert reconcile(side_file(A, M), TASKS).summary() == (
        "the file has no dates of tasks to compare with"
    )
    both = [
        replace(A, listed_start=MONDAY.date()),
        replace(M, listed_start=MONDAY.date()),
    ]
    assert reconcile(side_file(*both), TASKS).summary() == ("all 2 tasks have your planner's dates")
