"""A date by which work has to end bounds late dates alone: what is too late has negative float."""

from datetime import datetime

import pytest

from pert_companion.analysis.passes import LatestMoments, Passes
from pert_companion.model.calendar import Calendar
from pert_companion.model.logic import Lasting, Logic, LogicTie
from pert_companion.model.plan import LinkKind

MONDAY, WEDNESDAY, EVENING = "2026-03-02 08:00", "2026-03-04 17:00", "2026-03-06 17:00"
LATER = "2026-03-10 17:00"


def floats(latest: LatestMoments) -> list[int]:
    """Returns the float in days of a task of two days, and of one of three days after it."""
    calendar = Calendar()
    tie = LogicTie("LAY", LinkKind.FINISH_START, "DIG")
    logic = Logic(datetime.fromisoformat(MONDAY), (), (tie,))
    day = calendar.day_minutes
    tasks = (Lasting("DIG", 2 * day), Lasting("LAY", 3 * day))
    passes = Passes(calendar, logic, tasks, latest=latest)
    assert passes.end == datetime.fromisoformat(EVENING)
    return [passes.total_float(task.code) // day for task in tasks]


@pytest.mark.parametrize(
    "end, days", [(None, [0, 0]), (EVENING, [0, 0]), (WEDNESDAY, [-2, -2]), (LATER, [0, 0])]
)
def test_the_end_of_the_project(end: str | None, days: list[int]) -> None:
    """Two days too late, or as planned; a later date gives no float."""
    assert floats(LatestMoments(end=None if end is None else datetime.fromisoformat(end))) == days


def test_the_end_and_the_start_of_a_task() -> None:
    """A bound of the second task is one of the first, and not the other way round."""
    wednesday = datetime.fromisoformat(WEDNESDAY)
    assert floats(LatestMoments(finishes={"LAY": wednesday})) == [-2, -2]
    assert floats(LatestMoments(finishes={"DIG": datetime(2026, 3, 2, 17)})) == [-1, 0]
    assert floats(LatestMoments(starts={"LAY": datetime(2026, 3, 3, 8)})) == [-1, -1]
