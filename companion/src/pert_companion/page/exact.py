"""The dates of tasks by calendars of their own, for the script: it counts in units of one calendar.

A plan with several calendars has them for the lengths that a reader is likely to choose. At other
lengths the script shows tasks as the curve counts them, and says so.
"""

from pert_companion.analysis.schedule import Schedule
from pert_companion.analysis.scheduling import schedule_at
from pert_companion.page.gathering import Gathered

MOST_LENGTHS = 40
MOST_ROWS = 20_000
"""Rows of tasks at all lengths together."""

TaskAt = tuple[str, str, int, int, bool]
"""First and last day, slack and duration in units of the deck, and whether it is critical."""


def exact_dates(gathered: Gathered) -> list[tuple[int, list[TaskAt]]] | None:
    """Returns the tasks at some lengths, from the longest to the shortest.

    None for a plan of one calendar, whose dates the script finds by itself.
    """
    work = gathered.state.rest
    if work.side.logic is None:
        return None
    return [(length, _tasks_at(schedule_at(work, length))) for length in _lengths(gathered)]


def _lengths(gathered: Gathered) -> list[int]:
    """Returns the lengths that are shown first, are options or breakpoints; or all, if few."""
    work = gathered.state.rest
    most = max(1, min(MOST_LENGTHS, MOST_ROWS // max(1, len(work.side.tasks))))
    if work.longest - work.shortest < most:
        return list(range(work.longest, work.shortest - 1, -1))
    options = [option.length for option in gathered.options]
    points = [point.length for point in work.curve]
    chosen = list(dict.fromkeys((gathered.length, *options, *points)))[:most]
    return sorted(chosen, reverse=True)


def _tasks_at(schedule: Schedule) -> list[TaskAt]:
    """Returns the tasks of a schedule in the order of the plan."""
    unit = schedule.unit_minutes
    return [
        (
            task.first_day.isoformat(),
            task.last_day.isoformat(),
            task.total_float_minutes // unit,
            task.chosen_minutes // unit,
            task.is_critical,
        )
        for task in schedule.tasks
    ]
