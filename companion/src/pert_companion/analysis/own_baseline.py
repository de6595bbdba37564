"""The baseline that the source of a plan has saved, for who names no other one."""

from datetime import date

from pert_companion.analysis.scheduling import TaskDates
from pert_companion.model.calendar import Calendar
from pert_companion.model.sidefile import SideFile, SideTask
from pert_companion.state.project import ProjectState


def own_baseline(side: SideFile) -> dict[str, TaskDates]:
    """Returns the dates of the source's first baseline by code; tasks without both have none."""
    found = {}
    for task in side.tasks:
        dates = _dates(task, side.calendar)
        if dates is not None:
            found[task.code] = dates
    return found


def planned_end(state: ProjectState, baseline: ProjectState | None) -> date | None:
    """Returns the last day of work of the baseline; None after the year 9999.

    It is the one that is named, else the one that the source has saved, else the plan itself.
    """
    own = {} if baseline is not None else own_baseline(state.side)
    if own:
        return max(task.last_day for task in own.values())
    return (baseline or state).plan.end


def _dates(task: SideTask, calendar: Calendar) -> TaskDates | None:
    if not task.baselines:
        return None
    first = min(task.baselines, key=lambda baseline: baseline.number)
    if first.start is None or first.finish is None:
        return None
    start, finish = calendar.morning(first.start), calendar.evening(first.finish)
    return TaskDates(task.code, start, finish, task.normal == 0)
