"""The tasks of a schedule by the real calendars of a plan, in the place of counted units."""

from collections.abc import Mapping
from dataclasses import replace
from datetime import date, datetime, timedelta

from pert_companion.analysis.as_late import is_as_late
from pert_companion.analysis.passes import Passes, passes_at
from pert_companion.analysis.schedule import ScheduledTask
from pert_companion.model.calendar import Calendar
from pert_companion.model.moments import midnight
from pert_companion.model.sidefile import SideFile, SideTask

MOST_NAMED = 5
"""How many tasks of a calendar are named."""


def deadline_slack(calendar: Calendar, deadline: date | None, finish: datetime) -> int | None:
    """Returns the working minutes from a finish to the end of a deadline; negative if it is late.

    None without a deadline.
    """
    if deadline is None:
        return None
    evening = midnight(deadline) + timedelta(days=1)
    return calendar.position(evening) - calendar.position(finish)


def calendars_text(side: SideFile) -> str:
    """Returns which tasks have calendars of their own, in one sentence; empty if none has."""
    by_name: dict[str, list[str]] = {}
    for task in side.tasks:
        if task.own is not None:
            by_name.setdefault(task.own.calendar, []).append(task.code)
    if not by_name:
        return ""
    count = sum(map(len, by_name.values()))
    number = "1 task has" if count == 1 else f"{count} tasks have"
    listed = "; ".join(f"{name}: {_some(codes)}" for name, codes in by_name.items())
    each = "it" if count == 1 else "each"
    return (
        f"{number} another calendar ({listed}): the curve counts {each} in days of"
        f" {side.calendar.name} as it falls at normal durations"
    )


def _some(codes: list[str]) -> str:
    more = f" and {len(codes) - MOST_NAMED} more" if len(codes) > MOST_NAMED else ""
    return f"{', '.join(codes[:MOST_NAMED])}{more}"


def in_plan_days(side: SideFile, task: SideTask, minutes: int) -> int:
    """Returns minutes of a task's calendar as those of the plan's that are as many days."""
    own = side.calendar_of(task).day_minutes
    return minutes if task.own is None else round(minutes * side.calendar.day_minutes / own)


class RealDates:
    """The dates of the tasks of one schedule of a plan that has a logic."""

    def __init__(
        self, side: SideFile, durations: Mapping[str, int], end: datetime | None = None
    ) -> None:
        """Takes the durations of the cards in units, by code, and the moment of the contract."""
        self.passes: Passes = passes_at(side, durations, end)
        self._side = side
        late = {task.code for task in side.tasks if is_as_late(task)}
        self.dates = self.passes.as_late(late)
        """The dates of each task, by code."""

    @property
    def end(self) -> date:
        """Returns the last day of work."""
        return self.passes.end.date()

    def of(self, task: ScheduledTask, entry: SideTask) -> ScheduledTask:
        """Returns a task of the schedule with its real dates and float, and its own durations.

        Durations and float of a task with a calendar of its own are days of that.
        """
        side, code = self._side, entry.code
        moments, calendar = self.dates[code], side.calendar_of(entry)
        own = calendar.between(moments.start, self.passes.late(code).start)
        slack = in_plan_days(side, entry, own)
        task = replace(
            task,
            start=moments.start,
            finish=moments.finish,
            total_float_minutes=slack,
            is_critical=slack <= 0,
            deadline_slack_minutes=deadline_slack(calendar, entry.deadline, moments.finish),
        )
        return task if entry.own is None else self._in_own_days(task, entry)

    def _in_own_days(self, task: ScheduledTask, entry: SideTask) -> ScheduledTask:
        side = self._side
        own = side.own_time(entry)
        assert own is not None and entry.own is not None
        shortest = min(entry.minutes, own.minutes_in(task.shortest_minutes))
        chosen = in_plan_days(side, entry, self.passes.minutes(entry.code))
        normal = in_plan_days(side, entry, entry.minutes)
        late = task.deadline_slack_minutes
        return replace(
            task,
            calendar=entry.own.calendar,
            normal_minutes=normal,
            chosen_minutes=chosen,
            left_minutes=chosen,
            shortened_minutes=normal - chosen,
            shortest_minutes=in_plan_days(side, entry, shortest),
            is_milestone=entry.minutes == 0,
            deadline_slack_minutes=None if late is None else in_plan_days(side, entry, late),
        )
