"""Forecasts the dates of unfinished tasks by what is left of each one.

`pert` schedules the deck of the work that is left (`remaining`) at normal durations from the as-of
date on. This module puts those dates next to the listed ones of the source, those of the baseline,
and the end that `pert value` forecasts. Finishes are the last day of work; a positive lateness is a
later finish.
"""

from collections.abc import Iterable
from dataclasses import dataclass
from datetime import date, datetime, timedelta

from pert_companion.analysis.actuals import Actuals
from pert_companion.analysis.schedule import Schedule, ScheduledTask
from pert_companion.analysis.scheduling import normal_dates, normal_schedule
from pert_companion.analysis.total_float import SIXTHS
from pert_companion.model.calendar import Calendar
from pert_companion.model.moments import last_day_before, midnight
from pert_companion.model.sidefile import SideTask
from pert_companion.state.matching import match_states
from pert_companion.state.project import ProjectState
from pert_companion.state.remaining import State

ONE_DAY = timedelta(days=1)

WHY_DIFFERENT = (
    "pert value adds expected durations, (optimistic + 4 likely + pessimistic) / 6, to actual"
    " starts and lets overdue work end at the as-of date; this forecast adds what is left of each"
    " task to the as-of date."
)
"""Why the end of `pert value` may differ from the end of a forecast."""


@dataclass(frozen=True)
class ForecastTask:
    """One unfinished real task with its forecast dates, next to those of the list and baseline."""

    code: str
    uid: str
    row: int | None
    name: str
    outline: tuple[str, ...]
    state: State
    actual_start: date | None
    """The day on which it began; None while it waits."""
    left_minutes: int
    """What is left of it, in working minutes."""
    start: datetime
    """The first working moment of what is left."""
    finish: datetime
    """The moment at which its work ends: an evening if it ends with the day."""
    total_float_minutes: int
    is_critical: bool
    is_milestone: bool
    listed_start: date | None = None
    listed_finish: date | None = None
    baseline_start: date | None = None
    baseline_finish: date | None = None
    listed_late_minutes: int | None = None
    """Working minutes from the listed finish to the forecast one; negative if it is earlier."""
    baseline_late_minutes: int | None = None

    @property
    def first_day(self) -> date:
        """Returns the day on which it began, or on which it will begin."""
        return self.actual_start or self.start.date()

    @property
    def last_day(self) -> date:
        """Returns the last day of work."""
        return self.finish.date()


@dataclass(frozen=True)
class Forecast:
    """The forecast of a project at its as-of date."""

    title: str
    code: str
    as_of: date
    """The first day of the work that is left."""
    data_day: date
    """The day that people know the state by: the source's data date, or the as-of date."""
    end: date
    """The last day of work by what is left of each task."""
    listed_end: date | None
    """The latest listed finish of all tasks; None if the source has none."""
    baseline_end: date | None
    """The last day of the baseline; None without one."""
    value_end: date
    """The last day of work by the forecast of `pert value`."""
    unit_minutes: int
    day_minutes: int
    tasks: tuple[ForecastTask, ...]
    """The unfinished tasks in the order of the plan."""
    notes: tuple[str, ...]
    """The assumptions on remaining durations, one line each."""
    schedule: Schedule
    """The schedule of the work that is left."""

    @property
    def why_different(self) -> str:
        """Returns why the end of `pert value` differs, or an empty text if it does not."""
        return "" if self.value_end == self.end else WHY_DIFFERENT


def forecast(state: ProjectState, baseline: ProjectState | None = None) -> Forecast:
    """Returns the forecast of a state by what is left of each task.

    Without a baseline, its dates are those of the source's own first baseline, where it has one.
    """
    schedule = normal_schedule(state.rest)
    planned, planned_end = baseline_dates(state, baseline)
    entries = {task.code: task for task in state.side.tasks}
    actuals = Actuals(state)
    tasks = []
    for task in schedule.tasks:
        if actuals.states[task.code] is not State.FINISHED:
            dates = planned.get(task.code, (None, None))
            tasks.append(_forecast_task(task, entries[task.code], dates, actuals))
    listed = [task.listed_finish for task in state.side.tasks if task.listed_finish is not None]
    return Forecast(
        title=schedule.title,
        code=schedule.code,
        as_of=state.as_of,
        data_day=state.data_day,
        end=schedule.end if tasks else finished_end(state),
        listed_end=max(listed, default=None),
        baseline_end=planned_end,
        value_end=value_end(state),
        unit_minutes=schedule.unit_minutes,
        day_minutes=schedule.day_minutes,
        tasks=tuple(tasks),
        notes=state.remaining.notes,
        schedule=schedule,
    )


def _forecast_task(
    task: ScheduledTask,
    entry: SideTask,
    planned: tuple[date | None, date | None],
    actuals: Actuals,
) -> ForecastTask:
    calendar = actuals.state.side.calendar
    progress = actuals.states[task.code]
    return ForecastTask(
        code=task.code,
        uid=task.uid,
        row=task.row,
        name=task.name,
        outline=task.outline,
        state=progress,
        actual_start=actuals.start_day(entry) if progress is State.BEGUN else None,
        left_minutes=task.chosen_minutes,
        start=task.start,
        finish=task.finish,
        total_float_minutes=task.total_float_minutes,
        is_critical=task.is_critical,
        is_milestone=entry.normal == 0,
        listed_start=entry.listed_start,
        listed_finish=entry.listed_finish,
        baseline_start=planned[0],
        baseline_finish=planned[1],
        listed_late_minutes=late_minutes(calendar, entry.listed_finish, task.finish),
        baseline_late_minutes=late_minutes(calendar, planned[1], task.finish),
    )


def is_done(state: ProjectState) -> bool:
    """Says whether all tasks of a project are finished."""
    if not state.deck.statuses:
        return False
    done = {left.code for left in state.remaining.left if left.state is State.FINISHED}
    return all(done.issuperset(task.parts) for task in state.side.tasks)


def current_end(state: ProjectState) -> date | None:
    """Returns the last day of work: of what is left by normal durations, or of finished work.

    None after the year 9999.
    """
    return finished_end(state) if is_done(state) else state.rest.end


def finished_end(state: ProjectState) -> date:
    """Returns the last day of work of a finished project, or the day of reports if it has none."""
    days = [card.day for card in state.deck.statuses if card.letter == "F"]
    if not days:
        return state.as_of
    return last_day_before(state.side.calendar, max(days))


def late_minutes(calendar: Calendar, planned: date | None, finish: datetime) -> int | None:
    """Returns the working minutes from the evening of a planned finish to a moment."""
    if planned is None:
        return None
    evening = midnight(planned) + ONE_DAY
    return calendar.position(finish) - calendar.position(evening)


Planned = dict[str, tuple[date | None, date | None]]
"""The planned first and last day of tasks, by code."""


def baseline_dates(
    state: ProjectState, baseline: ProjectState | None
) -> tuple[Planned, date | None]:
    """Returns the planned days of each task of the state that has them, and the baseline's end."""
    if baseline is None:
        found = _source_baseline(state.side.tasks)
        ends = [finish for _, finish in found.values() if finish is not None]
        return found, max(ends, default=None)
    tasks = normal_dates(baseline.plan)
    days: Planned = {task.code: (task.first_day, task.last_day) for task in tasks}
    matching = match_states(baseline, state)
    end = max((task.last_day for task in tasks), default=None)
    return {new.code: days[old.code] for old, new in matching.pairs}, end


def _source_baseline(tasks: Iterable[SideTask]) -> Planned:
    """Returns the days of the first baseline that the source has saved."""
    found: Planned = {}
    for task in tasks:
        if task.baselines:
            first = min(task.baselines, key=lambda baseline: baseline.number)
            found[task.code] = (first.start, first.finish)
    return found


def value_end(state: ProjectState) -> date:
    """Returns the last day of work by the forecast of `pert value`."""
    end = state.plan.network.project.end
    return end_of_sixths(state, state.plan.value.events[end].time)


def end_of_sixths(state: ProjectState, sixths: int) -> date:
    """Returns the last day of work that ends so many sixths of a counted day after the start."""
    side, origin = state.side, state.plan.clock.origin
    minutes = -(-sixths * side.unit_minutes // (SIXTHS * state.deck.project.unit_days))
    if minutes <= 0:
        return side.calendar.at(origin).date()
    return side.calendar.end_at(origin + minutes).date()
