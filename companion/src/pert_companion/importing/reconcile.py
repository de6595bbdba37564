"""Compares the dates of a deck at normal durations with those that the planner's file lists."""

from collections.abc import Iterable, Iterator
from dataclasses import dataclass
from datetime import date, datetime

from pert_companion.analysis.scheduling import TaskDates
from pert_companion.model.calendar import Calendar
from pert_companion.model.sidefile import SideFile, SideTask
from pert_companion.model.text_form import PLAIN, TextForm


@dataclass(frozen=True)
class Difference:
    """A task whose start or finish in the file is another day than by its links."""

    task: SideTask
    field: str
    """`start` or `finish`."""
    listed: date
    computed: date

    def line(self) -> str:
        """Returns the difference as a text: task, day in the file, day by its links."""
        where = f"row {self.task.row}" if self.task.row is not None else f"id {self.task.uid}"
        what = "" if self.field == "start" else "finish "
        return (
            f"{where} {self.task.name}, {what}{self.listed} in the file,"
            f" {self.computed} by its links"
        )


@dataclass(frozen=True)
class Reconciliation:
    """How many tasks of the file have dates, and the tasks that differ, with their first fault."""

    compared: int
    differences: tuple[Difference, ...]

    def summary(self, form: TextForm = PLAIN) -> str:
        """Returns one line for the user."""
        tasks = "1 task has" if self.compared == 1 else f"{form.count(self.compared)} tasks have"
        if self.compared == 0:
            return "the file has no dates of tasks to compare with"
        if not self.differences:
            every = "all " if self.compared > 1 else ""
            return f"{every}{tasks} your planner's dates"
        same = form.count(self.compared - len(self.differences))
        moved = len(self.differences)
        differ = "1 differs" if moved == 1 else f"{form.count(moved)} differ"
        return (
            f"{same} of {tasks} your planner's dates; {differ}, first: {self.differences[0].line()}"
        )


def reconcile(
    side: SideFile, tasks: Iterable[TaskDates], rest: Iterable[TaskDates] = ()
) -> Reconciliation:
    """Compares each real task with its listed dates; `tasks` are those at normal durations.

    `rest` are those of a running project from its data date on: planners list them once they have
    computed the plan again, and those of the plan before. Either is right. The moment of a
    milestone is the evening of one day and the morning of the next: either day is right. Tasks
    without listed dates are not counted.
    """
    scheduled = {task.code: task for task in tasks}
    running = {task.code: task for task in rest}
    compared = 0
    differences = []
    for task in side.tasks:
        if task.listed_start is None and task.listed_finish is None:
            continue
        compared += 1
        found = next(_differences(side.calendar, task, scheduled[task.code]), None)
        if found is not None and task.code in running:
            found = next(_differences(side.calendar, task, running[task.code]), None)
        if found is not None:
            differences.append(found)
    return Reconciliation(compared, tuple(differences))


def _differences(calendar: Calendar, task: SideTask, computed: TaskDates) -> Iterator[Difference]:
    """Yields the start, then the finish of a task if they differ."""
    ends = (
        ("start", task.listed_start, computed.start),
        ("finish", task.listed_finish, computed.finish),
    )
    for field, listed, moment in ends:
        if listed is not None and listed not in _days(calendar, moment, computed.is_milestone):
            yield Difference(task, field, listed, moment.date())


def _days(calendar: Calendar, moment: datetime, is_milestone: bool) -> set[date]:
    """Returns the days that a moment belongs to."""
    days = {moment.date()}
    if is_milestone:
        days.add(calendar.end_of(moment, 0).date())
        days.add(calendar.add(moment, 0).date())
    return days
