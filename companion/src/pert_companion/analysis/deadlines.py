"""The deadlines that a state misses."""

from collections.abc import Sequence
from dataclasses import dataclass
from datetime import date

from pert_companion.analysis.scheduling import TaskDates
from pert_companion.state.project import ProjectState
from pert_companion.state.remaining import State


@dataclass(frozen=True)
class MissedDeadline:
    """An unfinished task that is to end after its deadline."""

    code: str
    name: str
    deadline: date
    end: date
    """Its last day of work if nothing is shortened."""


def missed_deadlines(state: ProjectState, today: Sequence[TaskDates]) -> tuple[MissedDeadline, ...]:
    """Returns the deadlines that are missed, in plan order.

    `today` are the tasks of what is left, with nothing shortened.
    """
    done = {left.code for left in state.remaining.left if left.state is State.FINISHED}
    ends = {task.code: task.last_day for task in today}
    found = []
    for task in state.rest.side.tasks:
        if task.deadline is None or done.issuperset(task.parts):
            continue
        if ends[task.code] > task.deadline:
            name = task.name or task.code
            found.append(MissedDeadline(task.code, name, task.deadline, ends[task.code]))
    return tuple(found)
