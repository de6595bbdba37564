"""The latest dates of tasks: what "no later than" and "must" constraints and a contract ask for.

No early date waits for them. A schedule that breaks one gives the task, and everything before it,
a negative float, and says so in a line.
"""

from collections.abc import Iterable, Iterator
from dataclasses import dataclass
from datetime import date, datetime, timedelta

from pert_companion.analysis.schedule import ScheduledTask
from pert_companion.model.calendar import Calendar
from pert_companion.model.deck import Deck
from pert_companion.model.figures import day_words
from pert_companion.model.moments import midnight
from pert_companion.model.plan import ConstraintKind
from pert_companion.model.sidefile import SideFile, SideTask
from pert_companion.state.remaining import State

STARTS = (ConstraintKind.START_NO_LATER, ConstraintKind.MUST_START)
FINISHES = (ConstraintKind.FINISH_NO_LATER, ConstraintKind.MUST_FINISH)


@dataclass(frozen=True)
class Latest:
    """The latest moments of a task that is not done."""

    start: datetime | None = None
    """The morning by which it has to begin."""
    finish: datetime | None = None
    """The midnight by which it has to end."""


def latest_of(side: SideFile, task: SideTask) -> Latest:
    """Returns the latest moments of a task by its constraint, as far as they still mean it."""
    known = task.constraint
    if known is None or known.day is None or task.actual_finish is not None:
        return Latest()
    if known.kind in FINISHES:
        return Latest(finish=midnight(known.day) + timedelta(days=1))
    if known.kind in STARTS and task.actual_start is None:
        return Latest(start=side.calendar_of(task).morning(known.day))
    return Latest()


def contract_minutes(side: SideFile, deck: Deck) -> int | None:
    """Returns the working minutes from the first day to the directed end of a deck, or None."""
    project = deck.project
    if project.directed is None:
        return None
    return project.directed * max(1, side.unit_minutes // project.unit_days)


def contract_end(side: SideFile, deck: Deck) -> datetime | None:
    """Returns the moment of the directed end of a deck, or None if it has none."""
    minutes = contract_minutes(side, deck)
    if minutes is None:
        return None
    return side.calendar.end_of(side.calendar.morning(side.start), minutes)


def broken_lines(side: SideFile, tasks: Iterable[ScheduledTask]) -> Iterator[str]:
    """Yields a line for each latest date of a constraint that a schedule breaks."""
    entries = {task.code: task for task in side.tasks}
    for task in tasks:
        entry = entries[task.code]
        late = _late(side, entry, task)
        if late is None or entry.constraint is None or task.state is State.FINISHED:
            continue
        known = entry.constraint
        is_start = known.kind in STARTS
        verb, day = ("starts", task.first_day) if is_start else ("finishes", task.last_day)
        yield f"{task.code} {verb} on {day}, {late} after {known.day} ({known.kind.value})"


def _late(side: SideFile, entry: SideTask, task: ScheduledTask) -> str | None:
    """Returns by how many days a task breaks its latest date, or None if it does not."""
    latest, calendar = latest_of(side, entry), side.calendar_of(entry)
    if latest.finish is not None and task.finish > latest.finish:
        return _between(calendar, latest.finish, task.finish)
    if latest.start is not None and task.start > latest.start:
        return _between(calendar, latest.start, task.start)
    return None


def contract_line(side: SideFile, deck: Deck, end: date) -> str:
    """Returns a line on a directed end that a schedule breaks, or an empty text."""
    wanted = contract_end(side, deck)
    if wanted is None or end <= wanted.date():
        return ""
    late = _between(side.calendar, wanted, midnight(end) + timedelta(days=1))
    return f"the project ends on {end}, {late} after {wanted.date()} (must finish by)"


def _between(calendar: Calendar, first: datetime, last: datetime) -> str:
    return day_words(calendar.between(first, last), calendar.day_minutes)
