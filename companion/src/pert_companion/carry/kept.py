"""The side file of a plan: what a deck cannot say and the side file keeps."""

from collections.abc import Mapping, Sequence
from dataclasses import dataclass
from datetime import date, datetime
from decimal import Decimal

from pert_companion.carry.codes import one_line, path_of, title
from pert_companion.carry.model import Node
from pert_companion.carry.network import Network
from pert_companion.carry.progress import remaining_minutes
from pert_companion.carry.ties import effective_constraint
from pert_companion.model.calendar import Calendar
from pert_companion.model.logic import OwnTime
from pert_companion.model.losses import Loss, LossKind
from pert_companion.model.plan import Constraint, ConstraintKind, Plan, Task
from pert_companion.model.sidefile import SideFile, SideGroup, SideOwn, SideTask

_NO_LATER_START = (ConstraintKind.START_NO_LATER, ConstraintKind.MUST_START)
_NO_LATER_FINISH = (ConstraintKind.FINISH_NO_LATER, ConstraintKind.MUST_FINISH)
_PLACES = 9
"""The decimals of what shortening costs."""
_KEPT = (*_NO_LATER_START, *_NO_LATER_FINISH, ConstraintKind.AS_LATE_AS_POSSIBLE)


def side_file(
    plan: Plan,
    nodes: Mapping[str, Node],
    network: Network,
    groups: Sequence[SideGroup],
    unit_minutes: int,
) -> SideFile:
    """Returns the side file of a plan, which belongs to no deck yet."""
    waits = [wait.code for wait in network.waits.values()]
    for node, made in network.of.items():
        if node.task is None:
            own = {wait.code for wait in network.waits.values()}
            waits.extend(card.code for card in made.cards if card.code not in own)
    maker = _SideTasks(plan, network, unit_minutes)
    return SideFile(
        deck_sha256="",
        deck_name="",
        start=plan.start,
        calendar=plan.calendar,
        unit_minutes=unit_minutes,
        tasks=tuple(maker.side_task(task, nodes[task.uid]) for task in plan.tasks()),
        groups=tuple(groups),
        waits=tuple(waits),
        currency=plan.currency,
        data_date=plan.data_date,
        source=plan.source,
    )


class _SideTasks:
    """Makes the entries of real tasks."""

    def __init__(self, plan: Plan, network: Network, unit_minutes: int) -> None:
        self._network = network
        self._unit_minutes = unit_minutes
        self._groups = {group.uid: group for group in plan.groups()}
        self._has_data_date = plan.data_date is not None

    def side_task(self, task: Task, node: Node) -> SideTask:
        """Returns the entry of a task."""
        made = self._network.of[node]
        names = [one_line(name) for name in path_of(task, self._groups)]
        progress, own = task.progress, node.own
        return SideTask(
            code=node.code,
            uid=task.uid,
            row=task.row,
            name=one_line(task.name),
            outline=tuple(names),
            parts=tuple(part.code for part in made.parts),
            start_moment=made.start_moment,
            finish_moment=made.finish_moment,
            normal=node.normal,
            minutes=task.minutes,
            percent=progress.percent,
            remaining=self._remaining(task) if self._has_data_date else progress.remaining,
            actual_start=progress.actual_start,
            actual_finish=progress.actual_finish,
            listed_start=task.listed_start,
            listed_finish=task.listed_finish,
            constraint=task.constraint,
            deadline=task.deadline,
            baselines=task.baselines,
            own=None if own is None else _own(task, node, own),
        )

    def _remaining(self, task: Task) -> int:
        """Returns the remaining duration of a task in minutes of its own calendar.

        What a percentage leaves of a task with a calendar of its own is rounded up to units, as it
        is of others in their cards.
        """
        minutes = remaining_minutes(task)
        if task.calendar is None or task.progress.remaining is not None:
            return minutes
        return min(task.minutes, -(-minutes // self._unit_minutes) * self._unit_minutes)


def _own(task: Task, node: Node, own: OwnTime) -> SideOwn:
    """Returns the entry of the calendar of a task, with the shortest duration that the deck has."""
    if task.crash is None or node.shortening is None or node.shortening < 0:
        return SideOwn(own.calendar.name, own.start)
    shortening = round(Decimal(node.shortening.numerator) / node.shortening.denominator, _PLACES)
    return SideOwn(own.calendar.name, own.start, task.crash.minutes, shortening.normalize())


def side_losses(plan: Plan) -> tuple[Loss, ...]:
    """Returns what only the side file says: lost if none is written."""
    kept: list[Loss] = []
    for group in plan.groups():
        if title(group.name) != one_line(group.name):
            why = "a title of the deck has at most 80 bytes; the rest is cut off"
            kept.append(Loss(LossKind.TITLE, group.where, group.name, "", "", why))
    for task in plan.tasks():
        kept.extend(_kept(task))
    return tuple(kept)


def constraint_notes(
    plan: Plan, nodes: Mapping[str, Node], starts: Mapping[str, datetime]
) -> list[str]:
    """Returns a note on each constraint that the early dates of the plan do not hold.

    These are the latest dates that links break at normal durations, the date by which the project
    must finish too, and each task that is to be done as late as possible. `starts` has the first
    moments of the tasks of a plan with several calendars, by code.
    """
    notes = []
    last = plan.start
    for task in plan.tasks():
        dates = _dates(plan, task, nodes[task.uid], starts)
        last = max(last, dates.last_day())
        why = dates.broken()
        if why:
            notes.append(f"{task.where}, task {task.name!r}: {why}")
        notes.extend(_begun_early(task))
    if plan.must_finish is not None and last > plan.must_finish:
        notes.append(f"the plan must finish by {plan.must_finish}: by its links it ends on {last}")
    return notes


def _kept(task: Task) -> list[Loss]:
    """Returns what only the side file says of a task."""
    found = []
    if title(task.name) != one_line(task.name):
        why = "a title of the deck has at most 80 bytes; the rest is cut off"
        found.append(Loss(LossKind.TITLE, task.where, task.name, "", "", why))
    if task.deadline is not None:
        why = "a deck has no deadlines"
        text = task.deadline.isoformat()
        found.append(Loss(LossKind.DEADLINE, task.where, task.name, "deadline", text, why))
    if task.baselines:
        numbers = ", ".join(str(baseline.number) for baseline in task.baselines)
        why = "a deck has no baselines"
        found.append(Loss(LossKind.BASELINE, task.where, task.name, "baseline", numbers, why))
    if task.constraint is not None and task.constraint.kind in _KEPT:
        why = "a deck has no latest dates, and begins each task as early as it can"
        text = _shown(task.constraint)
        found.append(Loss(LossKind.CONSTRAINT, task.where, task.name, "constraint", text, why))
    if task.progress.remaining is not None and task.progress.actual_finish is None:
        text = f"{task.progress.remaining} working minutes"
        why = "a deck has no remaining durations"
        found.append(Loss(LossKind.PROGRESS, task.where, task.name, "remaining", text, why))
    return found


def _begun_early(task: Task) -> list[str]:
    """Returns a note on a task that is to be done as late as possible and has not begun."""
    constraint = effective_constraint(task)
    if constraint is None or constraint.kind is not ConstraintKind.AS_LATE_AS_POSSIBLE:
        return []
    if task.progress.percent or task.progress.actual_start is not None:
        return []
    why = "it is to be done as late as possible, and a deck begins each task as early as it can"
    return [f"{task.where}, task {task.name!r}: {why}"]


def _shown(constraint: Constraint) -> str:
    day = "" if constraint.day is None else f" {constraint.day}"
    return f"{constraint.kind.value}{day}"


@dataclass(frozen=True)
class _Dates:
    """A task with its early dates at normal durations."""

    calendar: Calendar
    task: Task
    start: datetime
    finish: datetime

    def broken(self) -> str:
        """Returns how the early dates break the constraint of the task; empty if they hold it."""
        constraint = effective_constraint(self.task)
        if constraint is None or constraint.day is None:
            return ""
        if constraint.kind in _NO_LATER_START:
            day = self.start.date()
            if day > self.calendar.morning(constraint.day).date():
                return f"{_shown(constraint)} is broken: by its links it starts on {day}"
        elif constraint.kind in _NO_LATER_FINISH:
            day = self.last_day()
            if day > constraint.day:
                return f"{_shown(constraint)} is broken: by its links it finishes on {day}"
        return ""

    def last_day(self) -> date:
        """Returns the last day of work; of a milestone the day of its moment."""
        return self.finish.date()


def _dates(plan: Plan, task: Task, node: Node, starts: Mapping[str, datetime]) -> _Dates:
    """Returns the early dates of a task, by its own calendar if the plan has several."""
    calendar = plan.calendar if node.own is None else node.own.calendar
    start = starts.get(node.code)
    if start is not None:
        finish = calendar.end_of(start, task.minutes) if task.minutes else start
        return _Dates(calendar, task, start, finish)
    begins = plan.calendar.position(plan.calendar.morning(plan.start)) + node.early
    start = finish = plan.calendar.at(begins)
    if node.minutes:
        finish = plan.calendar.end_at(begins + node.minutes)
    return _Dates(plan.calendar, task, start, finish)
