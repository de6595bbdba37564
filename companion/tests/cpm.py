"""A critical path method of the tests' own: early and late dates of a plan on its working calendar.

It is independent of the package's links and cards, and as plain as it can be: each task has a start
and a duration in one piece, each link says one inequality, and passes over all links go on until
nothing changes. Times are positions on the calendar (`Calendar.position`), in working minutes.
"""

from collections.abc import Iterator, Mapping
from dataclasses import dataclass
from datetime import date, datetime

from pert_companion.model.calendar import Calendar
from pert_companion.model.plan import (
    Constraint,
    ConstraintKind,
    Group,
    Link,
    LinkKind,
    Plan,
    Task,
)

START_CONSTRAINTS = (ConstraintKind.START_NO_EARLIER, ConstraintKind.MUST_START)
FINISH_CONSTRAINTS = (ConstraintKind.FINISH_NO_EARLIER, ConstraintKind.MUST_FINISH)
LATEST_STARTS = (ConstraintKind.START_NO_LATER, ConstraintKind.MUST_START)
LATEST_FINISHES = (ConstraintKind.FINISH_NO_LATER, ConstraintKind.MUST_FINISH)


@dataclass(frozen=True)
class Dates:
    """The early and late positions of one task."""

    start: int
    finish: int
    late_start: int
    late_finish: int

    @property
    def total_float(self) -> int:
        """Returns the total float in working minutes."""
        return self.late_start - self.start

    def first_day(self, calendar: Calendar) -> date:
        """Returns the day on which work begins."""
        return calendar.at(self.start).date()

    def last_day(self, calendar: Calendar) -> date:
        """Returns the last day of work; for a milestone the day of its moment."""
        return (
            calendar.end_at(self.finish) if self.finish > self.start else calendar.at(self.start)
        ).date()


@dataclass(frozen=True)
class PlainLink:
    """One link between two tasks, with its lag in working minutes unless that is elapsed."""

    predecessor: str
    successor: str
    kind: LinkKind
    lag: int
    elapsed: bool


class CircleError(Exception):
    """The links lead in a circle, so that no pass over them comes to an end."""


def dates_of(plan: Plan, durations: Mapping[str, int] | None = None) -> dict[str, Dates]:
    """Returns the dates of each task by uid, at its normal duration or that of `durations`.

    Durations are working minutes. Elapsed lags are those after the early dates of the predecessor;
    in the late pass they count as the working minutes that they are there.
    """
    minutes = {task.uid: task.minutes for task in plan.tasks()}
    minutes.update(durations or {})
    links = list(plain_links(plan, minutes))
    early = early_starts(plan, links, minutes)
    end = max(early[uid] + minutes[uid] for uid in early)
    late = {task.uid: latest_start(plan, task, end, minutes) for task in plan.tasks()}
    fixed = [fixed_lag(plan.calendar, link, early, minutes) for link in links]
    for _ in range(len(early) + 2):
        if not any([push_back(link, late, minutes) for link in fixed]):
            break
    return {
        uid: Dates(early[uid], early[uid] + minutes[uid], late[uid], late[uid] + minutes[uid])
        for uid in early
    }


def as_late(plan: Plan, dates: Mapping[str, Dates]) -> dict[str, Dates]:
    """Returns dates in which tasks that are to be late wait as long as they delay no other."""
    minutes = {task.uid: task.minutes for task in plan.tasks()}
    early = {uid: each.start for uid, each in dates.items()}
    links = [fixed_lag(plan.calendar, link, early, minutes) for link in plain_links(plan, minutes)]
    late = {task.uid for task in plan.tasks() if is_as_late(task)}
    end = max(each.finish for each in dates.values())
    held = {uid: end - minutes[uid] if uid in late else early[uid] for uid in early}
    into_late = [link for link in links if link.predecessor in late]
    for _ in range(len(held) + 2):
        if not any([push_back(link, held, minutes) for link in into_late]):
            break
    moved = {}
    for uid, each in dates.items():
        start = max(each.start, held[uid])
        moved[uid] = Dates(start, start + minutes[uid], each.late_start, each.late_finish)
    return moved


def is_as_late(task: Task) -> bool:
    """Says whether a task is to be done as late as possible."""
    kind = None if task.constraint is None else task.constraint.kind
    return kind is ConstraintKind.AS_LATE_AS_POSSIBLE


def latest_start(plan: Plan, task: Task, end: int, minutes: Mapping[str, int]) -> int:
    """Returns the latest start of a task by itself: of the project's end, and of its constraint."""
    calendar, constraint = plan.calendar, task.constraint
    latest = end - minutes[task.uid]
    if constraint is None or constraint.day is None or task.manual:
        return latest
    if constraint.kind in LATEST_STARTS:
        return min(latest, calendar.position(calendar.morning(constraint.day)))
    if constraint.kind in LATEST_FINISHES:
        return min(latest, calendar.position(calendar.evening(constraint.day)) - minutes[task.uid])
    return latest


def early_starts(plan: Plan, links: list[PlainLink], minutes: Mapping[str, int]) -> dict[str, int]:
    """Returns the earliest start of each task."""
    calendar = plan.calendar
    origin = calendar.position(calendar.morning(plan.start))
    early = {task.uid: max(origin, *own_bounds(calendar, task, minutes)) for task in plan.tasks()}
    for _ in range(len(early) + 2):
        if not any([push_forward(calendar, link, early, minutes) for link in links]):
            return early
    raise CircleError("the links lead in a circle")


def own_bounds(calendar: Calendar, task: Task, minutes: Mapping[str, int]) -> list[int]:
    """Returns what the constraint and the listed date of a task say of its start."""
    bounds = [0, 0]
    constraint = task.constraint or Constraint(ConstraintKind.AS_LATE_AS_POSSIBLE, None)
    if constraint.day is not None and constraint.kind in START_CONSTRAINTS:
        bounds.append(calendar.position(calendar.morning(constraint.day)))
    if constraint.day is not None and constraint.kind in FINISH_CONSTRAINTS:
        evening = calendar.position(calendar.evening(constraint.day))
        bounds.append(evening - minutes[task.uid])
    if task.manual and task.listed_start is not None:
        bounds.append(calendar.position(calendar.morning(task.listed_start)))
    return bounds


def plain_links(plan: Plan, minutes: Mapping[str, int]) -> Iterator[PlainLink]:
    """Yields the links between tasks; those of groups become links of all their tasks."""
    for link in plan.links:
        check_group_ends(plan, link)
        for predecessor in tasks_of(plan, link.predecessor):
            lag = link.lag.minutes
            if link.lag.share is not None:
                lag = int(link.lag.share * minutes[predecessor])
            for successor in tasks_of(plan, link.successor):
                yield PlainLink(predecessor, successor, link.kind, lag, link.lag.elapsed)


def tasks_of(plan: Plan, uid: str) -> list[str]:
    """Returns the task of a uid, or all tasks of a group."""
    by_uid = {entry.uid: entry for entry in plan.outline}
    if isinstance(by_uid[uid], Task):
        return [uid]
    found = []
    for task in plan.tasks():
        above = task.parent
        while above is not None and above != uid:
            above = by_uid[above].parent
        if above == uid:
            found.append(task.uid)
    return found


def check_group_ends(plan: Plan, link: Link) -> None:
    """Refuses the ends of groups that are not each a bound of all tasks in the group."""
    groups = {entry.uid for entry in plan.outline if isinstance(entry, Group)}
    if link.predecessor in groups and link.kind.value[0] == "S":
        raise NotImplementedError("the start of a group is the first start of its tasks")
    if link.successor in groups and link.kind.value[1] == "F":
        raise NotImplementedError("the finish of a group is the last finish of its tasks")


def source_moment(link: PlainLink, early: Mapping[str, int], minutes: Mapping[str, int]) -> int:
    """Returns the position of the predecessor's end that the link ties."""
    start = early[link.predecessor]
    return start + minutes[link.predecessor] if link.kind.value[0] == "F" else start


def bound(
    calendar: Calendar,
    link: PlainLink,
    early: Mapping[str, int],
    minutes: Mapping[str, int],
) -> int:
    """Returns the position from which the successor's end may be."""
    position = source_moment(link, early, minutes)
    if not link.elapsed:
        return position + link.lag
    is_finish = link.kind.value[0] == "F" and minutes[link.predecessor] > 0
    moment: datetime = calendar.end_at(position) if is_finish else calendar.at(position)
    return calendar.position(calendar.add_elapsed(moment, link.lag))


def push_forward(
    calendar: Calendar,
    link: PlainLink,
    early: dict[str, int],
    minutes: Mapping[str, int],
) -> bool:
    """Moves the successor as late as the link demands; says whether it moved."""
    needed = bound(calendar, link, early, minutes)
    if link.kind.value[1] == "F":
        needed -= minutes[link.successor]
    if needed <= early[link.successor]:
        return False
    early[link.successor] = needed
    return True


def fixed_lag(
    calendar: Calendar,
    link: PlainLink,
    early: Mapping[str, int],
    minutes: Mapping[str, int],
) -> PlainLink:
    """Returns a link whose elapsed lag is the working minutes that it is after the early date."""
    lag = bound(calendar, link, early, minutes) - source_moment(link, early, minutes)
    return PlainLink(link.predecessor, link.successor, link.kind, lag, False)


def push_back(link: PlainLink, late: dict[str, int], minutes: Mapping[str, int]) -> bool:
    """Moves the predecessor as early as the link demands; says whether it moved."""
    most = late[link.successor] - link.lag
    if link.kind.value[1] == "F":
        most += minutes[link.successor]
    if link.kind.value[0] == "F":
        most -= minutes[link.predecessor]
    if most >= late[link.predecessor]:
        return False
    late[link.predecessor] = most
    return True
