"""A plan as planners mean it: groups, tasks, links, resources, progress, baselines, constraints.

It knows no file format, no deck and no program. A reader makes one from a file; `carry` turns it
into a deck and its side file. Working time is in whole minutes, money in `Decimal` of the plan's
currency, days are dates. Actual dates and finishes mean the day itself: a task that finished on
Friday has Friday's date.
"""

from collections.abc import Iterator
from dataclasses import dataclass, field
from datetime import date, datetime
from decimal import Decimal
from enum import Enum
from fractions import Fraction

from pert_companion.model.calendar import Calendar


class LinkKind(Enum):
    """Which ends of two tasks a link ties: the predecessor's, then the successor's."""

    FINISH_START = "FS"
    START_START = "SS"
    FINISH_FINISH = "FF"
    START_FINISH = "SF"


@dataclass(frozen=True)
class Lag:
    """The wait of a link: working or elapsed minutes, or a share of the predecessor's duration.

    Negative values are leads. At most one of `elapsed` and `share` is used.
    """

    minutes: int = 0
    elapsed: bool = False
    share: Fraction | None = None


@dataclass(frozen=True)
class Link:
    """A link between two tasks or groups, named by their `uid`."""

    predecessor: str
    successor: str
    kind: LinkKind = LinkKind.FINISH_START
    lag: Lag = Lag()
    where: str = ""
    """The place of the link in the source, for messages."""
    text: str = ""
    """The link as the source has it."""


class ConstraintKind(Enum):
    """The date constraints of planners."""

    START_NO_EARLIER = "start no earlier than"
    START_NO_LATER = "start no later than"
    FINISH_NO_EARLIER = "finish no earlier than"
    FINISH_NO_LATER = "finish no later than"
    MUST_START = "must start on"
    MUST_FINISH = "must finish on"
    AS_LATE_AS_POSSIBLE = "as late as possible"


@dataclass(frozen=True)
class Constraint:
    """A date constraint of a task; `day` is None only for AS_LATE_AS_POSSIBLE."""

    kind: ConstraintKind
    day: date | None


@dataclass(frozen=True)
class Estimates:
    """Optimistic, most likely and pessimistic duration in working minutes."""

    optimistic: int
    likely: int
    pessimistic: int


@dataclass(frozen=True)
class Crash:
    """The shortest duration of a task, and what shortening costs.

    Exactly one of `slope` and `cost` is set: the cost of each working day that the task is shorter,
    or the task's total cost at its shortest duration.
    """

    minutes: int
    slope: Decimal | None = None
    cost: Decimal | None = None


@dataclass(frozen=True)
class Progress:
    """What the source says of work done. All fields are None if it says nothing."""

    percent: Decimal | None = None
    """Percent complete, 0 to 100."""
    actual_start: date | None = None
    actual_finish: date | None = None
    """The last day of work."""
    remaining: int | None = None
    """Remaining duration in working minutes."""
    actual_cost: Decimal | None = None
    remaining_cost: Decimal | None = None


@dataclass(frozen=True)
class Baseline:
    """One saved baseline of a task; number 0 is the first."""

    number: int
    start: date | None = None
    finish: date | None = None
    minutes: int | None = None
    cost: Decimal | None = None


@dataclass(frozen=True)
class Task:
    """A task or milestone (duration 0)."""

    uid: str
    """The source's own stable id (UID, task_id, GUID, id column), unique among tasks and groups."""
    where: str
    """The place in the source: `row 12`, `task UID 7`."""
    name: str
    minutes: int
    """The normal duration in working minutes."""
    parent: str | None = None
    """The uid of the group that holds the task."""
    code: str = ""
    """The source's own short code (activity id, WBS code of the task), or an empty text."""
    row: int | None = None
    """The row or id number that people see in their planner."""
    estimates: Estimates | None = None
    crash: Crash | None = None
    cost: Decimal | None = None
    constraint: Constraint | None = None
    deadline: date | None = None
    listed_start: date | None = None
    listed_finish: date | None = None
    """The scheduled dates of the source; the finish is the last day of work."""
    progress: Progress = Progress()
    baselines: tuple[Baseline, ...] = ()
    manual: bool = False
    """A manually scheduled task: its listed dates are its dates."""
    calendar: str | None = None
    """The name of the task's own calendar, if it differs from the plan's: times of the task are
    minutes of its work. `logic.CLOCK_NAME` is that of durations by the clock."""

    @property
    def is_milestone(self) -> bool:
        """Says whether the task has no duration."""
        return self.minutes == 0


@dataclass(frozen=True)
class Group:
    """A summary task: an item of the outline."""

    uid: str
    where: str
    name: str
    parent: str | None = None
    code: str = ""
    """The source's outline or WBS code, or an empty text."""
    row: int | None = None


class LagCalendar(Enum):
    """By which calendar lags in working time run."""

    PLAN = "plan"
    PREDECESSOR = "predecessor"
    SUCCESSOR = "successor"


class ResourceKind(Enum):
    """What a resource is counted in."""

    WORK = "work"
    MATERIAL = "material"
    COST = "cost"


@dataclass(frozen=True)
class Resource:
    """A crew, machine or material."""

    uid: str
    name: str
    kind: ResourceKind = ResourceKind.WORK
    unit: str = "h"
    rate: Decimal | None = None
    """Cost per hour, or per unit of a material."""
    overtime_rate: Decimal | None = None
    capacity: Decimal | None = None
    """How many of it work at once, or how much of a material an hour of work takes; None without
    a limit."""
    is_capacity_said: bool = False
    """Whether the user said the capacity, and the source did not."""


@dataclass(frozen=True)
class Assignment:
    """How much of a resource a task uses in all: minutes of work, or units of a material."""

    task: str
    resource: str
    quantity: Decimal


@dataclass(frozen=True)
class Plan:
    """One plan. `outline` holds groups and tasks in the order of the source."""

    name: str
    start: date
    """The first day of the project."""
    calendar: Calendar
    outline: tuple[Task | Group, ...]
    links: tuple[Link, ...] = ()
    resources: tuple[Resource, ...] = ()
    assignments: tuple[Assignment, ...] = ()
    data_date: date | None = None
    """The status date: a day whose evening the progress is about."""
    must_finish: date | None = None
    """The last day of work that the contract allows, as P6's Must Finish By."""
    currency: str = ""
    source: str = ""
    """The format that the plan came from: `xlsx`, `mspdi`, `xer`, .."""
    calendars: tuple[Calendar, ...] = ()
    """The calendars of tasks besides that of the plan; their names differ."""
    lag_calendar: LagCalendar = LagCalendar.PLAN
    begin: datetime | None = None
    """The moment of the first day from which work may begin, if the source has one."""
    notes: tuple[str, ...] = field(default=(), compare=False)
    """What the reader assumed, one line each (decimal mark, order of day and month, first day)."""

    def tasks(self) -> Iterator[Task]:
        """Yields the tasks in the order of the source."""
        for entry in self.outline:
            if isinstance(entry, Task):
                yield entry

    def groups(self) -> Iterator[Group]:
        """Yields the groups in the order of the source."""
        for entry in self.outline:
            if isinstance(entry, Group):
                yield entry
