"""A schedule of the real tasks of a deck: what writers and pages print.

`pert` computes it; this package turns its counts into days of the plan's calendar and its cards
into real tasks. A start is the day on whose morning (or in which) work begins, a finish the last
day of work.
"""

from dataclasses import dataclass
from datetime import date, datetime

from pert_companion.analysis.lengths import Step
from pert_companion.state.remaining import State


@dataclass(frozen=True)
class ScheduledTask:
    """One real task with its dates in one schedule."""

    code: str
    """The code of its first card."""
    uid: str
    """The source's id, or the code if the deck has no side file."""
    row: int | None
    name: str
    outline: tuple[str, ...]
    normal_minutes: int
    chosen_minutes: int
    """What it takes in this schedule; of work under way, what was done and what is left."""
    start: datetime
    """The first working moment."""
    finish: datetime
    """The moment at which work ends: an evening if it ends with the day."""
    total_float_minutes: int
    cost: int
    """In units of money of the deck, with the cost of shortening."""
    is_critical: bool
    is_milestone: bool
    predecessors: tuple[str, ...] = ()
    """The codes of real tasks that it comes after, with the kind and lag (`DIG`, `DIGSS+2d`)."""
    percent: str = ""
    resources: tuple[str, ...] = ()
    pauses: bool = False
    """Whether this schedule lets the task pause, which its planner would not."""
    shortened_minutes: int = 0
    """By how much less than at normal durations it takes."""
    shortest_minutes: int = 0
    """The least that it can take, of what is left of it."""
    normal_cost: int = 0
    """Its cost if it is not shortened."""
    slope: int = 0
    """What the first unit of shortening costs."""
    state: State = State.WAITING
    left_minutes: int = 0
    """What is left of it in this schedule."""
    left_start: datetime | None = None
    """When what is left of a task under way goes on."""
    deadline: date | None = None
    """The last day of work by which the task is to end."""
    deadline_slack_minutes: int | None = None
    """Working minutes from its finish to the end of its deadline; negative if it is late."""
    is_as_late: bool = False
    """Whether it waits as long as it delays no other task."""
    calendar: str = ""
    """The name of its own calendar, whose days its durations and float are; else empty."""

    @property
    def normal_left_minutes(self) -> int:
        """Returns what is left of it at normal durations."""
        return self.left_minutes + self.shortened_minutes

    @property
    def extra_cost(self) -> int:
        """Returns what its shortening costs."""
        return self.cost - self.normal_cost

    @property
    def is_late(self) -> bool:
        """Says whether it ends after its deadline."""
        return self.deadline_slack_minutes is not None and self.deadline_slack_minutes < 0

    @property
    def first_day(self) -> date:
        """Returns the day on which the task begins."""
        return self.start.date()

    @property
    def last_day(self) -> date:
        """Returns the last day of work."""
        return self.finish.date()


@dataclass(frozen=True)
class Schedule:
    """All real tasks of a plan at one length."""

    title: str
    code: str
    length: int
    """The length in units of the deck."""
    unit_minutes: int
    """The working minutes of a unit."""
    day_minutes: int
    """The working minutes of a planner's day."""
    start: date
    end: date
    """The last day of work."""
    cost: int
    """The cost of the schedule in units of money of the deck."""
    next_step: Step | None
    """What a day less costs; None at the shortest length."""
    tasks: tuple[ScheduledTask, ...]
    currency: str = ""
    rest_of: date | None = None
    """The morning from which on the work that is left is scheduled; None for a complete plan."""
    is_past_plan: bool = False
    """Whether this is the plan of the first day of a project that has begun."""
    money_scale: int = 1
    """How many units of money of the deck one of the currency is."""
    counted_end: date | None = None
    """The last day of work as the curve counts it, if that is not every task's real calendar."""
    calendars: str = ""
    """Which tasks have calendars of their own, and how the curve counts them, for people."""
    counting: str = ""
    """What counting it at its dates could not keep, for people; else an empty text."""
    broken: tuple[str, ...] = ()
    """A line for each latest date of a constraint, or of the contract, that it breaks."""
