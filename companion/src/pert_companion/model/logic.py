"""The logic of a plan in its own terms: what a deck, which counts one calendar, says only in part.

A plan has a logic if a task has a calendar of its own, or a duration or lag goes by the clock. Its
links are those between tasks: links of groups are resolved. Time by the clock is that of a calendar
on which every minute is worked.
"""

from collections.abc import Mapping
from dataclasses import dataclass, field
from datetime import date, datetime
from functools import cached_property

from pert_companion.model.calendar import MINUTES_OF_DAY, Calendar
from pert_companion.model.plan import LinkKind

CLOCK_NAME = "elapsed time"
CLOCK = Calendar(
    CLOCK_NAME,
    (((0, MINUTES_OF_DAY),),) * 7,
    (),
    day_minutes=MINUTES_OF_DAY,
    week_minutes=7 * MINUTES_OF_DAY,
    month_days=30,
)
"""The calendar of durations and lags that go by the clock."""


@dataclass(frozen=True)
class LogicTie:
    """What the start or finish of a task waits for: an end of another task, or a day."""

    task: str
    """The code of the task that waits."""
    kind: LinkKind
    """Which ends are tied; of a day the first one means nothing."""
    before: str = ""
    """The code of the task before; empty for a day."""
    lag: int = 0
    """Minutes of work of the lag's calendar; a lead is negative."""
    calendar: str = ""
    """The name of the lag's calendar; empty for the plan's."""
    day: date | None = None
    """The earliest day; None for a link."""

    @property
    def is_to_start(self) -> bool:
        """Says whether the start of the task waits."""
        return self.kind.value[1] == "S"

    @property
    def is_from_start(self) -> bool:
        """Says whether it waits for the start of the task before."""
        return self.kind.value[0] == "S"


@dataclass(frozen=True)
class Logic:
    """The first moment of a plan, its further calendars, and its links and earliest days."""

    begin: datetime
    """The moment from which work may begin on the first day."""
    calendars: tuple[Calendar, ...]
    """The calendars of tasks and lags besides the plan's; their names differ."""
    ties: tuple[LogicTie, ...]

    @cached_property
    def by_name(self) -> Mapping[str, Calendar]:
        """Returns the further calendars by name, with the clock."""
        return {CLOCK_NAME: CLOCK, **{calendar.name: calendar for calendar in self.calendars}}


@dataclass(frozen=True)
class Lasting:
    """A task of a logic: how long it takes, in which calendar."""

    code: str
    minutes: int
    """Minutes of work of its calendar; a milestone has none."""
    calendar: str = ""
    """The name of its calendar; empty for the plan's."""


@dataclass(frozen=True)
class Spans:
    """When the tasks of a plan are done at normal durations, so that a deck can count them."""

    starts: Mapping[str, datetime] = field(default_factory=dict)
    """The first moment of work of each task, by code."""
    lags: tuple[int, ...] = ()
    """The working minutes of the plan's calendar that each tie waits, in the order of the ties."""


@dataclass(frozen=True)
class TieWait:
    """How long the end of a task waits for a tie at the dates of a schedule."""

    minutes: int
    """Working minutes of the plan's calendar, after the end that it is tied to."""
    since_start: bool = False
    """Whether they count from the first day, as of a day, or of what has happened before it."""


@dataclass(frozen=True)
class Recount:
    """When tasks begin in a schedule, and what each tie waits, so that a deck can count them."""

    starts: Mapping[str, datetime]
    """The first moment of work of each task that is to come, by code."""
    waits: tuple[TieWait | None, ...]
    """In the order of the ties; None if the task has ended."""
    first_waits: Mapping[str, int]
    """The working minutes of the plan's calendar from the first day to the first work of tasks
    under way, by code."""


def first_moment(calendar: Calendar, day: date) -> datetime:
    """Returns when work may begin on a day: with the first shift, or on a free day as on others."""
    weeks = [shifts for shifts in (calendar.shifts_on(day), *calendar.week) if shifts]
    minute = weeks[0][0][0] if weeks else 0
    return datetime(day.year, day.month, day.day, minute // 60, minute % 60)


@dataclass(frozen=True)
class OwnTime:
    """The time of a task with a calendar of its own, counted in that of its plan."""

    plan: Calendar
    calendar: Calendar
    start: datetime
    """The moment from which it is counted."""

    def span(self, minutes: int) -> int:
        """Returns the plan's working minutes in which so many of the task's own are done."""
        return self.plan.between(self.start, self.calendar.end_of(self.start, minutes))

    def minutes_in(self, minutes: int) -> int:
        """Returns the most work of its own that is done in so many of the plan's minutes.

        It is the inverse of `span`.
        """
        end = self.plan.at(self.plan.position(self.start) + minutes)
        return self.calendar.between(self.start, end)
