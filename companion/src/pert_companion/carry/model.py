"""The tasks of a plan on their way to cards: each with the ties of its start and of its finish."""

from dataclasses import dataclass, field
from datetime import date
from enum import Enum
from fractions import Fraction

from pert_companion.model.logic import OwnTime
from pert_companion.model.plan import Link, Task


class End(Enum):
    """Which moment of a task: its start, its finish, or a cut so long before its finish."""

    START = "S"
    FINISH = "F"
    CUT = "cut"


@dataclass(eq=False)
class Tie:
    """What the start or finish of a task waits for: an end of another task and a lag after it."""

    before: "Node | None"
    """The other task; None for the first day of the project."""
    end: End
    lag: int
    """In working minutes first; in units of the deck once the unit is chosen."""
    elapsed: bool = False
    """Whether the lag is still in minutes by the clock."""
    link: Link | None = None
    """The link of the source; None for a constraint."""
    calendar: str = ""
    """The name of the calendar by which the lag runs; empty for the plan's."""
    day: date | None = None
    """The day of the calendar that it waits for; None for a link."""


@dataclass(eq=False)
class Node:
    """A task, or the milestone that a group has ended, with durations in units of the deck."""

    code: str
    item: str
    """The code of the WBS item that holds it."""
    name: str
    where: str
    minutes: int
    """The normal duration in working minutes of the plan's calendar."""
    task: Task | None = None
    """The task of the plan; None for the end of a group."""
    own: OwnTime | None = None
    """The time of a task that has a calendar of its own."""
    normal: int = 0
    crash: int = 0
    estimates: tuple[int, int, int] = (0, 0, 0)
    cost: int = 0
    slope: int = 0
    shortening: Fraction | None = None
    """What its shortest duration costs more, in the currency; None if it is not shortened."""
    starts: list[Tie] = field(default_factory=list)
    finishes: list[Tie] = field(default_factory=list)
    after_start: list["Moment"] = field(default_factory=list)
    """The moments that the start comes after, once the ties are resolved."""
    after_finish: list["Moment"] = field(default_factory=list)
    cuts: set[int] = field(default_factory=set)
    """How long before its finish other tasks begin, in units: it has a part that ends there."""
    needs_start: bool = False
    """Whether other tasks wait for its start."""
    place: int = 0
    """Its place in the order of the plan, ends of groups last."""
    index: int = 0
    """Its place in an order in which each task comes after those that it is tied to."""
    early: int = 0
    """Its earliest start at normal durations, in working minutes after the start of the project."""
    latest_early: int = 0
    """The same in units: at shorter durations it can start by then too."""

    def plan_minutes(self, minutes: int) -> int:
        """Returns so many working minutes of the task as minutes of the plan's calendar."""
        return minutes if self.own is None else self.own.span(minutes)

    @property
    def is_fixed(self) -> bool:
        """Says whether its duration is the same at every length of the project."""
        return {self.normal} == {self.crash, *self.estimates}

    @property
    def is_milestone(self) -> bool:
        """Says whether it never takes time."""
        return self.normal == 0 and self.is_fixed

    @property
    def shortest(self) -> int:
        """Returns the least of its durations."""
        return min(self.crash, *self.estimates)


@dataclass(frozen=True)
class Moment:
    """A moment that a card of the deck ends at: an end of a task, or the first day, and a wait."""

    node: Node | None
    """The task; None for the first day of the project."""
    end: End
    lag: int
    """Units after the end; for a cut, units before the finish."""

    @property
    def order(self) -> tuple[int, str, int]:
        """Returns what moments are sorted by: the place of the task, its end, the lag."""
        return (-1 if self.node is None else self.node.place, self.end.value, self.lag)
