"""The cards of a deck as records, one class a kind, with the fields of the deck in their order.

Codes, units and amounts are those of docs/deck.md: durations in units of the deck, money in whole
units of money, dates as mornings.
"""

from dataclasses import dataclass
from datetime import date


@dataclass(frozen=True)
class ProjectCard:
    """The project: its code, its start and end, its first day."""

    code: str
    start: str
    end: str
    start_date: date
    unit_days: int = 1
    directed: int | None = None
    title: str = ""
    version: int = 1


@dataclass(frozen=True)
class AsOfCard:
    """The day that reports are about."""

    day: date


@dataclass(frozen=True)
class TermsCard:
    """What time costs: overhead per unit, target length, bonus and penalty per unit."""

    overhead: int = 0
    target: int = 0
    bonus: int = 0
    penalty: int = 0


@dataclass(frozen=True)
class ItemCard:
    """An item of the work breakdown structure (WBS); the top has an empty parent."""

    code: str
    parent: str
    title: str = ""


@dataclass(frozen=True)
class EventCard:
    """A moment of the network."""

    code: str
    title: str = ""


@dataclass(frozen=True)
class ActivityCard:
    """An activity between two events (ACT)."""

    code: str
    begins: str
    ends: str
    item: str
    optimistic: int
    likely: int
    pessimistic: int
    normal: int
    crash: int
    cost: int
    slope: int
    title: str = ""

    @property
    def is_dummy(self) -> bool:
        """Says whether it only makes one event wait for another."""
        return self.pessimistic == 0


@dataclass(frozen=True)
class TaskCard:
    """A task of a deck of tasks."""

    code: str
    item: str
    optimistic: int
    likely: int
    pessimistic: int
    normal: int
    crash: int
    cost: int
    slope: int
    title: str = ""


@dataclass(frozen=True)
class AfterCard:
    """A link: `task` begins only when `before` has ended."""

    task: str
    before: str


@dataclass(frozen=True)
class PieceCard:
    """A further slope of the cost of an activity or task, for so many units."""

    activity: str
    units: int
    slope: int


@dataclass(frozen=True)
class AccountCard:
    """A cost account with its budget."""

    code: str
    item: str
    budget: int
    title: str = ""


@dataclass(frozen=True)
class ChargeCard:
    """Money spent on an account on a day."""

    account: str
    day: date
    amount: int


@dataclass(frozen=True)
class ToGoCard:
    """What an account still needs, as estimated on a day."""

    account: str
    day: date
    amount: int


@dataclass(frozen=True)
class StatusCard:
    """An activity or task that started (`S`) or finished (`F`); the day is a morning."""

    activity: str
    letter: str
    day: date


@dataclass(frozen=True)
class ResourceCard:
    """A resource, such as a crew."""

    code: str
    title: str = ""


@dataclass(frozen=True)
class LoadCard:
    """How much of a resource an activity or task uses in all."""

    activity: str
    resource: str
    quantity: int
