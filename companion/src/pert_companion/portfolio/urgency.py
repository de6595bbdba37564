"""Which projects need somebody first: those that miss a deadline, then the late ones, and so on."""

from collections.abc import Sequence
from dataclasses import dataclass
from datetime import date, timedelta
from enum import Enum
from fractions import Fraction

from pert_companion.portfolio.row import Row


class Alarm(Enum):
    """What is wrong with a project, the most urgent first, as its filter says it."""

    DEADLINE = "deadline missed"
    LATE = "late"
    OVERRUN = "over budget"
    STALE = "old figures"
    REFUSED = "refused"


ORDER = tuple(Alarm)


@dataclass(frozen=True)
class Freshness:
    """When figures are old: more than so many days before the newest as-of date."""

    newest: str
    """YYYY-MM-DD, or empty if no row has a date."""
    days: int

    def is_stale(self, row: Row) -> bool:
        """Says whether the figures of a row are old."""
        if not row.as_of or not self.newest:
            return False
        age = date.fromisoformat(self.newest) - date.fromisoformat(row.as_of)
        return age > timedelta(days=self.days)


def freshness(rows: Sequence[Row], days: int) -> Freshness:
    """Returns when figures of these rows are old."""
    return Freshness(max((row.as_of for row in rows), default=""), days)


def alarms(row: Row, fresh: Freshness) -> tuple[Alarm, ...]:
    """Returns what is wrong with a project, the most urgent first.

    Late is what ends after the date that its deck holds it to; without one, nothing is late.
    """
    found = {
        Alarm.DEADLINE: row.missed > 0,
        Alarm.LATE: row.is_binding and (row.late or 0) > 0,
        Alarm.OVERRUN: (row.overrun or 0) > 0,
        Alarm.STALE: fresh.is_stale(row),
        Alarm.REFUSED: bool(row.fault),
    }
    return tuple(alarm for alarm in ORDER if found[alarm])


def by_urgency(rows: Sequence[Row], fresh: Freshness) -> list[Row]:
    """Returns the rows, the most urgent first and refused decks last.

    Among those with the same alarm, the one that is later by more days comes first; rows that are
    alike stay in their order.
    """
    return sorted(rows, key=lambda row: place_of(row, fresh))


def place_of(row: Row, fresh: Freshness) -> tuple[bool, int, Fraction]:
    """Returns what rows are ordered by: whether it is refused, its first alarm, how late it is."""
    found = alarms(row, fresh)
    first = ORDER.index(found[0]) if found else len(ORDER)
    return bool(row.fault), first, -Fraction(row.late or 0, row.day_minutes)
