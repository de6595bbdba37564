"""What a list says of the progress of a task."""

from dataclasses import dataclass
from datetime import date
from decimal import Decimal


@dataclass(frozen=True)
class Reported:
    """One row of a list of progress. What the row does not say is None."""

    task: str
    place: str
    """The file and the row, for messages."""
    percent: Decimal | None = None
    remaining: int | None = None
    """Working minutes that are left."""
    start: date | None = None
    finish: date | None = None
    """The last day of work."""
