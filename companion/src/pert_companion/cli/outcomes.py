"""What commands that write a file did, as their JSON has it."""

from dataclasses import dataclass
from datetime import date


@dataclass(frozen=True)
class ExportOutcome:
    """The file that an export wrote."""

    file: str
    format: str
    """The ending of the file, without its point."""
    tasks: int
    start: date
    end: date
    """The last day of work of the schedule."""
    length: int
    """The length of the schedule in units of the deck."""
    unit_minutes: int
    missing: tuple[str, ...]
    """What of the schedule is not in the file, or not as it is in the deck."""


@dataclass(frozen=True)
class ReportOutcome:
    """The page that was written."""

    page: str
    size: int
    """Its bytes."""
    answer: str
    """What `pert_check` said of its certificate."""
    data_date: date
    length: int
    """The length that it shows first, in units of the deck."""
    unit_minutes: int


@dataclass(frozen=True)
class CheckOutcome:
    """Whether a page is what this version makes of its data."""

    page: str
    is_right: bool
    answer: str
