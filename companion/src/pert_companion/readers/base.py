"""What every reader takes and gives."""

from dataclasses import dataclass, field
from datetime import date

from pert_companion.model.calendar import CalendarException
from pert_companion.model.losses import Loss
from pert_companion.model.plan import Plan


@dataclass(frozen=True)
class ReaderOptions:
    """What the user says about a file that the file itself does not say."""

    name: str = ""
    start: date | None = None
    data_date: date | None = None
    decimal: str = ""
    """The decimal mark, `.` or `,`; found in the file if it is empty."""
    day_first: bool | None = None
    encoding: str = ""
    sheet: str = ""
    columns: tuple[tuple[str, str], ...] = ()
    """Pairs of a field and the heading of its column, which override what is found."""
    crash_field: str = ""
    """The field or column that holds shortest durations (`Duration1`)."""
    crash_cost_field: str = ""
    calendar: str = ""
    """The calendar of the file to use as the plan's."""
    day_minutes: int | None = None
    week_minutes: int | None = None
    month_days: int | None = None
    holidays: tuple[CalendarException, ...] = ()
    """Free days that the file does not have; they are added to the plan's calendar."""


@dataclass(frozen=True)
class Reading:
    """A plan and what of the file is not in it."""

    plan: Plan
    losses: tuple[Loss, ...] = field(default=())
