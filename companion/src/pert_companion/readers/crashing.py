"""Finds shortest durations and what they cost in the custom fields of planners' files."""

from collections.abc import Callable
from dataclasses import dataclass
from fractions import Fraction

from pert_companion.model.calendar import Calendar
from pert_companion.model.crash_fields import COST_NAMES, CRASH_NAMES, SLOPE_NAMES
from pert_companion.model.plan import Crash
from pert_companion.readers import fields, values
from pert_companion.readers.base import ReaderOptions
from pert_companion.readers.fields import Place, TextReader
from pert_companion.readers.values import Style, Unreadable

_MOST_MINUTES = 10**12


@dataclass(frozen=True)
class CrashFields:
    """The custom fields of one task that say how far it can be shortened."""

    shortest: str = ""
    slope: str = ""
    cost: str = ""


def find_fields(look_up: Callable[[tuple[str, ...]], str], options: ReaderOptions) -> CrashFields:
    """Returns the fields of a task. `look_up` gets names in small letters and returns a text."""
    wanted, wanted_cost = (
        options.crash_field.casefold(),
        options.crash_cost_field.casefold(),
    )
    return CrashFields(
        look_up((wanted,) if wanted else CRASH_NAMES),
        look_up(SLOPE_NAMES),
        look_up((wanted_cost,) if wanted_cost else COST_NAMES),
    )


def minutes_of(calendar: Calendar) -> Callable[[str], int]:
    """Returns what makes working minutes of `5`, `5d` or `40 h`; a bare number is days."""
    style = Style(".", False, 1, calendar.day_minutes, calendar.week_minutes, calendar.month_days)

    def minutes(text: str) -> int:
        found = values.duration(text, style, "days")
        if found.is_elapsed or not 0 <= found.minutes <= _MOST_MINUTES:
            raise Unreadable("this is no duration in working time")
        return values.whole_minutes(Fraction(found.minutes))

    return minutes


def crash_of(
    reader: TextReader,
    row: Place,
    found: CrashFields,
    minutes: int,
    read_shortest: Callable[[str], int],
) -> Crash | None:
    """Returns how a task of so many minutes can be shortened; None, and mostly a loss, if not.

    `read_shortest` makes minutes of the text of a shortest duration.
    """
    if not found.shortest:
        return None
    slope = cost = None
    if found.slope:
        slope = reader.taken(row, "slope", found.slope, fields.amount)
    if found.cost:
        cost = reader.taken(row, "crash cost", found.cost, fields.amount)
    shortest = reader.taken(row, "crash", found.shortest, read_shortest)
    if shortest is None:
        return None
    why = ""
    if shortest > minutes:
        why = "it is longer than the normal duration; the task is not shortened"
    elif slope is not None:
        return Crash(shortest, slope=slope)
    elif cost is not None:
        return Crash(shortest, cost=cost)
    elif shortest < minutes and not (found.slope or found.cost):
        why = "nothing says what shortening costs; the task is not shortened"
    if why:
        reader.name_loss(row, "crash", why, found.shortest)
    return None
