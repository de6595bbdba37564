"""Reads the moments of planners' files, and says which day of work they belong to."""

from datetime import date, datetime

from pert_companion.model.calendar import Calendar

FIRST_YEAR = 1900
LAST_YEAR = 2198
_DAY_LENGTH = len("2026-09-01")
_MOMENT_LENGTH = len("2026-09-01T08:00:00")


def moment(text: str) -> datetime | None:
    """Returns the moment of `2026-09-01T08:00:00` or `2026-09-01 08:00`, or None.

    Time zones and fractions of seconds are left out; years are from 1900 to 2198.
    """
    if len(text) < _DAY_LENGTH or text[4:5] != "-":
        return None
    try:
        found = datetime.fromisoformat(text[:_MOMENT_LENGTH])
    except ValueError:
        return None
    found = found.replace(tzinfo=None)
    return found if FIRST_YEAR <= found.year <= LAST_YEAR else None


def day(text: str) -> date | None:
    """Returns the day of a moment, or None."""
    found = moment(text)
    return None if found is None else found.date()


def midnight(found: date) -> datetime:
    """Returns the moment at which a day begins."""
    return datetime(found.year, found.month, found.day)


def last_day_before(calendar: Calendar, morning: date) -> date:
    """Returns the last day of work before a morning."""
    return calendar.end_at(calendar.position(midnight(morning))).date()


def finish_day(calendar: Calendar, text: str) -> date | None:
    """Returns the last day of work of a finish, or None.

    A finish at midnight, or before the first shift of its day, belongs to the working day before
    it. A date without a time is that day.
    """
    found = moment(text)
    if found is None or len(text) == _DAY_LENGTH:
        return None if found is None else found.date()
    return last_day(calendar, found)


def last_day(calendar: Calendar, finish: datetime) -> date:
    """Returns the last day of work before a moment at which work has ended."""
    minute = finish.hour * 60 + finish.minute
    shifts = calendar.shifts_on(finish.date())
    if minute > 0 and (not shifts or minute > shifts[0][0]):
        return finish.date()
    position = calendar.position(finish)
    return calendar.end_at(position).date() if position > 0 else finish.date()


def start_day(calendar: Calendar, text: str) -> date | None:
    """Returns the first day of work of a start, or None.

    A start at or after the end of the last shift of a working day is on the next one.
    """
    found = moment(text)
    if found is None:
        return None
    shifts = calendar.shifts_on(found.date())
    if shifts and found.hour * 60 + found.minute >= shifts[-1][1]:
        return calendar.add(found, 0).date()
    return found.date()
