"""The calendars of tasks that are not the plan's, under names that differ."""

from dataclasses import replace

from pert_companion.model.calendar import Calendar
from pert_companion.model.logic import CLOCK_NAME


class OwnCalendars:
    """Collects the calendars of tasks."""

    def __init__(self, plan: Calendar) -> None:
        """Takes the calendar of the plan."""
        self._plan = plan
        self._by_name: dict[str, Calendar] = {}

    @property
    def calendars(self) -> tuple[Calendar, ...]:
        """Returns the calendars, in the order in which tasks first have them."""
        return tuple(self._by_name.values())

    def name_of(self, calendar: Calendar, key: str) -> str | None:
        """Returns the name of a calendar, or None if its working time is that of the plan.

        `key` tells it from another one of the same name in the source.
        """
        if not differs(calendar, self._plan):
            return None
        name = calendar.name
        if name in (self._plan.name, CLOCK_NAME) or self._is_other(name, calendar):
            name = f"{name} ({key})"
        self._by_name[name] = replace(calendar, name=name)
        return name

    def _is_other(self, name: str, calendar: Calendar) -> bool:
        known = self._by_name.get(name)
        return known is not None and differs(known, calendar)


def differs(one: Calendar, other: Calendar) -> bool:
    """Says whether two calendars have different working time, or days of different length."""
    if (one.week, one.day_minutes) != (other.week, other.day_minutes):
        return True
    return set(one.exceptions) != set(other.exceptions)


def has_work(calendar: Calendar) -> bool:
    """Says whether any time of a calendar is worked."""
    return any(calendar.week) or any(exception.shifts for exception in calendar.exceptions)
