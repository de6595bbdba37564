"""Which day a length ends on: by the calendar of a plan, here and as data for the page's script."""

from dataclasses import dataclass
from datetime import date, datetime, timedelta
from functools import cached_property

from pert_companion.model.calendar import works_daily
from pert_companion.model.errors import InputError
from pert_companion.model.moments import midnight
from pert_companion.model.sidefile import SideFile

MOST_RUNS = 4000
"""Runs of working days that a page holds at most: 76 years of weeks."""


@dataclass(frozen=True)
class Clock:
    """Turns units of working time after the start of a deck into days."""

    side: SideFile

    @cached_property
    def origin(self) -> int:
        """Returns the position of the first working moment."""
        calendar = self.side.calendar
        return calendar.position(calendar.morning(self.side.start))

    @cached_property
    def first_day(self) -> date:
        """Returns the first working day."""
        return self.side.calendar.at(self.origin).date()

    def begin_moment(self, units: int) -> datetime:
        """Returns the moment at which work begins, or goes on, after so many units.

        Raises `InputError` or `OverflowError` after the year 9999.
        """
        return self.side.calendar.at(self.origin + units * self.side.unit_minutes)

    def end_moment(self, units: int) -> datetime:
        """Returns the moment at which work ends after so many units: an evening, if with the day.

        Raises `InputError` or `OverflowError` after the year 9999.
        """
        if units == 0:
            return self.side.calendar.at(self.origin)
        return self.side.calendar.end_at(self.origin + units * self.side.unit_minutes)

    def begin(self, units: int) -> date | None:
        """Returns the day on which work goes on after so many units; None after the year 9999."""
        try:
            return self.begin_moment(units).date()
        except (InputError, OverflowError):
            return None

    def end(self, units: int) -> date | None:
        """Returns the last day of so many units of work; None after the year 9999."""
        try:
            return self.end_moment(units).date()
        except (InputError, OverflowError):
            return None

    def minutes_until(self, day: date) -> int:
        """Returns the working minutes from the start to the morning of a day; below 0 before it."""
        morning = midnight(day)
        return self.side.calendar.position(morning) - self.origin

    def units_until(self, day: date) -> int:
        """Returns the complete units from the start to the end of a day; below 0 if it is past."""
        after = midnight(day) + timedelta(days=1)
        return (self.side.calendar.position(after) - self.origin) // self.side.unit_minutes

    def runs(self, units: int) -> list[list[int]]:
        """Returns the working days of so many units and one more, for the page's script.

        Each run has the days from the first working day to its first day, the number of days in a
        row, and the working minutes of each. Days after those are unknown to the page.
        """
        wanted = (units + 1) * self.side.unit_minutes
        calendar = self.side.calendar
        if works_daily(calendar) and len({calendar.working_minutes(d) for d in _week()}) == 1:
            minutes = calendar.working_minutes(self.first_day)
            return [[0, -(-wanted // minutes) + 1, minutes]]
        return self._counted_runs(wanted)

    def _counted_runs(self, wanted: int) -> list[list[int]]:
        runs: list[list[int]] = []
        day, offset = self.first_day, 0
        while wanted > 0 and len(runs) <= MOST_RUNS and day < date.max:
            minutes = self.side.calendar.working_minutes(day)
            if minutes and runs and runs[-1][2] == minutes and sum(runs[-1][:2]) == offset:
                runs[-1][1] += 1
            elif minutes:
                runs.append([offset, 1, minutes])
            wanted -= minutes
            offset += 1
            day += timedelta(days=1)
        return runs


def _week() -> list[date]:
    return [date(2024, 1, 1) + timedelta(days=day) for day in range(7)]
