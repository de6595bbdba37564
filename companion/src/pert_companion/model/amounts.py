"""Says working time in planner's days, and reads it.

A deck counts time in units of its own: days, hours, or any number of working minutes. People say
and see days alone.
"""

from dataclasses import dataclass
from decimal import Decimal
from fractions import Fraction

from pert_companion.model.errors import InputError
from pert_companion.model.figures import day_words, days_text, plain_number
from pert_companion.model.sidefile import SideFile


@dataclass(frozen=True)
class Measure:
    """Turns the units of a deck into days, and back."""

    unit_minutes: int
    """The working minutes of a unit."""
    day_minutes: int
    """The working minutes of a planner's day."""

    @property
    def step(self) -> int:
        """Returns the units of a day, rounded down; at least one."""
        return max(1, self.day_minutes // self.unit_minutes)

    def days(self, units: int) -> str:
        """Returns units as a number of days: `4`, `82.5`, `-0.25`."""
        return days_text(units * self.unit_minutes, self.day_minutes)

    def words(self, units: int) -> str:
        """Returns units as `1 day` or `82.5 days`."""
        return day_words(units * self.unit_minutes, self.day_minutes)

    def units(self, days: Decimal) -> int:
        """Returns the units of a number of days, which may be rounded as `days` rounds it.

        Raises `InputError` that names the nearest numbers of days if there are no such units.
        """
        exact = Fraction(days) * self.day_minutes / self.unit_minutes
        near = round(exact)
        if near == exact or self.days(near) == plain_number(days):
            return near
        below = exact.numerator // exact.denominator
        raise InputError(
            f"the plan counts time in steps of {self._step_words()}: {self.days(below)} or"
            f" {self.days(below + 1)} days, not {plain_number(days)}"
        )

    def _step_words(self) -> str:
        if self.unit_minutes >= self.day_minutes:
            return self.words(1)
        if self.unit_minutes % 60 == 0:
            hours = self.unit_minutes // 60
            return "an hour" if hours == 1 else f"{hours} hours"
        return f"{self.unit_minutes} minutes"


def measure_of(side: SideFile) -> Measure:
    """Returns the measure of a deck by its side file."""
    return Measure(side.unit_minutes, side.calendar.day_minutes)
