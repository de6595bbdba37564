"""Reads and writes what people type into a table: days, amounts of money, dates, per cent."""

import re
from dataclasses import dataclass
from datetime import date
from decimal import Decimal
from fractions import Fraction

from pert_companion.model.amounts import Measure, measure_of
from pert_companion.model.errors import InputError
from pert_companion.model.figures import money_text
from pert_companion.model.sidefile import SideFile
from pert_companion.model.strict import parse_day

_NUMBER = re.compile(r"[0-9]{1,13}(?:[.,][0-9]{1,4})?")


@dataclass(frozen=True)
class Amounts:
    """The scales of one project: what a unit of its deck is in days, and in money."""

    measure: Measure
    money_scale: int
    """How many units of money of the deck one of the currency is."""

    @property
    def day_units(self) -> Fraction:
        """Returns the units of a planner's day."""
        return Fraction(self.measure.day_minutes, self.measure.unit_minutes)

    def days(self, units: int) -> str:
        """Returns units as days: `4`, `82.5`."""
        return self.measure.days(units)

    def minutes(self, minutes: int) -> str:
        """Returns working minutes as days."""
        return Measure(1, self.measure.day_minutes).days(minutes)

    def money(self, amount: int) -> str:
        """Returns an amount of the deck in its currency: `1200`, `1200.50`."""
        return money_text(amount, self.money_scale)

    def price(self, slope: int) -> str:
        """Returns what a day less costs, from what a unit less costs."""
        return decimal_text(Fraction(slope) * self.day_units / self.money_scale)

    def read_units(self, text: str) -> int:
        """Returns the units of a number of days. Raises `InputError` if there are none."""
        return self.measure.units(read_number(text.strip().removesuffix("d").rstrip(), "days"))

    def read_minutes(self, text: str) -> int:
        """Returns the working minutes of a number of days, rounded."""
        return round(Fraction(read_number(text, "days")) * self.measure.day_minutes)

    def read_money(self, text: str) -> int:
        """Returns an amount in units of money of the deck. Raises `InputError` if there is none."""
        exact = Fraction(read_number(text, "money")) * self.money_scale
        if exact.denominator != 1:
            below = self.money(int(exact))
            raise InputError(f"the deck has amounts such as {below}, not {text}")
        return int(exact)

    def read_price(self, text: str) -> int:
        """Returns the slope that is so much for a day less.

        Raises `InputError` that names the nearest prices if no slope is.
        """
        wanted = read_number(text, "money")
        exact = Fraction(wanted) * self.money_scale / self.day_units
        near = round(exact)
        if near == exact or self.price(near) == decimal_text(Fraction(wanted)):
            return near
        below = int(exact)
        raise InputError(
            f"the deck has prices of a day such as {self.price(below)} and {self.price(below + 1)},"
            f" not {text}"
        )


def amounts_of(side: SideFile) -> Amounts:
    """Returns the scales of a project by its side file."""
    return Amounts(measure_of(side), side.money_scale)


def read_number(text: str, what: str) -> Decimal:
    """Returns a number that is not below zero, with a decimal point or comma.

    Raises `InputError` for anything else; `what` says of what it is one.
    """
    plain = text.strip()
    if not _NUMBER.fullmatch(plain):
        raise InputError(f"{plain[:40]!r} is no number of {what} such as 4 or 4.5")
    return Decimal(plain.replace(",", "."))


def read_percent(text: str) -> Decimal | None:
    """Returns a percentage from 0 to 100; None for an empty text."""
    plain = text.strip().removesuffix("%").strip()
    if not plain:
        return None
    found = read_number(plain, "per cent")
    if found > 100:
        raise InputError(f"{plain} is above 100 per cent")
    return found


def read_day(text: str) -> date | None:
    """Returns a day of the form 2026-04-30; None for an empty text."""
    plain = text.strip()
    if not plain:
        return None
    found = parse_day(plain)
    if found is None:
        raise InputError(f"{plain[:40]!r} is no date of the form 2026-04-30")
    return found


def decimal_text(number: Fraction) -> str:
    """Returns a number with at most two decimals."""
    hundredths = round(number * 100)
    whole, part = divmod(abs(hundredths), 100)
    sign = "-" if hundredths < 0 else ""
    return f"{sign}{whole}.{part:02d}".removesuffix(".00") if part else f"{sign}{whole}"
