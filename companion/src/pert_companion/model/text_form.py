"""How a text for people looks: on a terminal with separators of thousands, in a pipe plain."""

from dataclasses import dataclass
from decimal import Decimal
from fractions import Fraction

from pert_companion.model.figures import (
    currency_text,
    day_words,
    days_text,
    money_text,
    signed_days,
)


@dataclass(frozen=True)
class TextForm:
    """Formats the numbers of a text. In a pipe they are those of CSV."""

    on_terminal: bool = False
    money_scale: int = 1
    """How many units of money of the amounts one of the currency is."""

    def number(self, text: str) -> str:
        """Returns a number in this form: `-1234.50` is `-1,234.50`. Other texts stay."""
        digits = text.lstrip("+-")
        whole, point, part = digits.partition(".")
        if not (self.on_terminal and whole.isascii() and whole.isdigit()):
            return text
        sign = text.removesuffix(digits)
        return f"{sign}{int(whole):,}{point}{part}"

    def count(self, number: int) -> str:
        """Returns a whole number."""
        return self.number(str(number))

    def money(self, amount: Fraction | int | None) -> str:
        """Returns an amount of a deck in its currency; a hyphen if there is none."""
        return self.number(money_text(amount, self.money_scale))

    def money_cell(self, amount: Fraction | int | None) -> str:
        """Returns an amount of a deck in its currency; an empty text if there is none."""
        return "" if amount is None else self.money(amount)

    def currency(self, amount: Decimal) -> str:
        """Returns an amount of the currency."""
        return self.number(currency_text(amount))

    def days(self, minutes: int, day_minutes: int) -> str:
        """Returns working minutes in planner's days."""
        return self.number(days_text(minutes, day_minutes))

    def signed_days(self, minutes: int | None, day_minutes: int) -> str:
        """Returns working minutes in days with their sign; a hyphen if there are none."""
        return self.number(signed_days(minutes, day_minutes))

    def day_words(self, minutes: int, day_minutes: int) -> str:
        """Returns working minutes as `1 day` or `1,030.5 days`."""
        number, _, word = day_words(minutes, day_minutes).partition(" ")
        return f"{self.number(number)} {word}"


PLAIN = TextForm()
