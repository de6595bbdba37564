"""Formats the figures of running projects: ratios, days, signs."""

from decimal import Decimal
from fractions import Fraction

NOTHING = "-"


def days_text(minutes: int, day_minutes: int) -> str:
    """Returns working minutes in planner's days, with at most two decimals: `4`, `2.5`, `-0.25`."""
    hundredths = round(minutes * 100 / day_minutes)
    whole, rest = divmod(abs(hundredths), 100)
    sign = "-" if hundredths < 0 else ""
    if rest == 0:
        return f"{sign}{whole}"
    return f"{sign}{whole}.{rest:02d}".rstrip("0")


def ratio_text(ratio: Fraction | None, places: int = 3) -> str:
    """Returns a ratio with so many decimals, rounded to the nearest; a hyphen if there is none."""
    if ratio is None:
        return NOTHING
    scaled = round(abs(ratio) * 10**places)
    whole, rest = divmod(scaled, 10**places)
    sign = "-" if ratio < 0 and scaled else ""
    return f"{sign}{whole}.{rest:0{places}d}"


def amount_text(amount: Fraction | int | None) -> str:
    """Returns an amount in whole units of money; a hyphen if there is none."""
    return NOTHING if amount is None else str(round(amount))


def money_text(amount: Fraction | int | None, scale: int) -> str:
    """Returns an amount of a deck in its currency: `3035800.55` for 303580055 cents.

    `scale` is how many units of money of the deck one of the currency is. A scale that is no power
    of ten has no decimals of its own, and its amounts stay as they are.
    """
    digits = len(str(scale)) - 1
    if amount is None or digits == 0 or str(scale).strip("0") != "1":
        return amount_text(amount)
    whole, part = divmod(abs(round(amount)), scale)
    sign = "-" if round(amount) < 0 else ""
    return f"{sign}{whole}.{part:0{digits}d}"


def ratio_cell(ratio: Fraction | None, places: int = 3) -> str:
    """Returns a ratio as `ratio_text` has it; an empty text if there is none."""
    return "" if ratio is None else ratio_text(ratio, places)


def money_cell(amount: Fraction | int | None, scale: int) -> str:
    """Returns an amount as `money_text` has it; an empty text if there is none."""
    return "" if amount is None else money_text(amount, scale)


def currency_text(amount: Decimal) -> str:
    """Returns an amount of the currency, with two decimals at least where it has any."""
    if amount == amount.to_integral_value():
        return f"{amount:.0f}"
    return f"{amount:.2f}" if amount == round(amount, 2) else f"{amount.normalize():f}"


def plain_number(number: Decimal) -> str:
    """Returns a number without an exponent and without zeros at its end: `82.5`, `160`."""
    text = f"{number:f}"
    return text.rstrip("0").rstrip(".") if "." in text else text


def signed_days(minutes: int | None, day_minutes: int) -> str:
    """Returns working minutes in days with their sign, as `+3`, `0` or `-0.5`."""
    if minutes is None:
        return NOTHING
    text = days_text(minutes, day_minutes)
    return f"+{text}" if minutes > 0 else text


def day_words(minutes: int, day_minutes: int) -> str:
    """Returns working minutes as `1 day` or `2.5 days`."""
    text = days_text(minutes, day_minutes)
    return f"{text} day" if text == "1" else f"{text} days"
