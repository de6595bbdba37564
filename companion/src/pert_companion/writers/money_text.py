"""Writes money over time: running sums by day, as a table or CSV."""

from collections.abc import Iterator, Sequence
from datetime import date

from pert_companion.analysis.money import MoneyOverTime, MoneyPoint
from pert_companion.model.figures import NOTHING
from pert_companion.model.lines import csv_bytes
from pert_companion.model.text_form import TextForm
from pert_companion.writers.aligned import aligned

HEADINGS = ("DAY", "PLANNED", "SPENT", "FORECAST")


def to_text(money: MoneyOverTime, heading: str, on_terminal: bool = False) -> str:
    """Returns a row for each day on which a line has a point; `heading` is the first line."""
    rows = []
    for day, amounts in _rows(money, on_terminal):
        rows.append((str(day), *(amount or NOTHING for amount in amounts)))
    lines = [heading, *aligned(HEADINGS, rows, "lrrr")]
    if money.note:
        lines.append(f"note: {money.note}")
    return "".join(f"{line}\n" for line in lines)


def to_csv(money: MoneyOverTime) -> bytes:
    """Returns a row for each day on which a line has a point as CSV, empty where it has none."""
    headings = [heading.capitalize() for heading in HEADINGS]
    rows = [(str(day), *amounts) for day, amounts in _rows(money, False)]
    return csv_bytes([headings, *rows])


def _rows(money: MoneyOverTime, on_terminal: bool) -> Iterator[tuple[date, list[str]]]:
    """Yields each day with the amounts of the three lines, an empty text where one has no point."""
    form = TextForm(on_terminal, money.money_scale)
    lines = [_by_day(line, form) for line in (money.planned, money.spent, money.forecast)]
    days = set().union(*lines)
    for day in sorted(days):
        yield day, [line.get(day, "") for line in lines]


def _by_day(points: Sequence[MoneyPoint], form: TextForm) -> dict[date, str]:
    return {point.day: form.money(point.amount) for point in points}
