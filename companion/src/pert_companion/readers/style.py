"""Finds how a list writes its values: the decimal mark, the order of dates, shares for percent."""

import re
from collections.abc import Iterable, Iterator, Sequence
from dataclasses import dataclass, replace
from datetime import date
from decimal import Decimal

from pert_companion.model.errors import InputError
from pert_companion.readers.base import ReaderOptions
from pert_companion.readers.columns import AMOUNTS, DATES, DURATIONS, Head
from pert_companion.readers.grid import clip
from pert_companion.readers.outline import Row
from pert_companion.readers.values import (
    MOST_CHARACTERS,
    SPACES,
    Cell,
    Share,
    Style,
    Unreadable,
    number,
    slashed_parts,
    text_of,
)

_PIECE = re.compile(r"[0-9][0-9.,]*")
_SPACED_GROUP = re.compile(rf"(?<=[0-9])['’ {SPACES}](?=[0-9]{{3}})")


@dataclass(frozen=True)
class FoundStyle:
    """How a list writes its values, and a note on each thing that had to be assumed."""

    style: Style
    notes: tuple[str, ...]


def mark_shown_by(piece: str) -> str:
    """Returns the decimal mark that a number shows, `?` if it may be either, or an empty text.

    `1.234,5` shows a comma, `2.50` a point, `1.234.567` a comma, and `1.234` may be either.
    """
    marks = [character for character in piece if character in ".,"]
    if not marks:
        return ""
    if len(set(marks)) == 2:
        return marks[-1]
    if len(marks) > 1:
        return "," if marks[0] == "." else "."
    whole, _, part = piece.partition(marks[0])
    if len(part) == 3 and 1 <= len(whole) <= 3 and not whole.startswith("0"):
        return "?"
    return marks[0]


def _marks_in(cell: Cell) -> set[str]:
    if not isinstance(cell, str) or len(cell) > MOST_CHARACTERS:
        return set()
    pieces = _PIECE.findall(_SPACED_GROUP.sub("", cell))
    return {mark_shown_by(piece.rstrip(".,")) for piece in pieces} - {""}


def _find_decimal(
    rows: Sequence[Row], head: Head, numbers: Sequence[str], separator: str, file: str
) -> tuple[str, str | None]:
    """Returns the decimal mark, by the separator if no number shows it, and a note then."""
    shown: dict[str, str] = {}
    names = [name for name in numbers if name in head.columns]
    for row in rows:
        for name in names:
            for mark in _marks_in(row.cell(name)):
                where = f"row {row.number}, column {head.headings[name]!r}, "
                shown.setdefault(mark, where + repr(clip(text_of(row.cell(name)))))
    if "." in shown and "," in shown:
        raise InputError(
            f"{file}: two decimal marks: {shown['.']} and {shown[',']}; say which with --decimal"
        )
    for mark in ".,":
        if mark in shown:
            return mark, None
    mark = "," if separator == ";" else "."
    if "?" not in shown:
        return mark, None
    if separator not in (",", ";"):
        raise InputError(
            f"{file}: {shown['?']}: is this mark a decimal mark? Say --decimal , or --decimal ."
        )
    return mark, (
        f"{shown['?']}: the decimal mark is taken to be {mark}, as in most lists with "
        f"{separator} between the cells; another one: --decimal"
    )


def _votes(dates: Iterable[Cell]) -> tuple[str, str, str]:
    """Returns a date that shows that the day is first, one for the month, and one that is open."""
    day_first = month_first = open_date = ""
    for cell in dates:
        parts = slashed_parts(cell)
        if parts is None:
            continue
        first, second, year, weekday = parts
        is_day_first = second <= 12 and _fits(year, second, first, weekday)
        is_month_first = first <= 12 and _fits(year, first, second, weekday)
        shown = clip(text_of(cell))
        if is_day_first and not is_month_first:
            day_first = day_first or shown
        elif is_month_first and not is_day_first:
            month_first = month_first or shown
        elif first != second:
            open_date = open_date or shown
    return day_first, month_first, open_date


def _fits(year: int, month: int, day: int, weekday: int | None) -> bool:
    """Says whether there is such a day, and whether it is that day of the week."""
    try:
        found = date(year, month, day)
    except ValueError:
        return False
    return weekday is None or found.weekday() == weekday


def _dates_of(rows: Sequence[Row], head: Head, dates: Sequence[str]) -> Iterator[Cell]:
    """Yields the cells of the columns of dates, column by column."""
    for name in dates:
        if name in head.columns:
            for row in rows:
                yield row.cell(name)


def _find_order(
    rows: Sequence[Row], head: Head, dates: Sequence[str], file: str
) -> tuple[bool, str | None]:
    """Returns whether dates such as 03/04/2026 have the day first, and a note if it was assumed."""
    day_first, month_first, open_date = _votes(_dates_of(rows, head, dates))
    if day_first and month_first:
        raise InputError(
            f"{file}: in {day_first} the day is first and in {month_first} the month: "
            "export dates as 2024-03-15"
        )
    if day_first or month_first or not open_date:
        return bool(day_first), None
    return False, (
        f"dates such as {open_date} are read month first; if the day comes first, say --day-first"
    )


def is_day_first(cells: Iterable[Cell], file: str) -> bool:
    """Returns whether dates such as 03/04/2026 have the day first; the month is, if none shows it.

    Raises `InputError` if some show the one and some the other.
    """
    day_first, month_first, _ = _votes(cells)
    if day_first and month_first:
        raise InputError(
            f"{file}: in {day_first} the day is first and in {month_first} the month: "
            "write dates as 2024-03-15"
        )
    return bool(day_first)


def _percent_factor(rows: Sequence[Row], style: Style) -> int:
    """Returns 100 if the numbers of the percent column are shares of 1, and else 1."""
    values = []
    for row in rows:
        cell = row.cell("percent")
        if isinstance(cell, Share) or (isinstance(cell, str) and "%" in cell):
            return 1
        try:
            values.append(number(cell, style) if cell != "" else Decimal(0))
        except Unreadable:
            return 1
    return 100 if any(values) and all(0 <= value <= 1 for value in values) else 1


@dataclass(frozen=True)
class Columns:
    """The fields of a list whose cells show how it writes its values."""

    numbers: tuple[str, ...] = (*DURATIONS, *AMOUNTS, "percent")
    dates: tuple[str, ...] = DATES


def find_style(
    rows: Sequence[Row],
    head: Head,
    options: ReaderOptions,
    separator: str,
    file: str,
    columns: Columns = Columns(),
) -> FoundStyle:
    """Returns how the list writes its values; what the user said comes first.

    Raises `InputError` if the list contradicts itself.
    """
    notes = []
    style = Style(
        day_minutes=options.day_minutes or 480,
        week_minutes=options.week_minutes or 5 * (options.day_minutes or 480),
        month_days=options.month_days or 20,
    )
    decimal, note = options.decimal, None
    if not decimal:
        decimal, note = _find_decimal(rows, head, columns.numbers, separator, file)
    notes.append(note)
    day_first, note = bool(options.day_first), None
    if options.day_first is None:
        day_first, note = _find_order(rows, head, columns.dates, file)
    notes.append(note)
    style = replace(style, decimal=decimal, day_first=day_first)
    factor = _percent_factor(rows, style)
    if factor == 100:
        notes.append(f"column {head.headings['percent']!r} is read as shares of 1: 0.5 is 50 %")
    style = replace(style, percent_factor=factor)
    return FoundStyle(style, tuple(note for note in notes if note is not None))
