"""Makes a calendar of the words and files that people write: weekdays, and a list of holidays.

A list of holidays is a text or a workbook. A row has a day, or the first and the last of several,
and a name, in any order and form; rows above the first day are headings.
"""

import re
from collections.abc import Iterator
from itertools import chain
from pathlib import Path

from pert_companion.model.calendar import STANDARD_DAY, Calendar, CalendarException
from pert_companion.model.errors import InputError, UsageError
from pert_companion.model.source import read_bytes, shown_name
from pert_companion.readers import xlsx
from pert_companion.readers.extras import holidays, sheet_kind
from pert_companion.readers.grid import GridRow
from pert_companion.readers.style import is_day_first
from pert_companion.readers.table import decode
from pert_companion.readers.values import MOST_CHARACTERS, Style, Unreadable, day
from pert_companion.readers.workbook import Book
from pert_companion.readers.working_times import week_of, weekdays_in

MAX_BYTES = 1024 * 1024

_RANGE = re.compile(r"(.+?)\s*(?:\.\.|\s[-–]\s|–|(?<=[./]\d{4})-|\s(?:to|bis)\s)\s*(.+)")
"""A first and a last day: `2024-12-24..2024-12-31`, `24.12.2024-31.12.2024`, `.. bis ..`."""
_SEPARATORS = ";\t,"
_COMMENT = "#"
_MOST_WORDS = 6
"""The most words of a date: `Thu 24 December 2026 08:00 AM`."""


def calendar_of(weekdays: str, free_days: Path | None) -> Calendar:
    """Returns the calendar of a list of weekdays, such as `mon-fri,sun`, and a file of holidays.

    Raises `UsageError` for words that are no weekdays, `InputError` for a line that is no holiday.
    """
    worked = worked_weekdays(weekdays)
    week = week_of(worked, STANDARD_DAY)
    exceptions = () if free_days is None else holidays_of(free_days)
    name = "Standard" if weekdays == "mon-fri" else weekdays
    return Calendar(name, week, exceptions, week_minutes=480 * len(worked))


def worked_weekdays(text: str) -> frozenset[int]:
    """Returns the numbers of weekdays, Monday 0, of names and ranges such as `sun-thu,sat`."""
    try:
        return weekdays_in(text)
    except Unreadable as reason:
        raise UsageError(f"--weekdays {text}: {reason}") from None


def holidays_of(path: Path) -> tuple[CalendarException, ...]:
    """Returns the holidays of a file, a text or a workbook.

    Text after `#` is passed over, as are blank lines and rows above the first day. Raises
    `InputError` for a row below it that has no day.
    """
    name = shown_name(path)
    data = read_bytes(path, MAX_BYTES, "list of holidays")
    rows = _sheet_rows(data, name) if xlsx.matches(data) else list(_text_rows(data, name))
    cells = chain.from_iterable(row.cells for row in rows)
    style = Style(day_first=is_day_first(cells, name))
    found, losses = holidays(rows, path.name, style)
    if losses:
        loss = losses[0]
        where = loss.where.rpartition(", ")[2].replace("row", "line")
        raise InputError(f"{name}: {where}: {loss.text!r}: {loss.why}")
    if rows and not found:
        raise InputError(
            f"{name}: there is no date such as 2024-12-25 or 25.12.2024, and no range such as"
            " 2024-12-24..2024-12-31"
        )
    return found


def _sheet_rows(data: bytes, file: str) -> list[GridRow]:
    """Returns the rows of the sheet of holidays of a workbook, or of its first sheet."""
    book = Book(data, file)
    names = book.visible_names
    named = [name for name in names if sheet_kind(name) == "holidays"]
    chosen = (named or names)[:1]
    return list(chain.from_iterable(book.rows(name).rows for name in chosen))


def _text_rows(data: bytes, file: str) -> Iterator[GridRow]:
    """Yields the lines of a text as rows of cells: days first, then what is left."""
    text, _ = decode(data, "", file)
    for number, line in enumerate(re.split(r"\r\n|\r|\n", text), 1):
        words = line.partition(_COMMENT)[0].strip()
        if words:
            yield GridRow(number, tuple(_cells_of(words)))


def _cells_of(words: str) -> list[str]:
    """Returns the cells of a line; a range becomes two, and a name after a day one of its own."""
    mark = next((mark for mark in _SEPARATORS if mark in words), None)
    parts = [words] if mark is None else words.split(mark)
    cells: list[str] = []
    for part in parts:
        cells.extend(_parts_of(part.strip().strip('"')))
    return [cell for cell in cells if cell]


def _parts_of(cell: str) -> list[str]:
    """Returns the days of a cell and the name after them; the cell itself if it has no day."""
    if len(cell) > MOST_CHARACTERS or _is_day(cell):
        return [cell]
    found = _RANGE.fullmatch(cell)
    if found is not None and _is_day(found[1]):
        return [found[1], *_parts_of(found[2])]
    words = cell.split()
    for count in range(min(len(words) - 1, _MOST_WORDS), 0, -1):
        if _is_day(" ".join(words[:count])):
            return [" ".join(words[:count]), " ".join(words[count:])]
    return [cell]


def _is_day(text: str) -> bool:
    for day_first in (True, False):
        try:
            day(text, Style(day_first=day_first))
        except Unreadable:
            continue
        return True
    return False
