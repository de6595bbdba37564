"""Reads task lists in workbooks (.xlsx), of MS Project's wizard and as people keep them.

One sheet holds the list; `--sheet` names it if several might. A sheet `Holidays` has the free days,
a sheet `Resources` the rates, and a sheet `Calendars` the calendars that tasks have.
"""

import io
import zipfile
from dataclasses import dataclass, field

from pert_companion.model.calendar import CalendarException
from pert_companion.model.errors import InputError
from pert_companion.model.losses import Loss
from pert_companion.model.source import Source
from pert_companion.readers.base import ReaderOptions, Reading
from pert_companion.readers.columns import ROWS_ABOVE_HEAD, find_head
from pert_companion.readers.extras import holidays, rates, sheet_kind
from pert_companion.readers.grid import Grid, NamedWeek, Rate, clip
from pert_companion.readers.list_calendars import named_weeks
from pert_companion.readers.listing import read_list
from pert_companion.readers.values import Style
from pert_companion.readers.workbook import Book
from pert_companion.readers.working_times import usual_day

_LIST_SHEETS = (
    "task table",
    "tasks",
    "vorgänge",
    "vorgangstabelle",
    "plan",
    "schedule",
)


@dataclass
class _Extras:
    """What the other sheets of a workbook say."""

    exceptions: list[CalendarException] = field(default_factory=list)
    rates: list[Rate] = field(default_factory=list)
    calendars: list[NamedWeek] = field(default_factory=list)
    notes: list[str] = field(default_factory=list)
    losses: list[Loss] = field(default_factory=list)


def matches(data: bytes) -> bool:
    """Says whether bytes are a workbook of the Office Open XML format."""
    if not data.startswith(b"PK\x03\x04"):
        return False
    try:
        with zipfile.ZipFile(io.BytesIO(data)) as archive:
            return "xl/workbook.xml" in archive.namelist()
    except (zipfile.BadZipFile, ValueError, OSError, EOFError):
        return False


def read(source: Source, options: ReaderOptions) -> Reading:
    """Returns the plan of a workbook and what of it is not in the plan.

    Raises `InputError` if the workbook is damaged, too large, or holds no list or several.
    """
    return read_list(read_grid(source, options), options, source.name)


def read_grid(source: Source, options: ReaderOptions) -> Grid:
    """Returns the cells of the sheet that holds the list, with the free days and rates."""
    book = Book(source.data, source.name)
    name = _list_sheet(book, options, source.name)
    extras = _extras(book, name, options)
    sheet = book.rows(name)
    return Grid(
        rows=sheet.rows,
        source="xlsx",
        exceptions=tuple(extras.exceptions),
        rates=tuple(extras.rates),
        calendars=tuple(extras.calendars),
        notes=(*extras.notes, *sheet.notes),
        losses=(*extras.losses, *sheet.losses),
    )


def _list_sheet(book: Book, options: ReaderOptions, file: str) -> str:
    """Returns the name of the sheet that holds the list: as the user says, or the only one."""
    names = book.visible_names
    if options.sheet:
        wanted = book.name_like(options.sheet)
        if wanted is None:
            why = f"no sheet has the name {clip(options.sheet)!r}; there are: {_listed(names)}"
            raise InputError(f"{file}: {why}")
        return wanted
    found = [name for name in names if _holds_list(book, name, options, len(names) > 1)]
    usual = [name for name in found if _is_usual(name)]
    if len(found) > 1 and len(usual) != 1:
        raise InputError(
            f"{file}: several sheets hold a list: {_listed(found)}; say which with --sheet NAME"
        )
    if not found:
        raise InputError(
            f"{file}: no sheet has a row of headings with a column of names and one of durations: "
            "name yours with --column NAME=HEADING"
        )
    return usual[0] if len(found) > 1 else found[0]


def _holds_list(book: Book, name: str, options: ReaderOptions, has_others: bool) -> bool:
    """Says whether a sheet has a row of headings; one that is too large has none next to others."""
    if sheet_kind(name) != "list" or (has_others and book.is_too_large(name)):
        return False
    head = find_head(book.first_rows(name, ROWS_ABOVE_HEAD), options)
    return head is not None and head.is_complete


def _listed(names: list[str]) -> str:
    return clip(", ".join(repr(clip(name, 40)) for name in names), 300)


def _is_usual(name: str) -> bool:
    plain = " ".join(name.replace("_", " ").casefold().split()).rstrip("0123456789 ")
    return plain in _LIST_SHEETS


def _extras(book: Book, list_name: str, options: ReaderOptions) -> _Extras:
    """Returns the free days and rates of the other sheets; notes the sheets that are not read."""
    style = Style(
        decimal=options.decimal or ".",
        day_first=bool(options.day_first),
        day_minutes=options.day_minutes or 480,
    )
    extras = _Extras()
    for name in book.visible_names:
        if name == list_name:
            continue
        if sheet_kind(name) not in ("holidays", "resources", "calendars"):
            extras.notes.append(f"sheet {clip(name)!r} is not read")
            continue
        _add_sheet(extras, book, name, style)
    hidden = [name for name in book.hidden_names if name != list_name]
    extras.notes.extend(f"sheet {clip(name)!r} is hidden and is not read" for name in hidden)
    return extras


def _add_sheet(extras: _Extras, book: Book, name: str, style: Style) -> None:
    """Adds what a sheet of free days, rates or calendars says."""
    kind, sheet = sheet_kind(name), book.rows(name)
    losses: list[Loss] = []
    if kind == "holidays":
        days, losses = holidays(sheet.rows, name, style)
        extras.exceptions.extend(days)
    elif kind == "resources":
        found, losses = rates(sheet.rows, name, style)
        extras.rates.extend(found)
    else:
        weeks = named_weeks(sheet.rows, name, usual_day(style.day_minutes))
        if weeks is None:
            extras.notes.append(f"sheet {clip(name)!r} is not read")
            return
        extras.calendars.extend(weeks[0])
        losses = weeks[1]
    extras.losses.extend((*sheet.losses, *losses))
