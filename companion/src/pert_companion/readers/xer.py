"""Reads Primavera P6's XER: tables as tab-separated text, each with a line of its fields."""

from collections.abc import Iterator
from dataclasses import dataclass, field

from pert_companion.model.calendar import Calendar
from pert_companion.model.errors import InputError
from pert_companion.model.losses import Loss, LossKind
from pert_companion.model.source import Source
from pert_companion.readers import p6, p6_calendars
from pert_companion.readers.base import ReaderOptions, Reading
from pert_companion.readers.carried import fields_by_holder
from pert_companion.readers.grid import clip
from pert_companion.readers.p6 import P6File, Record
from pert_companion.readers.p6_calendars import CalendarTextError
from pert_companion.readers.p6_carried import P6
from pert_companion.readers.table import decode

MOST_FIELDS = 1_000
MOST_RECORDS = 400_000

_WANTED = fields_by_holder(row.fields for row in P6)
"""The tables that are read, and their fields."""


def matches(data: bytes) -> bool:
    """Says whether the bytes begin as an XER file does."""
    return (
        data[:64].replace(b"\0", b"").lstrip(b"\xef\xbb\xbf\xff\xfe \t\r\n").startswith(b"ERMHDR")
    )


def read(source: Source, options: ReaderOptions) -> Reading:
    """Returns the plan of a file and what is not in it.

    Raises `InputError` if the file is cut off, a line is no record, or it holds no plan.
    """
    text, assumed = decode(source.data, options.encoding, source.name)
    tables = _Tables(source.name)
    tables.read(text)
    notes = [f"the file is not UTF-8; it is read as {assumed}"] if assumed else []
    if tables.unread:
        notes.append(f"tables that are not read: {clip(', '.join(sorted(tables.unread)), 400)}")
    file = P6File(
        source,
        "xer",
        tables.held,
        dict(_calendars(tables.held.get("CALENDAR", []), tables.losses)),
        tables.losses,
        notes,
    )
    return p6.read_plan(file, options)


@dataclass
class _Tables:
    """Collects the tables of a text, line by line."""

    file: str
    held: dict[str, list[Record]] = field(default_factory=dict)
    unread: set[str] = field(default_factory=set)
    losses: list[Loss] = field(default_factory=list)
    name: str = ""
    columns: list[str] = field(default_factory=list)
    count: int = 0

    def read(self, text: str) -> None:
        """Reads all lines. They end at a line feed alone."""
        is_complete = False
        for number, line in enumerate(_lines(text), 1):
            if number == 1 or not line.strip():
                continue
            if is_complete:
                self.refuse(number, "there is more after %E")
            if line.count("\t") > MOST_FIELDS:
                self.refuse(number, f"more than {MOST_FIELDS} fields")
            kind, *cells = line.split("\t")
            is_complete = kind.strip() == "%E"
            if not is_complete:
                self.take(number, kind, cells)
        if not is_complete:
            raise InputError(f"{self.file}: the file is cut off: there is no %E at its end")

    def take(self, number: int, kind: str, cells: list[str]) -> None:
        """Takes one line. In a table that is not read a text, such as a note, may have several."""
        if kind == "%T":
            self.name = cells[0].strip() if cells else ""
            self.columns = []
            if self.name not in _WANTED:
                self.unread.add(self.name)
        elif kind == "%F":
            self.columns = [cell.strip() for cell in cells]
        elif kind == "%R":
            self.add(number, cells)
        elif self.name in _WANTED or not self.name:
            self.refuse(
                number,
                f"the line begins with {clip(kind, 20)!r}, not with %T, %F, %R or %E; a text of"
                " the line before it may have a line break",
            )

    def add(self, number: int, cells: list[str]) -> None:
        """Adds a row of the present table."""
        if self.name not in _WANTED:
            return
        self.count += 1
        if self.count > MOST_RECORDS:
            raise InputError(f"{self.file}: more than {MOST_RECORDS} rows")
        if not self.columns:
            self.refuse(number, f"a row of table {self.name} without a line of fields (%F)")
        if any(cell.strip() for cell in cells[len(self.columns) :]):
            self.refuse(number, f"a row of table {self.name} has more cells than fields")
        wanted = _WANTED[self.name]
        pairs = zip(self.columns, cells)
        found = {name: cell.strip() for name, cell in pairs if name in wanted and cell.strip()}
        record = Record(f"table {self.name}, line {number}", found)
        self.held.setdefault(self.name, []).append(record)
        if len(cells) < len(self.columns):
            self.name_short_row(record, cells)

    def name_short_row(self, record: Record, cells: list[str]) -> None:
        """Adds a loss of a row that ends too early."""
        missing = len(self.columns) - len(cells)
        name = record.text("task_name") or record.text("wbs_name")
        shown = ", ".join(self.columns[len(cells) :])
        why = f"the row ends {missing} fields too early; these are taken to be empty"
        self.losses.append(
            Loss(LossKind.FIELD, record.where, clip(name), "fields", clip(shown, 60), why)
        )

    def refuse(self, number: int, why: str) -> None:
        """Raises the error of a line."""
        raise InputError(f"{self.file}: line {number}: {why}")


def _lines(text: str) -> Iterator[str]:
    """Yields the lines of a text without their ends."""
    position = 0
    while position < len(text):
        end = text.find("\n", position)
        end = len(text) if end < 0 else end
        yield text[position:end].rstrip("\r")
        position = end + 1


def _calendars(records: list[Record], losses: list[Loss]) -> Iterator[tuple[str, Calendar]]:
    """Yields the calendars by their ids; what of them cannot be read is a loss."""
    for record in records:
        name = clip(record.text("clndr_name") or f"calendar {record.text('clndr_id')}", 80)
        lengths, is_known = p6_calendars.lengths_of(
            record.text("day_hr_cnt"),
            record.text("week_hr_cnt"),
            record.text("month_hr_cnt"),
        )
        if not is_known:
            shown = clip(record.text("day_hr_cnt"), 60)
            why = f"these are no hours of a day; the calendar {name!r} has 8"
            losses.append(Loss(LossKind.CALENDAR, record.where, "", "day_hr_cnt", shown, why))
        text = record.text("clndr_data")
        try:
            found = p6_calendars.calendar_of(name, text, lengths)
        except CalendarTextError as reason:
            why = f"the working time of {name!r} cannot be read ({reason}): Monday to Friday"
            losses.append(
                Loss(
                    LossKind.CALENDAR,
                    record.where,
                    "",
                    "clndr_data",
                    clip(text, 40),
                    why,
                )
            )
            found = p6_calendars.calendar_of(name, "", lengths)
        yield record.text("clndr_id"), found
