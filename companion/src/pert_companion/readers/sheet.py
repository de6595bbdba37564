"""Reads a list with headings of its own, from a text or a workbook: vouchers, estimates, packages.

The row of headings is the one among the first rows that has most of the headings asked for; columns
come in any order. A formula without a value, or one that a text still has, ends the reading.
"""

from collections.abc import Iterable, Mapping, Sequence
from dataclasses import dataclass, field, replace

from pert_companion.model.errors import InputError, UsageError
from pert_companion.model.source import Source
from pert_companion.readers import table
from pert_companion.readers.base import ReaderOptions
from pert_companion.readers.columns import (
    ROWS_ABOVE_HEAD,
    Head,
    fields_by_word,
    heading_of,
)
from pert_companion.readers.grid import Grid, GridRow, clip
from pert_companion.readers.outline import Row, filled_columns
from pert_companion.readers.style import Columns, find_style
from pert_companion.readers.values import Style, text_of

_FORMULA = ("=", "+", "@")
_WORKBOOK = b"PK\x03\x04"
_SIGNS = "+-−(). ,'’"


@dataclass(frozen=True)
class Layout:
    """The columns that a list may have."""

    what: str
    """What the list is, for messages: `list of vouchers`."""
    headings: Mapping[str, Sequence[str]]
    """The headings of each field, in small letters."""
    needed: tuple[tuple[str, ...], ...]
    """Of each of these groups the list has at least one field."""
    columns: Columns = Columns((), ())
    remembered: Mapping[str, str] = field(default_factory=dict)
    """The heading that the user named for a field of an earlier list, in small letters."""

    def remembering(self, named: Iterable[tuple[str, str]]) -> "Layout":
        """Returns the same columns with headings that the user named; those of others are left out.

        Such a heading means its field alone. A list that has it has no other column for the field.
        """
        own = {}
        for name, heading in named:
            if heading and name in self.headings:
                own[name] = heading_of(heading).text
        headings = {}
        for name, words in self.headings.items():
            headings[name] = [word for word in words if word not in own.values()]
        for name, word in own.items():
            headings[name].append(word)
        return replace(self, headings=headings, remembered=own)


@dataclass(frozen=True)
class Sheet:
    """The filled rows of a list by field, and how it writes its values."""

    file: str
    rows: tuple[Row, ...]
    head: Head
    style: Style
    others: Mapping[str, int]
    """The columns without a meaning, by a heading that is unique."""
    cells: Mapping[int, GridRow]
    """The rows of the file by number."""
    notes: tuple[str, ...]

    def other_cells(self, row: Row) -> tuple[tuple[str, str], ...]:
        """Returns the headings and texts of a row's columns without a meaning."""
        cells = self.cells[row.number].cells
        found = []
        for heading, at in self.others.items():
            text = text_of(cells[at]).strip() if at < len(cells) else ""
            if text:
                found.append((heading, text))
        return tuple(found)

    def place(self, row: Row) -> str:
        """Returns the file and the row for messages."""
        return f"{self.file}: row {row.number}"

    def shown(self, row: Row, field: str) -> str:
        """Returns the heading and the cell of a field for messages."""
        return f"{self.head.headings[field]!r} {clip(row.text(field), 40)!r}"


def read_sheet(source: Source, options: ReaderOptions, layout: Layout) -> Sheet:
    """Returns the list of a file; `InputError` in one line if it has none or contradicts itself."""
    chosen = _chosen(options, layout)
    grid = _grid(source, options, layout, chosen)
    head = _found_head(grid.rows, layout, chosen)
    file = source.name
    head = _checked(head, layout, chosen, file)
    rows = tuple(_rows(grid.rows, head))
    _refuse_formulas(rows, layout, file)
    style = find_style(rows, head, options, grid.separator, file, layout.columns)
    others = _others(grid.rows[head.position], head)
    by_number = {row.number: row for row in grid.rows}
    notes = (*grid.notes, *style.notes)
    return Sheet(file, rows, head, style.style, others, by_number, notes)


def _chosen(options: ReaderOptions, layout: Layout) -> dict[str, str]:
    chosen = dict(options.columns)
    for name in chosen:
        if name not in layout.headings:
            raise UsageError(f"--column {clip(name)}: the names are {', '.join(layout.headings)}")
    return chosen


def _checked(head: Head | None, layout: Layout, chosen: Mapping[str, str], file: str) -> Head:
    """Returns the head of a list if it has the headings that the user names and those needed."""
    columns = {} if head is None else head.columns
    for name, heading in chosen.items():
        if heading and name not in columns:
            raise InputError(f"{file}: no column has the heading {clip(heading)!r}")
    for words in layout.needed:
        if not set(words) & set(columns):
            names = " or ".join(repr(layout.headings[word][0]) for word in words)
            raise InputError(
                f"{file}: no {layout.what}: no column {names}; name yours with"
                f" --column {words[0]}=HEADING"
            )
    assert head is not None
    return head


def _grid(
    source: Source, options: ReaderOptions, layout: Layout, chosen: Mapping[str, str]
) -> Grid:
    def headings_in(rows: Sequence[GridRow]) -> int:
        head = _found_head(rows, layout, chosen)
        return 0 if head is None else len(head.columns)

    if not source.data.startswith(_WORKBOOK):
        return table.grid_of(source, options, headings_in)
    return _workbook_grid(source, options, headings_in)


def _workbook_grid(source: Source, options: ReaderOptions, headings_in: table.HeadingCount) -> Grid:
    """Returns the sheet of a workbook that has most of the headings, or that the user names."""
    from pert_companion.readers.workbook import (
        Book,
    )  # its library is needed for workbooks alone

    book = Book(source.data, source.name)
    name = book.name_like(options.sheet) if options.sheet else None
    if options.sheet and name is None:
        raise InputError(f"{source.name}: no sheet has the name {clip(options.sheet)!r}")
    if name is None:
        counts = {}
        for each in book.visible_names:
            counts[each] = headings_in(book.first_rows(each, ROWS_ABOVE_HEAD))
        if not counts:
            raise InputError(f"{source.name}: this workbook has no sheet")
        name = max(counts, key=lambda each: counts[each])
    sheet = book.rows(name)
    if sheet.losses:
        raise InputError(sheet.losses[0].line(source.name).rpartition(" [")[0])
    return Grid(sheet.rows, "xlsx", notes=sheet.notes)


def _found_head(rows: Sequence[GridRow], layout: Layout, chosen: Mapping[str, str]) -> Head | None:
    """Returns the row with the most headings of the layout among the first rows."""
    fields = fields_by_word(layout.headings)
    best: Head | None = None
    for position, row in enumerate(rows[:ROWS_ABOVE_HEAD]):
        texts = [heading_of(cell).text for cell in row.cells]
        head = _head(row, position, fields, _named(texts, layout, chosen))
        if head.columns and (best is None or len(head.columns) > len(best.columns)):
            best = head
    return best


def _named(texts: Sequence[str], layout: Layout, chosen: Mapping[str, str]) -> dict[str, str]:
    """Returns the fields whose headings the user names, and those of earlier lists in this row."""
    named = {name: heading_of(heading).text for name, heading in chosen.items()}
    for name, word in layout.remembered.items():
        if name not in named and word in texts:
            named[name] = word
    return named


def _head(row: GridRow, position: int, fields: Mapping[str, str], named: Mapping[str, str]) -> Head:
    """Returns the columns of a row that is taken for the row of headings.

    A field that is named has the column with this heading alone, and none if it is empty.
    """
    wanted = {word: name for name, word in named.items() if word}
    columns: dict[str, int] = {}
    for at, cell in enumerate(row.cells):
        text = heading_of(cell).text
        name = wanted.get(text) or fields.get(text)
        if name is None or name in columns or (name in named and text not in wanted):
            continue
        columns[name] = at
    headings = {
        name: clip(" ".join(text_of(row.cells[at]).split())) for name, at in columns.items()
    }
    return Head(position, columns, headings)


def _others(row: GridRow, head: Head) -> dict[str, int]:
    """Returns the columns that no field has, each by its heading; a second one has a number."""
    used = set(head.columns.values())
    found: dict[str, int] = {}
    for at, cell in enumerate(row.cells):
        heading = clip(" ".join(text_of(cell).split())) or f"column {at + 1}"
        if at in used:
            continue
        found[heading if heading not in found else f"{heading} ({at + 1})"] = at
    return found


def _rows(rows: Sequence[GridRow], head: Head) -> list[Row]:
    """Returns the filled rows below the headings; repeated headings are passed over."""
    headings = rows[head.position].cells
    found = []
    for row in rows[head.position + 1 :]:
        filled = set(filled_columns(row))
        if not filled or row.cells == headings:
            continue
        cells = {name: row.cells[at] for name, at in head.columns.items() if at in filled}
        found.append(Row(row.number, cells))
    return found


def _refuse_formulas(rows: Sequence[Row], layout: Layout, file: str) -> None:
    """Refuses a text that begins like a formula where a number or a date is expected."""
    for row in rows:
        for name in (*layout.columns.numbers, *layout.columns.dates):
            text = row.text(name)
            if text.startswith(_FORMULA) and not text.strip("0123456789" + _SIGNS) == "":
                raise InputError(
                    f"{file}: row {row.number}: {clip(text, 40)!r} is a formula; export values"
                )
