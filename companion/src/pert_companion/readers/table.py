"""Reads task lists as text: CSV and tab-separated text of spreadsheets and planners.

The character set, the separator, the decimal mark and the order of dates are found in the file.
Rows end at a line feed or a carriage return alone: U+2028, U+2029 and U+0085 are part of a cell.
"""

import csv
import io
from collections.abc import Callable, Iterator, Sequence

from pert_companion.model.encodings import FALLBACK, MARKS, wide_encoding
from pert_companion.model.errors import InputError
from pert_companion.model.source import Source
from pert_companion.readers.base import ReaderOptions, Reading
from pert_companion.readers.columns import ROWS_ABOVE_HEAD, find_head
from pert_companion.readers.grid import (
    MOST_CELL_CHARACTERS,
    MOST_COLUMNS,
    MOST_ROWS,
    Grid,
    GridRow,
    clip,
)
from pert_companion.readers.listing import read_list

MOST_BYTES = 64 * 1024 * 1024
MOST_CELLS = 1_000_000
SEPARATORS = ";,\t|"
HEAD_CHARACTERS = 4_000_000
"""How far into a text the row of headings is looked for."""

_OTHER_FILES = (
    (b"PK\x03\x04", "a workbook or another archive"),
    (b"\xd0\xcf\x11\xe0", "a binary file (.xls, .mpp)"),
    (b"%PDF", "a PDF"),
)

HeadingCount = Callable[[Sequence[GridRow]], int]
"""Counts the headings that the first rows of a list have."""


def matches(data: bytes) -> bool:
    """Says whether bytes may be a list as text: a text that has a row of headings."""
    try:
        text, _ = decode(data, "", "")
        _, rows = _head_rows(text, "", _task_headings(ReaderOptions()))
    except InputError:
        return False
    head = find_head(rows, ReaderOptions())
    return head is not None and head.is_complete


def read(source: Source, options: ReaderOptions) -> Reading:
    """Returns the plan of a list as text, and what of the list is not in it.

    Raises `InputError` if the bytes are no text of the given character set, a quote is missing, or
    the list is too large or holds no plan.
    """
    grid = read_grid(source, options)
    return read_list(grid, options, source.name)


def read_grid(source: Source, options: ReaderOptions) -> Grid:
    """Returns the cells of a list as text."""
    return grid_of(source, options, _task_headings(options))


def grid_of(source: Source, options: ReaderOptions, headings_in: HeadingCount) -> Grid:
    """Returns the cells of a list as text, separated so that most headings are found."""
    file = source.name
    text, assumed = decode(source.data, options.encoding, file)
    separator, _ = _head_rows(text, file, headings_in)
    notes = (f"the file is not UTF-8; it is read as {assumed}",) if assumed else ()
    body = _named_separator(text)[1]
    if body.count(separator) > MOST_CELLS:
        raise InputError(f"{file}: more than {MOST_CELLS} cells")
    rows = []
    for row in _rows(body, separator, file):
        rows.append(row)
        if len(rows) > MOST_ROWS:
            raise InputError(f"{file}: more than {MOST_ROWS} rows")
    return Grid(tuple(rows), "csv", separator, notes=notes)


def decode(data: bytes, encoding: str, file: str) -> tuple[str, str | None]:
    """Returns the text of a file, and its character set if that had to be assumed."""
    if len(data) > MOST_BYTES:
        raise InputError(f"{file}: more than {MOST_BYTES} bytes")
    for mark, what in _OTHER_FILES:
        if data.startswith(mark):
            raise InputError(f"{file}: this is {what}, not a list as text")
    for mark, name in MARKS:
        if data.startswith(mark):
            return _decoded(data[len(mark) :], name, file), None
    if encoding:
        return _decoded(data, encoding, file), None
    wide = wide_encoding(data)
    if wide:
        return _decoded(data, wide, file), None
    try:
        return data.decode("utf-8"), None
    except UnicodeDecodeError:
        return _decoded(data, FALLBACK, file), FALLBACK


def _decoded(data: bytes, encoding: str, file: str) -> str:
    try:
        return data.decode(encoding)
    except UnicodeDecodeError as reason:
        raise InputError(
            f"{file}: byte {reason.start} is not {encoding}: export in UTF-8, or name the "
            "character set with --encoding"
        ) from reason
    except (LookupError, ValueError, UnicodeError) as reason:
        why = f"--encoding {clip(encoding)}: this is no character set"
        raise InputError(f"{file}: {why}") from reason


def _named_separator(text: str) -> tuple[str, str]:
    """Returns the separator of a line `sep=;` at the top, and the text without that line."""
    if text[:4].casefold() == "sep=" and text[5:6] in ("\r", "\n") and text[4:5] not in "\r\n\"'":
        end = 7 if text[5:7] == "\r\n" else 6
        return text[4], text[end:]
    return "", text


def _rows(text: str, separator: str, file: str) -> Iterator[GridRow]:
    """Yields the rows of a text, numbered as a spreadsheet numbers them."""
    number = 0
    reader = csv.reader(io.StringIO(text, newline=""), delimiter=separator, strict=True)
    while True:
        number += 1
        try:
            cells = next(reader)
        except StopIteration:
            return
        except csv.Error as reason:
            raise InputError(f"{file}: row {number}: {_fault(str(reason))}") from reason
        while len(cells) > MOST_COLUMNS and not cells[-1]:
            cells.pop()
        if len(cells) > MOST_COLUMNS:
            raise InputError(f"{file}: row {number}: more than {MOST_COLUMNS} columns")
        for cell in cells:
            if len(cell) > MOST_CELL_CHARACTERS:
                raise InputError(
                    f"{file}: row {number}: a cell of more than {MOST_CELL_CHARACTERS} characters"
                )
        yield GridRow(number, tuple(cells))


def _fault(text: str) -> str:
    if "field larger" in text:
        return f"a cell of more than {MOST_CELL_CHARACTERS} characters"
    if "end of data" in text or "expected after" in text:
        return "a quote is missing, or one is not doubled"
    return text


def _task_headings(options: ReaderOptions) -> HeadingCount:
    """Returns what counts the headings of a task list in its first rows."""

    def count(rows: Sequence[GridRow]) -> int:
        head = find_head(rows, options)
        return 0 if head is None else len(head.columns)

    return count


def _head_rows(text: str, file: str, headings_in: HeadingCount) -> tuple[str, list[GridRow]]:
    """Returns the separator with which most headings are found, and the first rows by it."""
    named, body = _named_separator(text)
    body = body[:HEAD_CHARACTERS]
    best: tuple[int, str, list[GridRow]] = (0, named or ",", [])
    fault: InputError | None = None
    for separator in named or SEPARATORS:
        rows: list[GridRow] = []
        try:
            for row in _rows(body, separator, file):
                rows.append(row)
                if len(rows) >= ROWS_ABOVE_HEAD:
                    break
        except InputError as reason:
            fault = fault or reason
        found = headings_in(rows)
        if found > best[0]:
            best = (found, separator, rows)
    if not best[0] and fault is not None:
        raise fault
    return best[1], best[2]
