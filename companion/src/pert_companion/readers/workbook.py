"""Opens workbooks (.xlsx) of unknown origin: sheets as rows of cells, within bounds.

openpyxl reads the cells in its read-only mode, which builds nothing but them. The packed size, the
number of XML elements and the number of rows are checked first, and a document type is refused.
"""

import io
import re
import warnings
import zipfile
import zlib
from collections.abc import Iterator, Sequence
from dataclasses import dataclass, field, replace
from datetime import date, datetime, time, timedelta
from decimal import Decimal
from typing import Any

import defusedxml.ElementTree
import openpyxl
from openpyxl.styles.numbers import is_timedelta_format
from openpyxl.utils import range_boundaries
from openpyxl.utils.datetime import to_excel

from pert_companion.model.errors import InputError
from pert_companion.model.losses import Loss, LossKind
from pert_companion.readers.grid import (
    MOST_CELL_CHARACTERS,
    MOST_COLUMNS,
    MOST_ROWS,
    GridRow,
    clip,
)
from pert_companion.readers.values import Cell, Measure, Share, unit_of

MOST_BYTES = 64 * 1024 * 1024
"""The most bytes of a workbook, packed, and of each of its parts, unpacked."""
MOST_ENTRIES = 5_000
MOST_ELEMENTS = 800_000
"""The most XML elements of a sheet, and of all parts that every sheet shares."""
MOST_MERGED_ROWS = 100_000
MOST_MERGED = 50_000
"""The most ranges of merged cells of a sheet."""
_SHARED_PARTS = ("xl/workbook.xml", "xl/styles.xml", "xl/sharedStrings.xml")
_BEGINNING = 64 * 1024
_NAMESPACE = "{http://schemas.openxmlformats.org/spreadsheetml/2006/main}"
_QUOTED = re.compile(r'"([^"]{1,20})"')
_LARGEST_NUMBER = 10**15
_MOST_FORMAT_BYTES = 255 * len("&quot;")
"""The longest number format of Excel in XML, where a character may be an entity."""
_LONG_FORMAT = re.compile(
    rb"formatCode\s*=\s*(?:\"[^\"]{%d}|'[^']{%d})"
    % (_MOST_FORMAT_BYTES + 1, _MOST_FORMAT_BYTES + 1)
)


@dataclass(frozen=True)
class _Shape:
    """What the XML of a sheet says that openpyxl's read-only mode does not."""

    levels: dict[int, int] = field(default_factory=dict)
    """The outline levels of the rows that have one."""
    hidden: tuple[int, ...] = ()
    merged: tuple[tuple[int, int, int], ...] = ()
    """First row, last row and first column, from 0, of cells that are merged over several rows."""
    uncomputed: tuple[str, ...] = ()
    """The cells with a formula and no value."""


@dataclass(frozen=True)
class SheetRows:
    """The rows of a sheet that hold something, and what of them cannot be taken."""

    rows: tuple[GridRow, ...]
    notes: tuple[str, ...] = ()
    losses: tuple[Loss, ...] = ()


class Book:
    """A workbook whose sheets are read one by one."""

    def __init__(self, data: bytes, file: str) -> None:
        self._file = file
        self._checked: set[str] = set()
        if len(data) > MOST_BYTES:
            raise InputError(f"{file}: more than {MOST_BYTES} bytes")
        try:
            self._archive = zipfile.ZipFile(io.BytesIO(data))
        except (zipfile.BadZipFile, ValueError, OSError, EOFError) as reason:
            raise InputError(f"{file}: this workbook is damaged or cut off") from reason
        if len(self._archive.infolist()) > MOST_ENTRIES:
            raise InputError(f"{file}: more than {MOST_ENTRIES} files in this workbook")
        if "xl/workbook.xml" not in self._archive.namelist():
            raise InputError(f"{file}: this archive is no workbook (.xlsx)")
        for part in self._archive.namelist():
            if part in _SHARED_PARTS or (_is_sheet(part) and not self._begins_well(part)):
                self._check_part(part)
        self._book = self._opened(data)

    def _begins_well(self, part: str) -> bool:
        """Says whether openpyxl finds the size of a sheet at its beginning, and no document type.

        It looks for it when it opens the workbook, through the whole sheet if need be.
        """
        info = self._archive.getinfo(part)
        if info.file_size > MOST_BYTES:
            return False
        try:
            with self._archive.open(part) as stream:
                begin = stream.read(_BEGINNING)
        except (
            zipfile.BadZipFile,
            zlib.error,
            EOFError,
            RuntimeError,
            ValueError,
            OSError,
        ):
            return False
        return b"dimension" in begin and b"<!" not in begin

    def _opened(self, data: bytes) -> Any:
        try:
            with warnings.catch_warnings():
                warnings.simplefilter("ignore")
                return openpyxl.load_workbook(
                    io.BytesIO(data), read_only=True, data_only=True, keep_links=False
                )
        except Exception as reason:  # openpyxl raises whatever a damaged part leads to
            raise InputError(
                f"{self._file}: this workbook cannot be read: {_why(reason)}"
            ) from reason

    @property
    def visible_names(self) -> list[str]:
        """Returns the names of the sheets that are not hidden, in the order of the workbook."""
        return [sheet.title for sheet in self._sheets() if sheet.sheet_state == "visible"]

    @property
    def hidden_names(self) -> list[str]:
        """Returns the names of the sheets that are hidden."""
        return [sheet.title for sheet in self._sheets() if sheet.sheet_state != "visible"]

    def name_like(self, wanted: str) -> str | None:
        """Returns the name of the sheet that has this name in any case; None if there is none."""
        for sheet in self._sheets():
            if sheet.title.casefold() == wanted.casefold():
                return str(sheet.title)
        return None

    def _sheets(self) -> list[Any]:
        return [sheet for sheet in self._book.worksheets if hasattr(sheet, "iter_rows")]

    def is_too_large(self, name: str) -> bool:
        """Says whether a sheet has more in it than is read."""
        try:
            self._check_part(self._part(name))
        except InputError:
            return True
        return False

    def first_rows(self, name: str, count: int) -> list[GridRow]:
        """Returns the first rows of a sheet, without regard to merged cells and outlines."""
        self._check_part(self._part(name))
        return list(self._rows(name, count, _Shape(), []))

    def rows(self, name: str) -> SheetRows:
        """Returns the rows of a sheet that hold something."""
        self._check_part(self._part(name))
        shape = self._shape(self._part(name))
        losses: list[Loss] = []
        found = list(self._rows(name, MOST_ROWS, shape, losses))
        notes = []
        if shape.hidden:
            notes.append(f"{len(shape.hidden)} hidden rows of sheet {clip(name)!r} are read too")
        for place in shape.uncomputed:
            why = "the formula has no value: open the workbook in its program and save it"
            losses.append(Loss(LossKind.FIELD, f"cell {place}", "", "", "", why))
        return SheetRows(_filled_down(found, shape.merged), tuple(notes), tuple(losses))

    def _part(self, name: str) -> str:
        # openpyxl has no public name for it, and to read the relations again is no better
        return str(self._book[name]._worksheet_path)

    def _rows(self, name: str, most: int, shape: _Shape, losses: list[Loss]) -> Iterator[GridRow]:
        sheet = self._book[name]
        sheet.reset_dimensions()
        try:
            with warnings.catch_warnings():
                warnings.simplefilter("ignore")
                for cells in sheet.iter_rows(max_row=most):
                    row = _grid_row(cells, shape, losses)
                    if row is not None:
                        yield row
        except Exception as reason:  # as above: damaged sheets fail in many ways
            why = f"sheet {clip(name)!r} cannot be read: {_why(reason)}"
            raise InputError(f"{self._file}: {why}") from reason

    def _check_part(self, part: str) -> None:
        """Raises `InputError` if a part is too large or has a document type."""
        if part in self._checked:
            return
        try:
            info = self._archive.getinfo(part)
            if info.file_size > MOST_BYTES:
                raise InputError(f"{self._file}: {part} unpacks to more than {MOST_BYTES} bytes")
            data = self._archive.read(part)
        except (
            zipfile.BadZipFile,
            zlib.error,
            EOFError,
            KeyError,
            RuntimeError,
        ) as reason:
            raise InputError(f"{self._file}: {part} is damaged or cut off") from reason
        except (NotImplementedError, OSError, ValueError) as reason:
            raise InputError(f"{self._file}: {part} cannot be unpacked") from reason
        if b"<!DOCTYPE" in data or b"<!ENTITY" in data:
            raise InputError(f"{self._file}: {part} has a document type, which no workbook has")
        if data.count(b"</") + data.count(b"/>") > MOST_ELEMENTS:
            raise InputError(f"{self._file}: {part} has more than {MOST_ELEMENTS} elements")
        if data.count(b"<mergeCell ") > MOST_MERGED:
            raise InputError(f"{self._file}: {part} has more than {MOST_MERGED} merged ranges")
        if _LONG_FORMAT.search(data):
            raise InputError(
                f"{self._file}: {part} has a number format of more than 255 characters"
            )
        self._checked.add(part)

    def _shape(self, part: str) -> _Shape:
        shape = _ShapeReader(f"{self._file}: {part}")
        try:
            with self._archive.open(part) as stream:
                for _, element in defusedxml.ElementTree.iterparse(stream):
                    shape.take(element)
        except InputError:
            raise
        except Exception as reason:  # the XML parsers raise errors of several families
            raise InputError(f"{self._file}: {part} cannot be read: {_why(reason)}") from reason
        return shape.result()


class _ShapeReader:
    """Collects the shape of a sheet from its XML elements, as they end."""

    def __init__(self, where: str) -> None:
        self._where = where
        self._row = 0
        self._levels: dict[int, int] = {}
        self._hidden: list[int] = []
        self._merged: list[tuple[int, int, int]] = []
        self._merged_rows = 0
        self._uncomputed: list[str] = []

    def take(self, element: Any) -> None:
        """Takes one element."""
        if element.tag == _NAMESPACE + "row":
            self._take_row(element)
            element.clear()
        elif element.tag == _NAMESPACE + "mergeCell":
            self._take_merge(element.get("ref", ""))

    def result(self) -> _Shape:
        """Returns what was taken."""
        merged = tuple(self._merged)
        return _Shape(self._levels, tuple(self._hidden), merged, tuple(self._uncomputed))

    def _take_row(self, element: Any) -> None:
        self._row = _small(element.get("r", ""), self._row + 1)
        has_value = False
        for cell in element:
            value = cell.find(_NAMESPACE + "v")
            formula = cell.find(_NAMESPACE + "f")
            if formula is not None and (value is None or not value.text):
                self._uncomputed.append(clip(cell.get("r", "")))
            has_value = has_value or value is not None or cell.find(_NAMESPACE + "is") is not None
        if has_value and self._row > MOST_ROWS:
            raise InputError(f"{self._where} has more than {MOST_ROWS} rows")
        level = _small(element.get("outlineLevel", ""), 0)
        if level:
            self._levels[self._row] = level
        if has_value and element.get("hidden") in ("1", "true"):
            self._hidden.append(self._row)

    def _take_merge(self, reference: str) -> None:
        """Takes cells that are merged over several rows, within a bound; passes over the others."""
        left, top, _, bottom = range_boundaries(reference)
        if left is None or top is None or bottom is None or bottom <= top:
            return
        self._merged_rows += bottom - top
        if self._merged_rows < MOST_MERGED_ROWS:
            self._merged.append((top, bottom, left - 1))


def _is_sheet(part: str) -> bool:
    return part.startswith("xl/worksheets/") and part.endswith(".xml")


def _small(text: str, otherwise: int) -> int:
    """Returns a number of at most seven digits, and `otherwise` for any other text."""
    return int(text) if text.isascii() and text.isdigit() and len(text) <= 7 else otherwise


def _why(reason: Exception) -> str:
    """Returns an error of a library as one short line."""
    text = " ".join(str(reason).split())
    return clip(f"{type(reason).__name__}: {text}" if text else type(reason).__name__, 100)


def _grid_row(cells: Sequence[Any], shape: _Shape, losses: list[Loss]) -> GridRow | None:
    """Returns a row of openpyxl's cells; None if it holds nothing."""
    number = 0
    found: list[Cell] = []
    indents: dict[int, int] = {}
    bold = set()
    for at, cell in enumerate(cells[:MOST_COLUMNS]):
        value = _value(cell, losses)
        found.append(value)
        if value == "":
            continue
        number = cell.row
        if isinstance(value, str):
            if cell.font is not None and cell.font.bold:
                bold.add(at)
            if cell.alignment is not None and cell.alignment.indent:
                indents[at] = int(cell.alignment.indent)
    while found and found[-1] == "":
        found.pop()
    if not found:
        return None
    level = shape.levels.get(number, 0)
    return GridRow(number, tuple(found), indents, frozenset(bold), level)


def _value(cell: Any, losses: list[Loss]) -> Cell:
    """Returns what a cell holds; a cell with an error of its formula is a loss, and empty."""
    value = cell.value
    if value is None:
        return ""
    if isinstance(value, str):
        if cell.data_type == "e":
            where = f"cell {cell.coordinate}"
            why = "the formula gives an error; the cell is read as empty"
            losses.append(Loss(LossKind.FIELD, where, "", "", clip(value), why))
            return ""
        if len(value) > MOST_CELL_CHARACTERS:
            why = f"more than {MOST_CELL_CHARACTERS} characters; the cell is read as empty"
            losses.append(Loss(LossKind.FIELD, f"cell {cell.coordinate}", "", "", clip(value), why))
            return ""
        return value
    if isinstance(value, bool):
        return "yes" if value else "no"
    if isinstance(value, int | float):
        return _number(value, cell.number_format or "")
    return _time(value, cell.number_format or "")


def _time(value: Any, number_format: str) -> Cell:
    """Returns a date, or a time of day or a stretch of time in minutes.

    A stretch of a day or more (`[h]:mm`) comes as a date of 1900.
    """
    if isinstance(value, datetime):
        if not is_timedelta_format(number_format):
            return value.date()
        value = timedelta(days=to_excel(value))
    if isinstance(value, date):
        return value
    if isinstance(value, time):
        value = timedelta(hours=value.hour, minutes=value.minute, seconds=value.second)
    if isinstance(value, timedelta):
        return Measure(Decimal(round(value.total_seconds())) / 60, "minutes")
    return clip(str(value))


def _number(value: int | float, number_format: str) -> Cell:
    """Returns a number, with twelve digits so that the noise of binary fractions is off."""
    if not -_LARGEST_NUMBER < value < _LARGEST_NUMBER:
        return clip(f"{value:g}") if isinstance(value, float) else clip(str(value), 20)
    number = Decimal(f"{value:.12g}") if isinstance(value, float) else Decimal(value)
    number = Decimal(f"{number:f}")
    if "%" in number_format:
        return Share(number * 100)
    for word in _QUOTED.findall(number_format[:200]):
        unit = unit_of(word.strip())
        if unit is not None:
            return Measure(number, unit)
    return number


def _filled_down(
    rows: Sequence[GridRow], merged: Sequence[tuple[int, int, int]]
) -> tuple[GridRow, ...]:
    """Returns the rows, each with what the row above has in cells that are merged with it."""
    by_number = {row.number: at for at, row in enumerate(rows)}
    found = list(rows)
    for first, last, column in merged:
        if first not in by_number:
            continue
        top = rows[by_number[first]]
        if column >= len(top.cells):
            continue
        for number in range(first + 1, min(last, MOST_ROWS) + 1):
            at = by_number.get(number)
            if at is not None:
                extra = {**found[at].merged, column: top.cells[column]}
                found[at] = replace(found[at], merged=extra)
    return tuple(found)
