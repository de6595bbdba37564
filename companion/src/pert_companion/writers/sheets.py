"""The cells of workbooks: numbers and dates as such, and texts that stay texts."""

from collections.abc import Iterable, Sequence
from datetime import date
from decimal import Decimal
from fractions import Fraction

from openpyxl import Workbook
from openpyxl.cell.cell import Cell
from openpyxl.styles import Font
from openpyxl.utils import get_column_letter
from openpyxl.worksheet.worksheet import Worksheet

from pert_companion.model.lines import xml_text

CellValue = str | int | Decimal | date | None
MOST_TEXT = 32_767
"""The characters that a cell may have."""
_WIDE = 40
_WIDE_HEADINGS = (
    "Name",
    "Title",
    "Outline",
    "Reason",
    "Cause",
    "Action",
    "Figure",
    "Effect",
)


def in_currency(amount: int | Fraction | None, scale: int) -> Decimal | int | None:
    """Returns an amount of the deck in the currency, with cents if the deck has them.

    `scale` is how many units of money of the deck one of the currency is.
    """
    if amount is None:
        return None
    exact = Fraction(round(amount), scale)
    return int(exact) if exact.denominator == 1 else Decimal(exact.numerator) / exact.denominator


def amount_cells(amounts: Iterable[int | Fraction | None], scale: int) -> list[CellValue]:
    """Returns amounts of the deck in the currency."""
    return [in_currency(amount, scale) for amount in amounts]


def new_sheet(book: Workbook, title: str, headings: Sequence[str]) -> Worksheet:
    """Returns a new sheet with a frozen row of headings."""
    sheet = book.create_sheet(title)
    for column, heading in enumerate(headings, 1):
        cell = sheet.cell(1, column, heading)
        cell.font = Font(bold=True)
        width = _WIDE if heading in _WIDE_HEADINGS else max(12, len(heading) + 2)
        sheet.column_dimensions[get_column_letter(column)].width = width
    sheet.freeze_panes = "A2"
    return sheet


def put_row(sheet: Worksheet, row: int, values: Iterable[CellValue]) -> None:
    """Writes the values of a row, each with its own type; None stays empty."""
    for column, value in enumerate(values, 1):
        if value is not None:
            _put(sheet.cell(row, column), value)


def _put(cell: Cell, value: CellValue) -> None:
    """Writes a value with its own type."""
    if isinstance(value, str):
        text = xml_text(value)[:MOST_TEXT]
        cell.value = text
        cell.data_type = "s"
        cell.quotePrefix = text.startswith(("=", "+", "-", "@"))
    elif isinstance(value, date):
        cell.value = value
        cell.number_format = "yyyy-mm-dd"
    else:
        cell.value = value
