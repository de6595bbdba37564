"""Writes earned value as a workbook: by structure, by account, by manager, over time, changes.

Amounts are numbers in the currency, ratios numbers, unknown figures empty cells. Charts are the
spreadsheet's own.
"""

import io
from collections.abc import Iterable, Iterator, Sequence
from dataclasses import dataclass
from datetime import date
from decimal import Decimal
from fractions import Fraction

from openpyxl import Workbook
from openpyxl.chart import BarChart, LineChart, Reference
from openpyxl.chart.series import SeriesLabel
from openpyxl.worksheet.worksheet import Worksheet

from pert_companion.analysis.earned_value import Figures
from pert_companion.analysis.performance import Line, Performance
from pert_companion.analysis.time_phased import Month
from pert_companion.model.registers import BudgetChange
from pert_companion.writers import earned_headings as headings
from pert_companion.writers.sheets import CellValue, amount_cells, new_sheet, put_row

HEADINGS = (
    *(*headings.LINE, *headings.FIGURES),
    *(headings.LATEST, headings.LATEST_VARIANCE),
    *(f"Period {name}" for name in headings.PERFORMANCE),
    *headings.TIMES,
)
"""The headings of a line."""
_CHART_COLUMNS = (7, 8, 9)
"""PV, EV and AC among the columns, from 1."""


@dataclass(frozen=True)
class PerformanceBook:
    """What a workbook of earned value shows."""

    performance: Performance
    months: Sequence[Month]
    changes: Sequence[BudgetChange]
    money_scale: int


def to_xlsx(content: PerformanceBook) -> bytes:
    """Returns the workbook."""
    book = Workbook()
    book.remove(book.active)
    found, scale = content.performance, content.money_scale
    add_performance(book, found, scale)
    if found.managers:
        _lines_sheet(book, "By manager", found.managers, scale)
    _months_sheet(book, content.months, scale)
    _changes_sheet(book, content.changes)
    data = io.BytesIO()
    book.save(data)
    return data.getvalue()


def add_performance(book: Workbook, found: Performance, scale: int) -> None:
    """Adds the sheets of earned value by structure and by account."""
    _lines_sheet(book, "Earned value", (*found.structure, *found.totals), scale)
    sheet = _lines_sheet(book, "By account", found.accounts, scale)
    _add_bars(sheet, len(found.accounts))


def _ratio(ratio: Fraction | None) -> Decimal | None:
    return None if ratio is None else Decimal(round(ratio * 1000)) / 1000


def line_cells(line: Line, scale: int) -> Iterator[CellValue]:
    """Yields the cells of a line, in the order of the headings."""
    figures = line.figures
    yield from (line.code, line.title, line.level or None, line.manager, line.scope)
    yield from amount_cells(figures.amounts(), scale)
    yield from (_ratio(figures.spi), _ratio(figures.cpi))
    yield from amount_cells((figures.eac_by_cpi, figures.vac), scale)
    yield _ratio(figures.tcpi)
    yield from amount_cells((line.latest, line.variance_at_completion), scale)
    yield from performance_cells(line.period, scale)
    if line.time is not None:
        time = line.time
        for ratio in (time.earned, time.actual, time.variance, time.spi):
            yield _ratio(ratio)


def performance_cells(figures: Figures | None, scale: int) -> list[CellValue]:
    """Returns PV, EV, AC, SV and CV in the currency; all None without figures."""
    if figures is None:
        return [None] * len(headings.PERFORMANCE)
    return amount_cells(figures.performance(), scale)


def _lines_sheet(book: Workbook, title: str, lines: Iterable[Line], scale: int) -> Worksheet:
    sheet = new_sheet(book, title, HEADINGS)
    for row, line in enumerate(lines, 2):
        put_row(sheet, row, line_cells(line, scale))
    return sheet


def _add_bars(sheet: Worksheet, count: int) -> None:
    """Adds a chart of PV, EV and AC by account."""
    if not count:
        return
    chart = BarChart()
    chart.title = "PV, EV and AC by account"
    for column in _CHART_COLUMNS:
        data = Reference(sheet, min_col=column, min_row=1, max_row=count + 1)
        chart.add_data(data, titles_from_data=True)
    chart.set_categories(Reference(sheet, min_col=1, min_row=2, max_row=count + 1))
    _show_axes(chart)
    sheet.add_chart(chart, f"B{count + 4}")


def _show_axes(chart: BarChart | LineChart) -> None:
    chart.x_axis.delete = False
    chart.y_axis.delete = False


def _months_sheet(book: Workbook, months: Sequence[Month], scale: int) -> None:
    """Adds a row for each account and month, and the totals that the chart shows."""
    sheet = new_sheet(book, "Time-phased", headings.MONTHS)
    row = 2
    for month in months:
        listed = (month.pv, month.ev, month.ac, month.reported_pv, month.reported_ev)
        put_row(sheet, row, (month.account, month.close, *amount_cells(listed, scale)))
        row += 1
    totals = list(_totals(months))
    first = row
    for close, pv, ev, ac in totals:
        put_row(sheet, row, ("TOTAL", close, *amount_cells((pv, ev, ac), scale)))
        row += 1
    if totals:
        _add_lines(sheet, first, row - 1)


def _totals(
    months: Iterable[Month],
) -> Iterator[tuple[date, int, int | None, int | None]]:
    """Yields the sums of all accounts by close; None where one is not known."""
    by_close: dict[date, list[Month]] = {}
    for month in months:
        by_close.setdefault(month.close, []).append(month)
    for close, held in by_close.items():
        pv = sum(month.pv for month in held)
        ev = _sum(month.ev for month in held)
        ac = _sum(month.ac for month in held)
        yield close, pv, ev, ac


def _sum(amounts: Iterable[int | None]) -> int | None:
    listed = list(amounts)
    known = [amount for amount in listed if amount is not None]
    return sum(known) if len(known) == len(listed) else None


def _add_lines(sheet: Worksheet, first: int, last: int) -> None:
    chart = LineChart()
    chart.title = "PV, EV and AC at the close of each month"
    for column, title in ((3, "PV"), (4, "EV"), (5, "AC")):
        data = Reference(sheet, min_col=column, min_row=first, max_row=last)
        chart.add_data(data)
        chart.series[-1].tx = SeriesLabel(v=title)
    chart.set_categories(Reference(sheet, min_col=2, min_row=first, max_row=last))
    _show_axes(chart)
    sheet.add_chart(chart, "I2")


def _changes_sheet(book: Workbook, changes: Iterable[BudgetChange]) -> None:
    sheet = new_sheet(book, "Changes", ("Date", "From", "To", "Amount", "Reason", "Approved by"))
    for row, change in enumerate(changes, 2):
        places = (change.source or "outside", change.target or "outside")
        cells = (change.day, *places, change.amount, change.reason, change.approved)
        put_row(sheet, row, cells)
