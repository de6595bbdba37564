"""Writes formats 1, 3 and 5 of the contract performance report as a workbook.

The formats are those of the data item description DI-MGMT-81466A of the US Department of Defense:
format 1 has performance by the work breakdown structure, format 3 the baseline over time, format 5
the explanations of variances. Columns have the names of that description; BCWS, BCWP and ACWP are
PV, EV and AC. Amounts are numbers in the currency.
"""

import io
from collections.abc import Container, Iterable, Iterator, Mapping, Sequence
from dataclasses import dataclass
from datetime import date, timedelta
from decimal import Decimal

from openpyxl import Workbook

from pert_companion.analysis.earned_value import Scope
from pert_companion.analysis.performance import MEASURED, Line, Performance
from pert_companion.analysis.time_phased import Month, end_of_month
from pert_companion.analysis.variances import Variance
from pert_companion.model.registers import BudgetChange
from pert_companion.writers.earned_headings import VARIANCES
from pert_companion.writers.performance_xlsx import performance_cells
from pert_companion.writers.sheets import (
    CellValue,
    amount_cells,
    in_currency,
    new_sheet,
    put_row,
)

FORECAST_MONTHS = 6
_ONE_DAY = timedelta(days=1)
_APART = (
    ("Undistributed budget", Scope.UNDISTRIBUTED),
    ("Management reserve", Scope.RESERVE),
)
_PARTS = ("BCWS", "BCWP", "ACWP", "SV", "CV")


@dataclass(frozen=True)
class ContractReport:
    """What the formats show."""

    contract: str
    data_date: date
    performance: Performance
    months: Sequence[Month]
    variances: Sequence[Variance]
    changes: Sequence[BudgetChange]
    """Those of the report period."""
    money_scale: int
    currency: str


def to_xlsx(report: ContractReport) -> bytes:
    """Returns the workbook with a sheet for each format."""
    book = Workbook()
    book.remove(book.active)
    _format_1(book, report)
    _format_3(book, report)
    _format_5(book, report)
    data = io.BytesIO()
    book.save(data)
    return data.getvalue()


def _format_1(book: Workbook, report: ContractReport) -> None:
    """Adds the work breakdown structure, then undistributed budget, baseline, reserve, total."""
    headings = (
        ("Item", "Title", *(f"Current {part}" for part in _PARTS))
        + tuple(f"Cumulative {part}" for part in _PARTS)
        + (
            "Budgeted at completion",
            "Estimated at completion",
            "Variance at completion",
        )
    )
    sheet = new_sheet(book, "Format 1", headings)
    row = 2
    for line in report.performance.structure:
        put_row(sheet, row, (line.code, line.title, *_cells(line, report.money_scale)))
        row += 1
    for cells in _baseline_rows(report):
        put_row(sheet, row, cells)
        row += 1


def _cells(line: Line, scale: int) -> Iterator[CellValue]:
    yield from performance_cells(line.period, scale)
    yield from performance_cells(line.figures, scale)
    yield from amount_cells((line.figures.bac, line.latest, line.variance_at_completion), scale)


def _baseline_rows(report: ContractReport) -> Iterator[Sequence[CellValue]]:
    """Yields the budgets that are no work: each line says what it is the sum of."""
    earned, scale = report.performance.earned, report.money_scale
    blank: list[CellValue] = [None] * (2 * len(_PARTS))
    undistributed, reserve = (
        earned.of(Scope.UNDISTRIBUTED).bac,
        earned.of(Scope.RESERVE).bac,
    )
    yield "", "Undistributed budget", *blank, in_currency(undistributed, scale)
    if earned.changed:
        yield "", "Changes not in the plan yet", *blank, in_currency(earned.changed, scale)
    yield "", "Performance measurement baseline", *blank, in_currency(earned.baseline_budget, scale)
    yield "", "Management reserve", *blank, in_currency(reserve, scale)
    yield "", "Total", *blank, in_currency(earned.baseline_budget + reserve, scale)


def _format_3(book: Workbook, report: ContractReport) -> None:
    """Adds the time-phased baseline: to date, the next six months, and what is after them."""
    totals = _by_close(report.months)
    closes = _next_closes(report.data_date)
    scale, earned = report.money_scale, report.performance.earned
    columns = (
        "BCWS to date",
        "BCWS in the period",
        *(str(close) for close in closes),
        "Later",
    )
    sheet = new_sheet(book, "Format 3", ("Item", *columns, "Total budget"))
    amounts: list[int | None] = [earned.total.pv, _period_pv(report)]
    before = earned.total.pv
    for close in closes:
        planned = _planned_at(totals, close, before)
        amounts.append(planned - before)
        before = planned
    amounts += [earned.total.bac - before, earned.total.bac]
    blank: list[CellValue] = [None] * len(columns)
    outside = {"", Scope.RESERVE.value}
    outside.update(each.code for each in earned.packages if each.scope is Scope.RESERVE)
    changed = sum((_signed(change, outside) for change in report.changes), Decimal(0))
    put_row(sheet, 2, ("Changes of the baseline in the period", *blank, changed))
    cells = amount_cells(amounts, scale)
    put_row(sheet, 3, ("Baseline at the end of the period", *cells))
    for row, (name, scope) in enumerate(_APART, 4):
        put_row(sheet, row, (name, *blank, in_currency(earned.of(scope).bac, scale)))


def _signed(change: BudgetChange, outside: Container[str]) -> Decimal:
    """Returns what a change adds to the baseline; `outside` are reserve and other projects."""
    added = change.amount if change.source in outside else Decimal(0)
    return added - (change.amount if change.target in outside else Decimal(0))


def _period_pv(report: ContractReport) -> int | None:
    for line in report.performance.totals:
        if line.period is not None and line.scope == MEASURED:
            return line.period.pv
    return None


def _by_close(months: Iterable[Month]) -> dict[date, int]:
    found: dict[date, int] = {}
    for month in months:
        found[month.close] = found.get(month.close, 0) + month.pv
    return found


def _next_closes(data_date: date) -> list[date]:
    """Returns the ends of the next six months after a data date."""
    closes: list[date] = []
    close = data_date
    while len(closes) < FORECAST_MONTHS:
        close = end_of_month(close + _ONE_DAY)
        closes.append(close)
    return closes


def _planned_at(totals: Mapping[date, int], close: date, otherwise: int) -> int:
    """Returns what is planned by a close; after the last month of the baseline it stays."""
    known = [day for day in totals if day <= close]
    return max(otherwise, totals[max(known)]) if known else otherwise


def _format_5(book: Workbook, report: ContractReport) -> None:
    """Adds a row for each variance over the threshold, with its explanation or a blank for it."""
    sheet = new_sheet(book, "Format 5", ("Item", *VARIANCES[1:]))
    for row, each in enumerate(report.variances, 2):
        percent = None if each.percent is None else Decimal(round(each.percent * 10)) / 10
        said = each.explanation
        texts = ("", "") if said is None else (said.cause, said.action)
        amount = in_currency(each.amount, report.money_scale)
        cells = (
            each.code,
            each.title,
            each.manager,
            each.figure,
            amount,
            percent,
            *texts,
        )
        put_row(sheet, row, cells)
