"""Writes earned value by structure, account, manager and scope, and over time: text and CSV."""

from collections.abc import Iterable, Iterator, Sequence

from pert_companion.analysis.earned_value import Figures, Scope
from pert_companion.analysis.performance import MEASURED, EarnedTime, Line
from pert_companion.analysis.time_phased import Month
from pert_companion.analysis.variances import Variance
from pert_companion.model.figures import NOTHING, ratio_cell, ratio_text
from pert_companion.model.lines import csv_bytes
from pert_companion.model.text_form import TextForm
from pert_companion.writers import earned_headings as headings
from pert_companion.writers.aligned import aligned
from pert_companion.writers.formula import plain_text

_FIGURES = (*headings.FIGURES, headings.LATEST.upper())
_PERIOD = (*headings.PERFORMANCE, *headings.RATIOS)
CSV_HEADINGS = (
    *(*headings.LINE, *headings.FIGURES),
    *("EAC as planned", "EAC by CPI and SPI", headings.LATEST, headings.LATEST_VARIANCE),
    *(f"Period {name}" for name in _PERIOD),
    *headings.TIMES,
)
"""The headings of a line as CSV."""


def to_text(lines: Sequence[Line], heading: str, form: TextForm) -> str:
    """Returns a row for each line, and a second table of the period if a state came before."""
    texts = [heading]
    rows = [_row(line, figure_cells(line, form)) for line in lines]
    texts.extend(_table(_FIGURES, rows))
    texts.extend(_time_lines(lines, form))
    since = [line for line in lines if line.period is not None]
    if since:
        texts.append("SINCE THE STATE BEFORE")
        rows = [_row(line, period_cells(line.period, form)) for line in since]
        texts.extend(_table(_PERIOD, rows))
    return "".join(f"{text}\n" for text in texts)


def _table(names: Sequence[str], rows: Iterable[Sequence[str]]) -> list[str]:
    return aligned(("CODE", *names, "TITLE"), rows, "l" + "r" * len(names) + "l")


def _time_lines(lines: Iterable[Line], form: TextForm) -> Iterator[str]:
    """Yields the earned schedule of each total, with the numbers that its ratio divides."""
    for line in lines:
        if line.time is not None:
            spi = ratio_text(line.time.spi)
            times = (line.time.earned, line.time.actual)
            days = [form.number(ratio_text(time, 2)) for time in times]
            yield (
                f"SPI(t) {spi} = earned schedule {days[0]} days / actual time {days[1]}"
                f" days: {line.title or line.code}"
            )


def time_cells(time: EarnedTime | None) -> list[str]:
    """Returns earned schedule, actual time, SV(t) and SPI(t) as texts; all empty without them."""
    if time is None:
        return [""] * 4
    days = (time.earned, time.actual, time.variance)
    return [*(ratio_text(each, 2) for each in days), ratio_cell(time.spi)]


def _row(line: Line, cells: Iterable[str]) -> tuple[str, ...]:
    shown = [cell or NOTHING for cell in cells]
    return (line.code or NOTHING, *shown, _title(line))


def _title(line: Line) -> str:
    """Returns the title of a line, with its scope if that is neither work nor all."""
    if line.scope in (Scope.WORK.value, MEASURED, line.title):
        return line.title
    return f"{line.title} ({line.scope})"


def figure_cells(line: Line, form: TextForm) -> list[str]:
    """Returns the figures of a line as texts, in the order of the headings; unknown is empty."""
    figures = line.figures
    return [
        *(form.money(amount) for amount in figures.amounts()),
        ratio_cell(figures.spi),
        ratio_cell(figures.cpi),
        form.money_cell(figures.eac_by_cpi),
        form.money_cell(figures.vac),
        ratio_cell(figures.tcpi),
        form.money_cell(line.latest),
    ]


def period_cells(period: Figures | None, form: TextForm) -> list[str]:
    """Returns the figures since the previous state as texts; all empty without one."""
    if period is None:
        return [""] * len(_PERIOD)
    amounts = (form.money(amount) for amount in period.performance())
    return [*amounts, ratio_cell(period.spi), ratio_cell(period.cpi)]


def to_csv(lines: Iterable[Line], scale: int) -> bytes:
    """Returns a row for each line with all figures as CSV in UTF-8; what is unknown is empty."""
    return csv_bytes([CSV_HEADINGS, *csv_rows(lines, scale)])


def csv_rows(lines: Iterable[Line], scale: int) -> Iterator[list[str]]:
    """Yields the cells of each line, in the order of `CSV_HEADINGS`."""
    form = TextForm(money_scale=scale)
    for line in lines:
        cells = figure_cells(line, form)
        yield [
            plain_text(line.code),
            plain_text(line.title),
            str(line.level or ""),
            plain_text(line.manager),
            line.scope,
            *cells[:-1],
            form.money(line.figures.eac_by_plan),
            form.money_cell(line.figures.eac_by_both),
            cells[-1],
            form.money_cell(line.variance_at_completion),
            *period_cells(line.period, form),
            *time_cells(line.time),
        ]


def months_to_text(months: Sequence[Month], heading: str, form: TextForm) -> str:
    """Returns a row for each account and month, cumulative; `-` where nothing is known.

    What was reported by an older baseline is shown where there is any.
    """
    has_older = any(month.reported_ev is not None for month in months)
    names = [name.upper() for name in headings.MONTHS][: None if has_older else 5]
    rows = []
    for row in month_rows(months, form):
        rows.append([cell or NOTHING for cell in row[: len(names)]])
    texts = [heading, *aligned(names, rows, "ll" + "r" * (len(names) - 2))]
    return "".join(f"{text}\n" for text in texts)


def months_to_csv(months: Iterable[Month], scale: int) -> bytes:
    """Returns a row for each account and month, cumulative; what is unknown is empty."""
    return csv_bytes([headings.MONTHS, *month_rows(months, TextForm(money_scale=scale))])


def month_rows(months: Iterable[Month], form: TextForm) -> Iterator[list[str]]:
    """Yields the cells of each account and month, in the order of `MONTHS`."""
    for month in months:
        amounts = (month.pv, month.ev, month.ac, month.reported_pv, month.reported_ev)
        texts = [form.money_cell(amount) for amount in amounts]
        yield [plain_text(month.account), str(month.close), *texts]


def variances_to_text(variances: Sequence[Variance], heading: str, form: TextForm) -> str:
    """Returns a row for each variance, with its explanation or what is missing."""
    rows = []
    for each, cells in zip(variances, _variance_rows(variances, form)):
        said = each.explanation
        why = "not explained" if said is None else said.cause
        rows.append((each.code, each.figure, *cells[4:6], why, each.title))
    names = ("CODE", "FIGURE", "AMOUNT", "PERCENT", "CAUSE", "TITLE")
    lines = [heading, *aligned(names, rows, "llrrll")]
    missing = sum(each.explanation is None for each in variances)
    if missing:
        lines.append(f"{missing} of {len(variances)} without a row in explanations.csv")
    return "".join(f"{line}\n" for line in lines)


def variances_to_csv(variances: Sequence[Variance], scale: int) -> bytes:
    """Returns a row for each variance as CSV in UTF-8."""
    rows = _variance_rows(variances, TextForm(money_scale=scale))
    return csv_bytes([headings.VARIANCES, *rows])


def _variance_rows(variances: Iterable[Variance], form: TextForm) -> Iterator[list[str]]:
    for each in variances:
        said = each.explanation
        texts = ("", "") if said is None else (said.cause, said.action)
        names = (each.code, each.title, each.manager)
        yield [
            *map(plain_text, names),
            each.figure,
            form.money(each.amount),
            ratio_cell(each.percent, 1),
            *map(plain_text, texts),
        ]
