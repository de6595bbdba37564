"""Writes earned value by package, each ratio next to the numbers that it divides."""

from collections.abc import Iterator

from pert_companion.analysis.earned_value import EarnedValue, Package, Scope
from pert_companion.model.figures import money_cell, money_text, ratio_cell, ratio_text
from pert_companion.model.lines import csv_bytes
from pert_companion.model.text_form import PLAIN, TextForm
from pert_companion.writers.aligned import aligned
from pert_companion.writers.earned_headings import AMOUNTS, RATIOS
from pert_companion.writers.formula import plain_text

HEADINGS = ("PACKAGE", "BAC", "PV", "EV", "AC", "SPI", "CPI", "TITLE")
CSV_HEADINGS = (
    *("Package", "Title", "Scope", "Technique", "Manager"),
    *(*AMOUNTS, *RATIOS),
    *("EAC", "EAC as planned", "EAC by CPI and SPI", "VAC", "TCPI", "SPI(t)"),
)


def to_text(
    earned: EarnedValue,
    heading: str,
    day_minutes: int,
    value: int,
    form: TextForm = PLAIN,
) -> str:
    """Returns a row for each package, the total, its ratios and forecasts, and the notes.

    `heading` is the first line. `value` is VALUE of `pert value`.
    """
    lines = [heading]
    lines.extend(aligned(HEADINGS, _rows(earned, form), "lrrrrrrl"))
    lines.extend(_scopes(earned, form))
    lines.extend(_ratios(earned, day_minutes, form))
    lines.append(
        f"VALUE {form.money(value)} of pert value follows spending until a package is"
        " finished: it is not EV"
    )
    lines.extend(f"note: {note}" for note in earned.notes)
    return "".join(f"{line}\n" for line in lines)


def _rows(earned: EarnedValue, form: TextForm) -> Iterator[tuple[str, ...]]:
    for package in earned.packages:
        if package.scope not in (Scope.UNDISTRIBUTED, Scope.RESERVE):
            yield _row(package, form)
    yield _row(Package("TOTAL", "", earned.total), form)


def _row(package: Package, form: TextForm) -> tuple[str, ...]:
    figures = package.figures
    spent = form.money(figures.ac)
    if not package.is_measured:
        return package.code, "-", "-", "-", spent, "-", "-", package.title
    amounts = (form.money(amount) for amount in (figures.bac, figures.pv, figures.ev))
    ratios = ratio_text(figures.spi), ratio_text(figures.cpi)
    return (package.code, *amounts, spent, *ratios, package.title)


def _scopes(earned: EarnedValue, form: TextForm) -> Iterator[str]:
    """Yields what the total is made of, and the budgets that are not in it, where there are any."""
    effort = earned.of(Scope.EFFORT)
    if effort.bac:
        yield (
            f"of it level of effort: BAC {form.money(effort.bac)}, PV = EV"
            f" {form.money(effort.ev)}, AC {form.money(effort.ac)}"
        )
    undistributed, reserve = (
        earned.of(Scope.UNDISTRIBUTED).bac,
        earned.of(Scope.RESERVE).bac,
    )
    if undistributed or reserve or earned.changed:
        baseline = form.money(earned.baseline_budget)
        changes = ""
        if earned.changed:
            changes = f" + changes {form.money(earned.changed)} that its plan has not"
        yield (
            f"BASELINE {baseline} = BAC {form.money(earned.total.bac)} + undistributed"
            f" {form.money(undistributed)}{changes}; reserve {form.money(reserve)} is"
            " apart"
        )


def _ratios(earned: EarnedValue, day_minutes: int, form: TextForm) -> Iterator[str]:
    """Yields the ratios and forecasts with the numbers of the total that they are made of."""
    total = earned.total
    bac, pv, ev, ac = (form.money(amount) for amount in (total.bac, total.pv, total.ev, total.ac))
    yield f"SPI {ratio_text(total.spi)} = EV {ev} / PV {pv}"
    yield f"CPI {ratio_text(total.cpi)} = EV {ev} / AC {ac}"
    unit = earned.unit_minutes
    times = [
        form.number(ratio_text(time * unit / day_minutes, 2))
        for time in (
            earned.earned_schedule,
            earned.actual_time,
            earned.schedule_variance,
        )
    ]
    yield (
        f"SPI(t) {ratio_text(earned.spi_of_time)} = earned schedule {times[0]} days / actual time"
        f" {times[1]} days; SV(t) {times[2]} days"
    )
    planned = form.money(total.eac_by_plan)
    yield f"EAC {planned} = AC {ac} + (BAC {bac} - EV {ev}): the rest as planned"
    yield (
        f"EAC {form.money(total.eac_by_cpi)} = BAC {bac} x AC {ac} / EV {ev}: the rest at"
        " the CPI so far"
    )
    yield (
        f"EAC {form.money(total.eac_by_both)} = AC {ac} + (BAC {bac} - EV {ev}) / (CPI x"
        " SPI): cost and time as so far"
    )
    yield f"TCPI {ratio_text(total.tcpi)} = (BAC {bac} - EV {ev}) / (BAC {bac} - AC {ac})"


def to_csv(earned: EarnedValue, scale: int = 1) -> bytes:
    """Returns a row for each package and the total as CSV in UTF-8; what is unknown is empty."""
    rows = [[*_csv_cells(package, scale), ""] for package in earned.packages]
    total = Package("TOTAL", "", earned.total)
    rows.append([*_csv_cells(total, scale), ratio_cell(earned.spi_of_time)])
    return csv_bytes([CSV_HEADINGS, *rows])


def _csv_cells(package: Package, scale: int) -> Iterator[str]:
    figures = package.figures
    yield from (
        plain_text(package.code),
        plain_text(package.title),
        package.scope.value,
    )
    yield from (package.technique.value, plain_text(package.manager))
    if package.scope is Scope.UNMEASURED:
        yield from ("", "", "", money_text(figures.ac, scale), *[""] * 9)
        return
    for amount in figures.amounts():
        yield money_text(amount, scale)
    yield from (ratio_cell(figures.spi), ratio_cell(figures.cpi))
    for forecast in (
        figures.eac_by_cpi,
        figures.eac_by_plan,
        figures.eac_by_both,
        figures.vac,
    ):
        yield money_cell(forecast, scale)
    yield ratio_cell(figures.tcpi)
