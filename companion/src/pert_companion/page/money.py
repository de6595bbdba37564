"""The sections of money: cost by item, and earned value."""

from collections.abc import Iterator
from dataclasses import dataclass, replace
from datetime import date
from fractions import Fraction
from itertools import chain

from pert_companion.analysis.earned_value import EarnedValue, Figures, Scope
from pert_companion.analysis.measured import packages_apart
from pert_companion.analysis.money import ONE_DAY, MoneyPoint
from pert_companion.model import figures
from pert_companion.page import charts
from pert_companion.page.chooser import box_points
from pert_companion.page.gathering import Gathered, item_amounts
from pert_companion.page.load import LoadView, load_view
from pert_companion.page.view import (
    Chart,
    Dot,
    Line,
    Row,
    Series,
    Table,
    Tick,
    plain,
    title,
)
from pert_companion.page.words import Words, shown

MONEY_HEIGHT = 220


@dataclass(frozen=True)
class Money:
    """The tables and charts of all amounts; None where the deck does not have them."""

    earned: Table | None
    apart: Table | None
    """The packages without tasks."""
    forecasts: tuple[tuple[str, str], ...]
    notes: tuple[str, ...]
    """What is said of earned value."""
    chart: Chart | None
    summary: Table | None
    load: LoadView | None


def money(gathered: Gathered, words: Words) -> Money:
    """Returns what the page shows of money."""
    earned = gathered.earned
    return Money(
        earned=earned_table(gathered, words),
        apart=apart_table(gathered, words),
        forecasts=() if earned is None else earned_forecasts(earned, words),
        notes=() if earned is None else tuple(map(shown, earned.notes[:20])),
        chart=money_chart(gathered, words),
        summary=summary_table(gathered, words),
        load=load_view(gathered, words),
    )


def item_names(gathered: Gathered) -> dict[str, str]:
    """Returns the titles of items by code."""
    return {item.code: item.title for item in gathered.state.deck.items}


def item_name(code: str, names: dict[str, str]) -> Line:
    """Returns the code and the title of an item."""
    text = shown(names.get(code, ""))
    return (*plain(f"{code} "), *title(text)) if text else plain(code)


def summary_table(gathered: Gathered, words: Words) -> Table | None:
    """Returns the cost by item, or None without accounts."""
    summary = item_amounts(gathered.state)
    if summary is None:
        return None
    names = item_names(gathered)
    rows = []
    for code, row in summary.items():
        amounts = (row.budget, row.actual, row.to_go, row.latest, row.overrun)
        cells = tuple(plain(words.digits(amount)) for amount in amounts)
        rows.append(Row(item_name(code, names), cells, row.level - 1, row.level == 1))
    heads = ("Item", "Budget", "Spent", "To go", "Latest estimate", "Over budget")
    return Table("Cost by item", heads, tuple(rows))


def earned_table(gathered: Gathered, words: Words) -> Table | None:
    """Returns the earned value by package, or None without status."""
    earned = gathered.earned
    if earned is None:
        return None
    rows = []
    for package in earned.packages:
        if package.is_measured:
            name = item_name(package.code, {package.code: package.title})
            rows.append(Row(name, tuple(_earned_cells(package.figures, words))))
    cells = tuple(_earned_cells(earned.total, words))
    rows.append(Row(plain("All measured packages"), cells, is_sum=True))
    heads = ("Package", "Planned (PV)", "Earned (EV)", "Spent (AC)", "CPI", "SPI", "CV")
    return Table("Earned value by package", heads, tuple(rows))


def _earned_cells(of: Figures, words: Words) -> Iterator[Line]:
    for amount in (of.pv, of.ev, of.ac):
        yield plain(words.digits(amount))
    yield plain(ratio_text(of.cpi))
    yield plain(ratio_text(of.spi))
    yield plain(words.digits(of.ev - of.ac))


def ratio_text(ratio: Fraction | None) -> str:
    """Returns a ratio with two digits, or a dash."""
    return "\u2013" if ratio is None else figures.ratio_text(ratio, 2)


def earned_forecasts(earned: EarnedValue, words: Words) -> tuple[tuple[str, str], ...]:
    """Returns what the ratios say about the end, as names and texts."""
    total, money = earned.total, words.money
    found = [("Budget at completion (BAC)", money(round(total.bac)))]
    for name, amount in (
        ("EAC at planned cost", total.eac_by_plan),
        ("EAC at the CPI so far", total.eac_by_cpi),
        ("EAC at CPI and SPI so far", total.eac_by_both),
    ):
        found.append((name, "\u2013" if amount is None else money(round(amount))))
    found.append(("TCPI", ratio_text(total.tcpi)))
    measure = words.measure
    tenths = round(earned.schedule_variance * 10 * measure.unit_minutes / measure.day_minutes)
    sign = "\u2212" if tenths < 0 else ""
    text = f"{sign}{abs(tenths) // 10}.{abs(tenths) % 10} {words.day}s"
    found.append(("SV(t)", text))
    found.append(("SPI(t)", ratio_text(earned.spi_of_time)))
    return (*found, *budgets_apart(earned, words))


def budgets_apart(earned: EarnedValue, words: Words) -> Iterator[tuple[str, str]]:
    """Yields what the total is made of, and the budgets that are not in it, where there are any."""
    effort = earned.of(Scope.EFFORT)
    if effort.bac:
        yield "Level of effort", words.money(effort.bac)
    undistributed = earned.of(Scope.UNDISTRIBUTED).bac
    if undistributed:
        yield "Undistributed budget", words.money(undistributed)
    if earned.changed:
        yield "Changes since the baseline", words.money(earned.changed)
    if undistributed or earned.changed:
        yield "Performance measurement baseline", words.money(earned.baseline_budget)
    reserve = earned.of(Scope.RESERVE).bac
    if reserve:
        yield "Management reserve", words.money(reserve)


def money_chart(gathered: Gathered, words: Words) -> Chart | None:
    """Returns planned, earned, spent and forecast money of measured packages over time."""
    money = gathered.money
    if money is None:
        return None
    lines = [
        ("planned", "planned (PV)", money.planned),
        ("earned", "earned (EV)", money.earned),
        ("spent", "spent (AC)", money.spent),
        ("forecast", "to the latest estimate", money.forecast),
    ]
    points = list(chain.from_iterable(line for _, _, line in lines))
    first = min(point.day for point in points)
    x = charts.Scale(0, max(1, max((point.day - first).days for point in points)))
    scale, ticks = charts.round_scale(0, max(point.amount for point in points))
    scaled = replace(words, money_scale=money.money_scale)
    texts = [scaled.digits(tick) for tick in ticks]
    now = x.share((gathered.state.as_of - ONE_DAY - first).days)
    dots = [_dot("spent", point, first, x, scale) for point in money.spent]
    dots += [_dot("earned", point, first, x, scale) for point in money.earned[1:]]
    return Chart(
        "Planned, earned and spent money of the packages whose work is measured",
        MONEY_HEIGHT,
        charts.margin_for(texts),
        tuple(_day_ticks(first, x)),
        charts.y_axis(MONEY_HEIGHT, texts),
        tuple(_series(name, label, line, first, (x, scale)) for name, label, line in lines),
        tuple(dots),
        verticals=(Tick(charts.percent(now, 1), "as of", charts.anchor(now)),),
        x_label="a point is a charge, or a state of the project",
    )


def apart_table(gathered: Gathered, words: Words) -> Table | None:
    """Returns the packages without tasks, whose work has no measure, or None if there are none."""
    if gathered.earned is None:
        return None
    rows = []
    for package in packages_apart(gathered.state, gathered.earned):
        name = item_name(package.code, {package.code: package.title})
        amounts = (package.budget, package.spent, package.latest)
        rows.append(Row(name, tuple(plain(words.digits(amount)) for amount in amounts)))
    heads = ("Package", "Budget", "Spent", "Latest estimate")
    return (
        Table("Packages without a measure, in no line and no ratio", heads, tuple(rows))
        if rows
        else None
    )


def _series(
    name: str,
    label: str,
    line: tuple[MoneyPoint, ...],
    first: date,
    axes: tuple[charts.Scale, charts.Scale],
) -> Series:
    points = [((point.day - first).days, point.amount) for point in line]
    return Series(name, label, box_points(points, *axes))


def _dot(name: str, point: MoneyPoint, first: date, x: charts.Scale, y: charts.Scale) -> Dot:
    at = charts.percent(x.share((point.day - first).days), 1)
    return Dot(name, at, charts.pixels(y.share(point.amount), MONEY_HEIGHT))


def _day_ticks(first: date, x: charts.Scale) -> Iterator[Tick]:
    for offset, label, is_minor in charts.date_ticks(first, x.most):
        share = x.share(offset)
        yield Tick(charts.percent(share, 1), label, charts.anchor(share), is_minor)
