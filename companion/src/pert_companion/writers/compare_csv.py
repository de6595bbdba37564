"""Writes the history of a project as CSV, one row for each figure or difference."""

from collections.abc import Iterator, Sequence

from pert_companion.analysis.compare import Comparison, CurveSide, History, StateFigures
from pert_companion.analysis.earned_value import EarnedValue
from pert_companion.model.figures import days_text, money_cell, money_text, ratio_cell
from pert_companion.model.lines import csv_bytes
from pert_companion.writers.formula import plain_text

HEADINGS = ("From", "To", "Part", "Code", "Name", "What", "Old", "New")

Row = tuple[str, str, str, str, str, str]
"""Part, code, name, what, old and new."""


def to_csv(history: History) -> bytes:
    """Returns the figures of each state and each difference between neighbours, in UTF-8.

    Finishes are the last day of work, durations days, amounts in the currency.
    """
    return csv_bytes([HEADINGS, *_cells(history)])


def _cells(history: History) -> Iterator[Sequence[str]]:
    for state in history.states:
        for what, value in _figures(state, history.money_scale):
            yield "", plain_text(state.name), "state", "", "", what, "", value
    for comparison in history.comparisons:
        names = plain_text(comparison.old.name), plain_text(comparison.new.name)
        for part, code, name, what, old, new in _rows(comparison, history.money_scale):
            yield *names, part, code, plain_text(name), what, _cell(old), _cell(new)


def _cell(text: str) -> str:
    """Returns a text that no spreadsheet takes for a formula; negative numbers stay."""
    digits = text.removeprefix("-").replace(".", "", 1)
    return text if digits.isdigit() else plain_text(text)


def _figures(state: StateFigures, scale: int) -> Iterator[tuple[str, str]]:
    """Yields the figures of a state with their names."""
    yield "data date", str(state.data_day)
    yield "end", str(state.end)
    yield "days left", days_text(state.left_minutes, state.day_minutes)
    if state.directed is not None:
        yield "directed end", str(state.directed)
        yield "cost of keeping it", money_cell(state.recovery_cost, scale)
    yield "budget", money_text(state.budget, scale)
    yield "spent", money_text(state.actual, scale)
    yield "to go", money_text(state.to_go, scale)
    yield "latest estimate", money_text(state.latest, scale)
    yield "value", money_text(state.value, scale)
    if state.earned is not None:
        yield from _earned(state.earned, scale, "")
    if state.by_newest is not None:
        yield from _earned(state.by_newest, scale, " by the newest baseline")


def _earned(earned: EarnedValue, scale: int, by: str) -> Iterator[tuple[str, str]]:
    """Yields the totals and ratios of earned value with their names, which end with `by`."""
    total = earned.total
    yield f"planned value{by}", money_text(total.pv, scale)
    yield f"earned value{by}", money_text(total.ev, scale)
    yield f"actual cost{by}", money_text(total.ac, scale)
    ratios = (("SPI", total.spi), ("CPI", total.cpi), ("TCPI", total.tcpi))
    for name, ratio in (*ratios, ("SPI(t)", earned.spi_of_time)):
        yield f"{name}{by}", ratio_cell(ratio)
    yield f"EAC{by}", money_cell(total.eac_by_cpi, scale)


def _rows(comparison: Comparison, scale: int) -> Iterator[Row]:
    """Yields the differences from one state to the next."""
    moved = days_text(comparison.end_moved_minutes, comparison.new.day_minutes)
    yield "end", "", "", "end", str(comparison.old.end), str(comparison.new.end)
    yield "end", "", "", "days later", "", moved
    for joined in comparison.joined:
        yield "critical", joined.code, joined.name, "joined", joined.why, ""
    for left in comparison.left:
        yield "critical", left.code, left.name, "left", "", left.why
    for slack in comparison.slack_used:
        days = comparison.new.day_minutes
        texts = days_text(slack.old_minutes, days), days_text(slack.new_minutes, days)
        yield "slack", slack.code, slack.name, "slack", *texts
    for change in comparison.changes:
        yield "change", change.code, change.name, change.kind.value, change.old, change.new
    for restated in comparison.restated:
        what = f"{restated.what} {restated.day}"
        yield "restated", restated.subject, restated.name, what, restated.old, restated.new
    for each in comparison.renamed:
        yield "renamed?", each.new, each.new_name, each.what, each.old, each.new
    for credit in comparison.credits:
        amount = money_text(credit.amount, scale)
        what = f"credit {credit.day} {credit.number}".strip()
        yield "credit", credit.account, credit.name, what, "", amount
    yield from _curves(comparison, scale)


def _curves(comparison: Comparison, scale: int) -> Iterator[Row]:
    for row in comparison.curves:
        costs = _cost(row.old, scale), _cost(row.new, scale)
        days = _next_day(row.old, scale), _next_day(row.new, scale)
        yield "curve", "", "", f"least cost by {row.end}", *costs
        yield "curve", "", "", f"a day less than {row.end}", *days


def _cost(side: CurveSide | None, scale: int) -> str:
    return "" if side is None else money_text(side.cost, scale)


def _next_day(side: CurveSide | None, scale: int) -> str:
    return "" if side is None else money_cell(side.next_day_cost, scale)
