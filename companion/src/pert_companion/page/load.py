"""The section of the load: what each period costs and uses, and what is above its capacity."""

from collections.abc import Iterator, Sequence
from dataclasses import dataclass, replace
from fractions import Fraction

from pert_companion.analysis.loading import Loading, Overload, ResourceLoad
from pert_companion.model.amounts import Measure
from pert_companion.model.figures import day_words
from pert_companion.page import charts
from pert_companion.page.gathering import Gathered
from pert_companion.page.view import Chart, Column, Line, Row, Series, Table, Tick, plain, title
from pert_companion.page.words import MONTHS, Words, day_text, number_text, shown
from pert_companion.writers.loading_text import at_once

COLUMN_HEIGHT = 110
MOST_RESOURCES = 24
"""The resources with a chart."""
MOST_LISTED = 6
"""The resources with a column in the table."""
MOST_ABOVE = 60
"""The rows of periods above a capacity."""
MOST_TASKS = 12
"""The tasks that such a row names."""


@dataclass(frozen=True)
class NamedChart:
    """A chart under the name of what it shows."""

    name: Line
    chart: Chart


@dataclass(frozen=True)
class LoadView:
    """What is spent, and used of each resource, in each period."""

    lead: str
    charts: tuple[NamedChart, ...]
    left_out: int
    """Resources without a chart."""
    table: Table
    above: Table | None
    """The periods in which a resource is above its capacity; None if no capacity is known."""
    more_above: int
    """The periods above a capacity that have no row."""


def load_view(gathered: Gathered, words: Words) -> LoadView | None:
    """Returns the load by period, or None if `pert load` cannot say it."""
    found = gathered.load
    if found is None:
        return None
    starts = [day_text(day) for day in found.periods]
    named = [NamedChart(plain("Cost"), _columns(found.costs, starts, words))]
    for resource in found.resources[:MOST_RESOURCES]:
        above = {each.period for each in found.overloads if each.resource == resource.code}
        chart = _resource_chart(resource, above, starts)
        named.append(NamedChart(title(shown(resource.name)), chart))
    return LoadView(
        lead=_lead(gathered, found, words),
        charts=tuple(named),
        left_out=max(0, len(found.resources) - MOST_RESOURCES),
        table=_table(found, starts, words),
        above=_above_table(found),
        more_above=max(0, len(found.overloads) - MOST_ABOVE),
    )


def _lead(gathered: Gathered, found: Loading, words: Words) -> str:
    """Returns the sentence above the load."""
    what = "What is planned"
    if gathered.state.has_begun:
        what = "What is still to be spent and used, over the work that is left"
    length = day_words(found.length * found.unit_minutes, found.day_minutes)
    measure = Measure(found.period_minutes, found.day_minutes)
    period = replace(words, measure=measure).length(1)
    return (
        f"{what} in the schedule of {length} that the page opens with, from pert load with periods"
        f" of {period}."
    )


def _table(found: Loading, starts: Sequence[str], words: Words) -> Table:
    listed = found.resources[:MOST_LISTED]
    rows = []
    for period, start in enumerate(starts):
        cells = [plain(words.digits(found.costs[period]))]
        cells.extend(plain(number_text(each.amounts[period])) for each in listed)
        rows.append(Row(plain(start), tuple(cells)))
    heads = ("Period from", "Cost", *(shown(each.name) for each in listed))
    return Table("Load by period", heads, tuple(rows))


def _above_table(found: Loading) -> Table | None:
    """Returns the periods above a capacity with their tasks, in the order of resources."""
    if all(each.capacity is None for each in found.resources):
        return None
    by_code = {each.code: each for each in found.resources}
    rows = []
    for each in found.overloads[:MOST_ABOVE]:
        rows.append(_above_row(each, by_code[each.resource]))
    heads = ("Resource", "Period from", "Load", "Available", "Most at once", "Of", "Days", "Tasks")
    return Table("Above capacity", heads, tuple(rows), texts=(1, 7), has_phrases=True)


def _above_row(each: Overload, resource: ResourceLoad) -> Row:
    more = len(each.tasks) - MOST_TASKS
    tasks = ", ".join(each.tasks[:MOST_TASKS]) + (f" and {more} more" if more > 0 else "")
    cells = (
        day_text(each.first),
        number_text(resource.amounts[each.period]),
        number_text(resource.available or 0),
        at_once(each.most),
        f"{each.capacity.normalize():f}",
        number_text(each.days),
        tasks,
    )
    return Row(title(shown(each.name)), tuple(map(plain, cells)))


def _resource_chart(resource: ResourceLoad, above: set[int], starts: Sequence[str]) -> Chart:
    """Returns the columns of a resource, with a line at its capacity."""
    most = max([1, *resource.amounts, resource.available or 0])
    scale, ticks = charts.round_scale(0, most, 3)
    chart = _chart(resource.amounts, above, starts, scale, [number_text(tick) for tick in ticks])
    if resource.available is None:
        return chart
    at = charts.pixels(scale.share(resource.available), 1000)
    label = f"{chart.label}, and a line at {number_text(resource.available)}, its capacity"
    line = Series("capacity", "Capacity", f"0,{at} 1000,{at}")
    return replace(chart, label=label, series=(line,))


def _columns(amounts: Sequence[int], starts: Sequence[str], words: Words) -> Chart:
    """Returns the columns of the cost."""
    scale, ticks = charts.round_scale(0, max([1, *amounts]), 3)
    texts = [words.digits(tick) for tick in ticks]
    return _chart(amounts, set(), starts, scale, texts, words)


def _chart(
    amounts: Sequence[int],
    above: set[int],
    starts: Sequence[str],
    scale: charts.Scale,
    texts: list[str],
    money: Words | None = None,
) -> Chart:
    """Returns a chart with a column for each period that has an amount."""
    width = Fraction(100, max(1, len(starts)))
    drawn = []
    for period, amount in enumerate(amounts):
        if not amount:
            continue
        share = scale.share(amount)
        text = number_text(amount) if money is None else money.digits(amount)
        mark = ", above capacity" if period in above else ""
        drawn.append(
            Column(
                x=charts.percent((period + Fraction(1, 10)) * width, 100),
                width=charts.percent(width * 4 / 5, 100),
                y=charts.pixels(share, COLUMN_HEIGHT),
                height=charts.pixels(1 - share, COLUMN_HEIGHT),
                label=f"{starts[period]}: {text}{mark}",
                is_above=period in above,
            )
        )
    return Chart(
        "Columns by period",
        COLUMN_HEIGHT,
        charts.margin_for(texts),
        tuple(_period_ticks(starts)),
        charts.y_axis(COLUMN_HEIGHT, texts),
        columns=tuple(drawn),
    )


def _period_ticks(starts: Sequence[str]) -> Iterator[Tick]:
    step = max(1, -(-len(starts) // 6))
    for number, period in enumerate(range(0, len(starts), step)):
        day = " ".join(starts[period].split(" ")[:2])
        at = charts.percent(Fraction(period, len(starts)), 1)
        label = day if day.split(" ")[-1] in MONTHS else starts[period]
        yield Tick(at, label, "start", number % 2 == 1)
