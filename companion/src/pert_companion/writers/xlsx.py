"""Writes a schedule and the reports about it as a workbook (.xlsx).

Numbers and dates are numbers and dates. A text stays a text even if it begins like a formula. The
heads of all sheets are frozen, and the curve is a chart of the spreadsheet's own.
"""

import io
from collections.abc import Iterator, Sequence
from dataclasses import dataclass
from datetime import date, datetime
from decimal import Decimal
from fractions import Fraction

from openpyxl import Workbook
from openpyxl.chart import Reference, ScatterChart
from openpyxl.chart.series_factory import SeriesFactory
from openpyxl.styles import PatternFill
from openpyxl.worksheet.worksheet import Worksheet

from pert_companion.analysis.loading import Loading
from pert_companion.analysis.performance import Performance
from pert_companion.analysis.schedule import Schedule, ScheduledTask
from pert_companion.model.deck import Deck
from pert_companion.model.figures import day_words
from pert_companion.model.losses import Loss
from pert_companion.programs.results import Breakpoint, SummaryRow, Value, cost_at
from pert_companion.state.remaining import State
from pert_companion.writers.csv_file import HEADINGS
from pert_companion.writers.loading_text import at_once
from pert_companion.writers.performance_xlsx import add_performance
from pert_companion.writers.sheets import CellValue, in_currency, new_sheet, put_row

_ABOVE = PatternFill("solid", start_color="FFF4B6A6")
"""The ground of an amount above a capacity."""


@dataclass(frozen=True)
class Workbooks:
    """What a workbook shows; parts that are None get no sheet."""

    schedule: Schedule
    curve: Sequence[Breakpoint]
    deck: Deck
    summary: dict[str, SummaryRow] | None = None
    value: Value | None = None
    load: Loading | None = None
    """What the schedule needs in each period, and what it costs."""
    accepted: Sequence[Loss] = ()
    """What the deck does not have of its source, as the user accepted it."""
    performance: Performance | None = None
    """Earned value by the plan of the deck, of a project that has begun."""


def to_xlsx(content: Workbooks) -> bytes:
    """Returns the workbook."""
    book = Workbook()
    book.remove(book.active)
    _schedule_sheet(book, content.schedule)
    _curve_sheet(book, content)
    if content.summary is not None:
        _summary_sheet(book, content, content.summary)
    if content.value is not None:
        _value_sheet(book, content, content.value)
    if content.load is not None:
        _load_sheet(book, content, content.load)
        if any(resource.capacity is not None for resource in content.load.resources):
            _above_sheet(book, content.load)
    if content.accepted:
        _accepted_sheet(book, content.accepted)
    if content.performance is not None:
        add_performance(book, content.performance, content.schedule.money_scale)
    data = io.BytesIO()
    book.save(data)
    return data.getvalue()


def _schedule_sheet(book: Workbook, schedule: Schedule) -> None:
    sheet = new_sheet(book, "Schedule", HEADINGS)
    for row, task in enumerate(schedule.tasks, 2):
        put_row(sheet, row, _schedule_cells(task, schedule))
    sheet.auto_filter.ref = sheet.dimensions


def _schedule_cells(task: ScheduledTask, schedule: Schedule) -> list[CellValue]:
    day_minutes = schedule.day_minutes
    percent = Decimal(task.percent) if task.percent else None
    slack = task.deadline_slack_minutes
    return [
        task.row,
        task.code,
        task.uid,
        " / ".join(task.outline),
        task.name,
        "; ".join(task.predecessors),
        days(task.normal_minutes, day_minutes),
        days(task.chosen_minutes, day_minutes),
        _day(task.start),
        _day(task.finish),
        days(task.total_float_minutes, day_minutes),
        "yes" if task.is_critical else "no",
        in_currency(task.cost, schedule.money_scale),
        percent,
        "; ".join(task.resources),
        task.state.value,
        days(task.left_minutes, day_minutes),
        task.deadline,
        None if slack is None else days(slack, day_minutes),
    ]


def _day(moment: datetime) -> date:
    return moment.date()


def days(minutes: int, day_minutes: int) -> int | Decimal:
    """Returns working minutes in planner's days, rounded to a hundredth."""
    if minutes % day_minutes == 0:
        return minutes // day_minutes
    return (Decimal(minutes) / day_minutes).quantize(Decimal("0.01"))


def _curve_sheet(book: Workbook, content: Workbooks) -> None:
    schedule = content.schedule
    sheet = new_sheet(book, "Curve", ("Days", "Least cost", "A day less costs", "Chosen"))
    points = _points(content)
    for row, point in enumerate(points, 2):
        length_days = days(point.length * schedule.unit_minutes, schedule.day_minutes)
        chosen = schedule.cost if point.length == schedule.length else None
        price = _day_price(point, schedule)
        amounts = (in_currency(each, schedule.money_scale) for each in (point.cost, price, chosen))
        put_row(sheet, row, (length_days, *amounts))
    last = len(points) + 1
    if len(points) > 1:
        sheet.add_chart(_curve_chart(sheet, last), "F2")


def _points(content: Workbooks) -> list[Breakpoint]:
    """Returns the breakpoints with the chosen length between them, from the longest length down."""
    length = content.schedule.length
    points = list(content.curve)
    if all(point.length != length for point in points):
        cost, slope = cost_at(points, length)
        points.append(Breakpoint(length, cost, slope))
    return sorted(points, key=lambda point: -point.length)


def _day_price(point: Breakpoint, schedule: Schedule) -> Fraction | None:
    """Returns the price of shortening below a breakpoint, for a day, in units of money."""
    if point.slope is None:
        return None
    return Fraction(point.slope * schedule.day_minutes, schedule.unit_minutes)


def _curve_chart(sheet: Worksheet, last: int) -> ScatterChart:
    chart = ScatterChart()
    chart.title = "Least cost by length"
    chart.x_axis.title = "Length in days"
    chart.y_axis.title = "Least cost"
    chart.x_axis.delete = False
    chart.y_axis.delete = False
    chart.legend = None
    lengths = Reference(sheet, min_col=1, min_row=2, max_row=last)
    costs = Reference(sheet, min_col=2, min_row=2, max_row=last)
    series = SeriesFactory(costs, lengths, title="Least cost")
    series.marker.symbol = "circle"
    chart.series.append(series)
    return chart


def _titles(deck: Deck) -> dict[str, str]:
    return {item.code: item.title for item in deck.items}


def _summary_sheet(book: Workbook, content: Workbooks, rows: dict[str, SummaryRow]) -> None:
    headings = (
        "Item",
        "Level",
        "Budget",
        "Actual",
        "To go",
        "Latest",
        "Overrun",
        f"Latest in {_length(content.schedule)}",
        "Title",
    )
    sheet = new_sheet(book, "Summary", headings)
    titles, scale = _titles(content.deck), content.schedule.money_scale
    extras = _extras(content)
    for at, (code, row) in enumerate(rows.items(), 2):
        chosen = row.latest + extras.get(code, 0)
        amounts = (row.budget, row.actual, row.to_go, row.latest, row.overrun, chosen)
        cells = (in_currency(amount, scale) for amount in amounts)
        put_row(sheet, at, (code, row.level, *cells, titles[code]))


def _length(schedule: Schedule) -> str:
    """Returns the length of a schedule: `76 days`."""
    return day_words(schedule.length * schedule.unit_minutes, schedule.day_minutes)


def _extras(content: Workbooks) -> dict[str, int]:
    """Returns what shortening costs in the schedule, by item that has any, with all above it."""
    extras: dict[str, int] = {}
    for task, items in _tasks_with_items(content):
        for item in items:
            extras[item] = extras.get(item, 0) + task.extra_cost
    return extras


def _least_floats(content: Workbooks) -> dict[str, int]:
    """Returns the least float of the unfinished tasks on or below each item, in minutes."""
    floats: dict[str, int] = {}
    for task, items in _tasks_with_items(content):
        if task.state is not State.FINISHED:
            for item in items:
                floats[item] = min(
                    floats.get(item, task.total_float_minutes), task.total_float_minutes
                )
    return floats


def _tasks_with_items(content: Workbooks) -> Iterator[tuple[ScheduledTask, list[str]]]:
    """Yields the tasks of the schedule, each with its item and all above that."""
    parents = {item.code: item.parent for item in content.deck.items}
    item_of = {card.code: card.item for card in content.deck.work}
    for task in content.schedule.tasks:
        above: list[str] = []
        code: str | None = item_of.get(task.code)
        while code:
            above.append(code)
            code = parents.get(code)
        yield task, above


def _value_sheet(book: Workbook, content: Workbooks, value: Value) -> None:
    schedule = content.schedule
    headings = (
        "Item",
        "Level",
        "Budget",
        "Actual",
        "Value",
        "Overrun",
        "Slack days",
        f"Float in {_length(schedule)}",
        "Title",
    )
    sheet = new_sheet(book, "Value", headings)
    titles, floats = _titles(content.deck), _least_floats(content)
    for at, (code, row) in enumerate(value.items.items(), 2):
        slack = None if row.slack is None else days(row.slack, 6)
        least = days(floats[code], schedule.day_minutes) if code in floats else None
        amounts = (row.budget, row.actual, row.value, row.overrun)
        cells = (in_currency(amount, schedule.money_scale) for amount in amounts)
        put_row(sheet, at, (code, row.level, *cells, slack, least, titles[code]))


def _load_sheet(book: Workbook, content: Workbooks, load: Loading) -> None:
    """Adds what the schedule costs and uses in each period; what is above a capacity is red."""
    names = [resource.name for resource in load.resources]
    sheet = new_sheet(book, "Load", ("From", f"Cost in {_length(content.schedule)}", *names))
    for period, first in enumerate(load.periods):
        amounts = [resource.amounts[period] for resource in load.resources]
        cost = in_currency(load.costs[period], load.money_scale)
        put_row(sheet, period + 2, (first, cost, *amounts))
    columns = {resource.code: at for at, resource in enumerate(load.resources, 3)}
    for each in load.overloads:
        sheet.cell(each.period + 2, columns[each.resource]).fill = _ABOVE


def _above_sheet(book: Workbook, load: Loading) -> None:
    """Adds a row for each period in which a resource is above its capacity, with its tasks."""
    headings = ("Resource", "From", "Load", "Available", "Most at once", "Capacity", "Days")
    sheet = new_sheet(book, "Above capacity", (*headings, "Tasks above it"))
    by_code = {resource.code: resource for resource in load.resources}
    for at, each in enumerate(load.overloads, 2):
        resource = by_code[each.resource]
        cells = (
            each.name,
            each.first,
            resource.amounts[each.period],
            resource.available,
            Decimal(at_once(each.most)),
            each.capacity,
            each.days,
            ", ".join(each.tasks),
        )
        put_row(sheet, at, cells)


def _accepted_sheet(book: Workbook, accepted: Sequence[Loss]) -> None:
    headings = ("Kind", "Place", "Task", "Field", "In the source", "Why it is not carried over")
    sheet = new_sheet(book, "Not carried over", headings)
    for at, loss in enumerate(accepted, 2):
        cells = (loss.kind.value, loss.where, loss.name, loss.field, loss.text, loss.why)
        put_row(sheet, at, cells)
