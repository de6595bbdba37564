"""Writes what a schedule costs and uses in each period, as a table or as CSV."""

import csv
import io
from collections.abc import Iterator
from fractions import Fraction

from pert_companion.analysis.loading import Loading, Overload, ResourceLoad
from pert_companion.model.figures import money_text, ratio_text
from pert_companion.model.text_form import TextForm
from pert_companion.writers.aligned import aligned
from pert_companion.writers.formula import plain_text
from pert_companion.writers.text import shown

HEADINGS = ("From", "Resource", "Load", "Available", "Capacity", "Most at once", "Tasks above it")
COST = "Cost"
ABOVE = "!"


def to_text(found: Loading, on_terminal: bool) -> str:
    """Returns a table of the periods, and a line for each period above a capacity."""
    form = TextForm(on_terminal, found.money_scale)
    marks = {(each.resource, each.period) for each in found.overloads}
    rows = []
    for period, first in enumerate(found.periods):
        cells = [first.isoformat(), form.money(found.costs[period])]
        for resource in found.resources:
            amount = form.count(resource.amounts[period])
            mark = ABOVE if (resource.code, period) in marks else " "
            cells.append(f"{amount} {mark}")
        rows.append(cells)
    headings = ["FROM", COST.upper(), *(f"{shown(each.name)}  " for each in found.resources)]
    lines = [_heading(found, form), *aligned(headings, rows, "lr" + "r" * len(found.resources))]
    lines.extend(_about_capacities(found, form))
    return "".join(f"{line}\n" for line in lines)


def _heading(found: Loading, form: TextForm) -> str:
    length = form.day_words(found.length * found.unit_minutes, found.day_minutes)
    if found.rest_of is not None:
        length = f"{length} left from {found.rest_of} on"
    elif found.is_past_plan:
        length = f"as planned {length}"
    period = form.day_words(found.period_minutes, found.day_minutes)
    currency = f", cost in {found.currency}" if found.currency else ""
    return (
        f"{shown(found.title)}: {length}, {found.start} to {found.end},"
        f" load by periods of {period}{currency}"
    )


def _about_capacities(found: Loading, form: TextForm) -> Iterator[str]:
    """Yields what is above its capacity, or why nothing is."""
    if not found.resources:
        return
    if all(each.capacity is None for each in found.resources):
        yield "no capacity is known: say it with pert-edit DECK NAME.capacity=UNITS"
        return
    if not found.overloads:
        yield "no resource is above its capacity"
    by_code = {each.code: each for each in found.resources}
    for each in found.overloads:
        yield _line(each, by_code[each.resource], form)


def _line(each: Overload, resource: ResourceLoad, form: TextForm) -> str:
    amount = form.count(resource.amounts[each.period])
    available = form.count(resource.available or 0)
    days = "1 day" if each.days == 1 else f"{each.days} days"
    most = at_once(each.most)
    return (
        f"{ABOVE} {each.first} {shown(each.name)}: {amount} of {available}; {most} at once on"
        f" {days}, {each.capacity.normalize():f} available: {', '.join(each.tasks)}"
    )


def at_once(most: Fraction) -> str:
    """Returns how many would have to work at once: `2` or `2.5`, with at most two decimals."""
    return ratio_text(most, 2).rstrip("0").rstrip(".")


def to_csv(found: Loading) -> bytes:
    """Returns a row for each period and resource as CSV in UTF-8."""
    text = io.StringIO(newline="")
    writer = csv.writer(text, lineterminator="\n")
    writer.writerow(HEADINGS)
    above = {(each.resource, each.period): each for each in found.overloads}
    for period, first in enumerate(found.periods):
        cost = money_text(found.costs[period], found.money_scale)
        writer.writerow((first.isoformat(), COST, cost, "", "", "", ""))
        for resource in found.resources:
            row = _csv_row(resource, period, above.get((resource.code, period)))
            writer.writerow((first.isoformat(), *row))
    return text.getvalue().encode()


def _csv_row(resource: ResourceLoad, period: int, above: Overload | None) -> tuple[object, ...]:
    capacity = None if resource.capacity is None else f"{resource.capacity.normalize():f}"
    return (
        plain_text(resource.name),
        resource.amounts[period],
        resource.available,
        capacity,
        None if above is None else at_once(above.most),
        None if above is None else plain_text("; ".join(above.tasks)),
    )
