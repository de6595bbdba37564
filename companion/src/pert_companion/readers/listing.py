"""Turns the rows of a list, from a text or a workbook, into a plan."""

from collections.abc import Iterable, Sequence
from dataclasses import replace
from datetime import date
from pathlib import Path

from pert_companion.model.calendar import Calendar
from pert_companion.model.errors import InputError
from pert_companion.model.losses import Loss
from pert_companion.model.plan import Group, LagCalendar, Plan
from pert_companion.readers.assigning import Assigner
from pert_companion.readers.base import ReaderOptions, Reading
from pert_companion.readers.cells import common_currency, reader_of
from pert_companion.readers.columns import Head, check_head, find_head
from pert_companion.readers.entries import (
    Entries,
    check_totals,
    make_entries,
    without_passed_over,
)
from pert_companion.readers.grid import Grid, clip
from pert_companion.readers.linking import Linker
from pert_companion.readers.list_calendars import ListCalendars
from pert_companion.readers.outline import (
    Labels,
    Row,
    arrange,
    column_notes,
    labels_above,
    rows_below,
    without_heading,
)
from pert_companion.readers.working_times import usual_day, week_of


def read_list(grid: Grid, options: ReaderOptions, file: str) -> Reading:
    """Returns the plan of a list and what of the list is not in it.

    Raises `InputError` if there is no row of headings, no task, or no first day.
    """
    head = check_head(find_head(grid.rows, options), options, file)
    labels = labels_above(grid.rows[: head.position])
    rows, repeated = rows_below(grid.rows, head)
    reader = reader_of(rows, head, options, grid.separator, file)
    outline = arrange(without_passed_over(rows, reader), head)
    calendars = _calendars(grid, rows, options)
    entries = make_entries(outline.nodes, reader, calendars)
    if not entries.tasks():
        raise InputError(f"{file}: there is no task{_first_reason(reader.losses, file)}")
    check_totals(rows, entries, reader)
    links = Linker(rows, entries, reader, file).links()
    assigner = Assigner(reader, grid.rates)
    for task, row in entries.tasks():
        assigner.add(task, row)
    given = options.start or labels.day("start", reader.style)
    first, start_notes = (given, []) if given else _earliest_start(entries, file)
    notes = [*grid.notes, *labels.notes, *column_notes(head), *repeated, *reader.style_notes]
    notes += calendars.notes
    plan = Plan(
        name=_plan_name(entries, options, labels, file),
        start=first,
        calendar=replace(calendars.plan, exceptions=grid.exceptions),
        outline=tuple(entries.of_node.values()),
        links=links,
        resources=assigner.resources,
        assignments=assigner.assignments,
        data_date=options.data_date or labels.day("data date", reader.style),
        currency=common_currency(rows),
        source=grid.source,
        calendars=calendars.calendars,
        lag_calendar=LagCalendar.SUCCESSOR,
        notes=(*notes, *start_notes, *outline.notes, *reader.notes),
    )
    in_order = _in_order([*outline.losses, *reader.losses], head)
    return Reading(plan, (*grid.losses, *without_heading(grid.rows, head), *in_order))


def _first_reason(losses: Sequence[Loss], file: str) -> str:
    if not losses:
        return ""
    return f"; {losses[0].line(file).removeprefix(file + ': ')}"


def _in_order(losses: Iterable[Loss], head: Head) -> list[Loss]:
    """Returns losses in the order of the rows and, within a row, of the columns."""
    columns = [head.headings[name] for name in head.columns]
    places = {heading: at for at, heading in enumerate(columns)}

    def place(loss: Loss) -> tuple[int, int]:
        return int(loss.where.removeprefix("row ")), places.get(loss.field, -1)

    return sorted(losses, key=place)


def _calendars(grid: Grid, rows: Sequence[Row], options: ReaderOptions) -> ListCalendars:
    """Returns the calendars that the tasks of a list may have."""
    exceptions = (*options.holidays, *grid.exceptions)
    plan = replace(calendar_of(options), exceptions=exceptions)
    return ListCalendars(
        plan, grid.calendars, options.calendar, [row.text("calendar") for row in rows]
    )


def calendar_of(options: ReaderOptions) -> Calendar:
    """Returns the calendar of a list: days from 8:00 with a break, weeks from Monday."""
    day_minutes = options.day_minutes or 480
    week_minutes = options.week_minutes or 5 * day_minutes
    working_days = min(7, -(-week_minutes // day_minutes))
    shifts = usual_day(day_minutes)
    return Calendar(
        week=week_of(range(working_days), shifts),
        day_minutes=day_minutes,
        week_minutes=week_minutes,
        month_days=options.month_days or 20,
    )


def _earliest_start(entries: Entries, file: str) -> tuple[date, list[str]]:
    """Returns the earliest start in the list for the project's first day, and a note of that."""
    days = []
    for task, _ in entries.tasks():
        for found in (task.listed_start, task.progress.actual_start):
            if found is not None:
                days.append(found)
    if not days:
        raise InputError(
            f"{file}: the list has no column of start dates: say the first day "
            "with --start YYYY-MM-DD"
        )
    first = min(days)
    note = (
        f"the first day is {first}, the earliest start in the list; another one: --start YYYY-MM-DD"
    )
    return first, [note]


def _plan_name(entries: Entries, options: ReaderOptions, labels: Labels, file: str) -> str:
    """Returns the name of the plan: as the user or the list says, or of its only top group."""
    if options.name:
        return options.name
    if "name" in labels.cells:
        return clip(labels.text("name"), 200)
    top = [entry for entry in entries.of_node.values() if entry.parent is None]
    if len(top) == 1 and isinstance(top[0], Group):
        return top[0].name
    return Path(file).stem if file != "-" else "plan"
