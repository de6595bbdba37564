"""Reads GanttProject's files (.gan): whole days, links, holidays, resources, custom columns."""

from collections.abc import Iterator, Mapping
from dataclasses import replace
from datetime import date
from decimal import Decimal
from functools import cached_property

from pert_companion.model import moments
from pert_companion.model.calendar import Calendar, CalendarException
from pert_companion.model.errors import InputError
from pert_companion.model.losses import LossKind
from pert_companion.model.plan import (
    Baseline,
    Constraint,
    ConstraintKind,
    Crash,
    Group,
    Lag,
    Link,
    LinkKind,
    Progress,
    Resource,
    Task,
)
from pert_companion.model.source import Source
from pert_companion.model.xmltree import Node, head_text, local_name, parse, whole
from pert_companion.readers import crashing, fields
from pert_companion.readers.base import ReaderOptions, Reading
from pert_companion.readers.columns import HEADINGS
from pert_companion.readers.fields import NamedPlace
from pert_companion.readers.grid import clip
from pert_companion.readers.list_calendars import ListCalendars
from pert_companion.readers.p6_calendars import day_of
from pert_companion.readers.task_tree import (
    Attributes,
    Row,
    TreeReader,
    missing_task,
    title,
)
from pert_companion.readers.values import Unreadable

_LINK_KINDS = {
    "1": LinkKind.START_START,
    "2": LinkKind.FINISH_START,
    "3": LinkKind.FINISH_FINISH,
    "4": LinkKind.START_FINISH,
}
_WEEKDAYS = ("mon", "tue", "wed", "thu", "fri", "sat", "sun")
_MOST_DAYS = 100_000
_ONE = Decimal(1)
"""How many of a resource there are: its allocations are percentages of one."""
_YEARS_OF_RECURRENCES = 30
_EARLIEST_START = "1"
_FREE = "HOLIDAY"
_WORKED = "WORKING_DAY"


def matches(data: bytes) -> bool:
    """Says whether the bytes look like a file of GanttProject."""
    head = head_text(data)
    is_project = "<project" in head and "http://schemas.microsoft.com" not in head
    return is_project and ("gantt-divider-location" in head or "view-date=" in head)


def read(source: Source, options: ReaderOptions) -> Reading:
    """Returns the plan of a file and what is not in it."""
    root = parse(source)
    if local_name(root) != "project":
        raise InputError(f"{source.name}: not a file of GanttProject")
    return _Reader(source, options, Node(root)).reading()


class _Reader(TreeReader):
    """Reads one file."""

    format = "gan"

    def notes(self) -> Iterator[str]:
        """Yields what the file says that moves no task in GanttProject either."""
        vacations = sum(1 for _ in self.project.within("vacations", "vacation"))
        if vacations:
            yield f"vacations of resources ({vacations}) are not read: they move no task"

    def first_day(self) -> date:
        """Returns the first day of the project: the earliest start of its tasks."""
        if self.options.start is not None:
            return self.options.start
        starts = [moments.day(row.text("start")) for row in self.rows]
        known = [day for day in starts if day is not None]
        if not known:
            raise InputError(f"{self.source.name}: no start date; give one with --start")
        return min(known)

    def plan_calendar(self) -> Calendar:
        """Returns the calendar: free weekdays, and dates that are free or worked."""
        day = self.options.day_minutes or 480
        week = [day_of(day)] * 5 + [(), ()]
        calendars = self.project.child("calendars")
        types = calendars.child("day-types") if calendars is not None else None
        default = types.child("default-week") if types is not None else None
        if default is not None:
            for number, name in enumerate(_WEEKDAYS):
                week[number] = () if default.attribute(name) == "1" else day_of(day)
        exceptions: list[CalendarException] = []
        for node in calendars.children("date") if calendars is not None else ():
            exceptions.extend(self.exceptions(node, day))
        worked = sum(1 for shifts in week if shifts)
        week_minutes = self.options.week_minutes or max(1, worked) * day
        month = self.options.month_days or 20
        return Calendar("GanttProject", tuple(week), tuple(exceptions), day, week_minutes, month)

    def exceptions(self, node: Node, minutes: int) -> Iterator[CalendarException]:
        """Yields the days of a date of the calendar; one without year is of each year."""
        kind, name = node.attribute("type"), title(node.content)
        if kind not in (_FREE, _WORKED):
            return
        texts = [node.attribute(part) for part in ("year", "month", "date")]
        year, month, number = (whole(text) for text in texts)
        shifts = day_of(minutes) if kind == _WORKED else ()
        days = [_day(each, month, number) for each in self.years(texts[0], year)]
        if not any(days):
            why = "there is no such day; the calendar is used without it"
            place = NamedPlace("calendar GanttProject", name)
            self.fields.name_loss(place, "date", why, "-".join(texts), LossKind.CALENDAR)
        for day in days:
            if day is not None:
                yield CalendarException(day, day, name, shifts)

    def years(self, text: str, year: int | None) -> list[int]:
        """Returns the years of a date: its own, or if it has none those that it comes back in."""
        if text:
            return [] if year is None else [year]
        return list(range(self.start.year, self.start.year + _YEARS_OF_RECURRENCES))

    def task(self, row: Row) -> Task | None:
        """Returns the task of a row, or None and a loss."""
        minutes = 0 if row.text("meeting") == "true" else self.minutes(row)
        if minutes is None:
            return None
        start = self.fields.read(row, "start", fields.day)
        percent = self.fields.read(row, "complete", fields.percentage)
        return Task(
            uid=row.uid,
            where=row.where,
            name=row.name,
            minutes=minutes,
            parent=row.parent,
            row=whole(row.uid),
            crash=self.crash(row, minutes),
            cost=self.cost(row, minutes),
            constraint=self.constraint(row),
            listed_start=start,
            listed_finish=self.finish(start, minutes),
            progress=Progress(percent=percent) if percent else Progress(),
            baselines=self.baselines.get(row.uid, ()),
            calendar=self.own_calendar(row),
        )

    def minutes(self, row: Row) -> int | None:
        """Returns the duration of a task, or None and a loss."""
        days = self.fields.read(row, "duration", _days_of_task)
        if days is None and fields.given(row.text("duration")) is None:
            self.fields.lose(row, "duration", "there is no duration; the task is left out")
        return None if days is None else days * self.calendar.day_minutes

    def finish(self, start: date | None, minutes: int) -> date | None:
        """Returns the last day of work of a task that begins on a day."""
        if start is None or minutes == 0:
            return start
        return self.calendar.end_of(moments.midnight(start), minutes).date()

    def constraint(self, row: Row) -> Constraint | None:
        """Returns the earliest start of a task, or None."""
        if row.text("thirdDate-constraint") != _EARLIEST_START:
            return None
        day = self.fields.read(row, "thirdDate", fields.day)
        return None if day is None else Constraint(ConstraintKind.START_NO_EARLIER, day)

    def cost(self, row: Row, minutes: int) -> Decimal | None:
        """Returns the cost of a task: its own, or that of its resources."""
        if row.text("cost-calculated") == "false":
            return self.fields.read(row, "cost-manual-value", fields.amount)
        return self.cost_of_resources(row, minutes)

    @cached_property
    def custom_columns(self) -> dict[str, str]:
        """Returns the name in small letters of each custom column by its id."""
        tasks = self.project.child("tasks")
        if tasks is None:
            return {}
        found = {}
        for node in tasks.within("taskproperties", "taskproperty"):
            if node.attribute("type") == "custom":
                found[node.attribute("id")] = node.attribute("name").casefold()
        return found

    def custom_values(self, row: Row) -> dict[str, str]:
        """Returns what a task has in custom columns, by the name of the column in small letters."""
        values: dict[str, str] = {}
        for node in row.node.children("customproperty"):
            name = self.custom_columns.get(node.attribute("taskproperty-id"))
            if name is not None and node.attribute("value"):
                values.setdefault(name, node.attribute("value"))
        return values

    @cached_property
    def calendars(self) -> ListCalendars:
        """Returns what finds the calendar that a custom column names."""
        exceptions = (*self.options.holidays, *self.calendar.exceptions)
        return ListCalendars(replace(self.calendar, exceptions=exceptions))

    def own_calendars(self) -> tuple[Calendar, ...]:
        """Returns the calendars of custom columns."""
        return self.calendars.calendars

    def own_calendar(self, row: Row) -> str | None:
        """Returns the name of the calendar that a custom column has; None for the plan's."""
        values = self.custom_values(row)
        text = next((values[name] for name in HEADINGS["calendar"] if name in values), "")
        if fields.given(text) is None:
            return None
        return self.fields.taken(row, "Calendar", text, self.calendars.name_of)

    def crash(self, row: Row, minutes: int) -> Crash | None:
        """Returns the shortest duration and what it costs, from custom columns."""
        values = self.custom_values(row)

        def look_up(names: tuple[str, ...]) -> str:
            return next((values[name] for name in names if name in values), "")

        found = crashing.find_fields(look_up, self.options)
        shortest = crashing.minutes_of(self.calendar)
        return crashing.crash_of(self.fields, row, found, minutes, shortest)

    def links(self, known: Mapping[str, Task | Group]) -> Iterator[Link]:
        """Yields the links; in the file they are with the task before."""
        for row in self.rows:
            for node in row.node.children("depend"):
                link = self.link(row, Attributes(node), known)
                if link is not None:
                    yield link

    def link(self, row: Row, part: Attributes, known: Mapping[str, Task | Group]) -> Link | None:
        """Returns a link from a row, or None and a loss."""
        after, text = part.text("id"), part.text("difference") or "0"
        why = missing_task((row.uid, after), known)
        kind = _LINK_KINDS.get(part.text("type") or "2")
        if not why and kind is None:
            why = f"{clip(part.text('type'), 20)!r} is no kind of link; the link is left out"
        if why or kind is None:
            self.fields.lose(row, "depend", why, f"{after} {part.text('difference')}".strip())
            return None
        days = self.fields.taken(row, "lag", text, _days_of_lag)
        if days is None:
            return None
        lag = Lag(days * self.calendar.day_minutes)
        return Link(row.uid, after, kind, lag, row.where, f"{clip(row.uid, 20)}{kind.value}")

    def read_resources(self) -> Iterator[Resource]:
        """Yields the resources; rates of days become rates of hours."""
        for node in self.project.within("resources", "resource"):
            name = title(node.attribute("name"))
            place = NamedPlace(f"resource {clip(name, 60)}")
            rate = None
            for part in map(Attributes, node.children("rate")):
                if part.text("name") == "standard":
                    rate = self.fields.part(place, part, "value", fields.amount, "rate")
            hourly = None if rate is None else rate * 60 / self.calendar.day_minutes
            yield Resource(node.attribute("id"), name, rate=hourly, capacity=_ONE)

    def load(self, row: Row, part: Attributes, resource: Resource) -> Decimal | None:
        """Returns the percentage of an allocation; all of the resource if it says nothing."""
        return self.fields.taken(row, "load", part.text("load") or "100", fields.positive)

    @cached_property
    def baselines(self) -> dict[str, tuple[Baseline, ...]]:
        """Returns the saved baselines of each task by its id."""
        found: dict[str, tuple[Baseline, ...]] = {}
        for number, saved in enumerate(self.project.within("previous", "previous-tasks")):
            for node in saved.children("previous-task"):
                entry = self.baseline(number, Attributes(node))
                if entry is not None:
                    uid = node.attribute("id")
                    found[uid] = (*found.get(uid, ()), entry)
        return found

    def baseline(self, number: int, part: Attributes) -> Baseline | None:
        """Returns a saved baseline of a task, or None and a loss."""
        place = NamedPlace(f"task id {clip(part.text('id'), 20)}")
        days = self.fields.part(place, part, "duration", _days_of_task, "previous-task")
        start = self.fields.part(place, part, "start", fields.day, "previous-task")
        if days is None:
            return None
        minutes = days * self.calendar.day_minutes
        return Baseline(number, start, self.finish(start, minutes), minutes)


def _day(year: int, month: int | None, number: int | None) -> date | None:
    """Returns a day, or None if there is no such one."""
    try:
        return date(year, month or 0, number or 0)
    except (ValueError, OverflowError):
        return None


def _days_of_task(text: str) -> int:
    days = whole(text)
    if days is None or not 0 <= days <= _MOST_DAYS:
        raise Unreadable("this is no duration in days; the task is left out")
    return days


def _days_of_lag(text: str) -> int:
    days = whole(text)
    if days is None or abs(days) > _MOST_DAYS:
        raise Unreadable("this is no lag in days; the link is left out")
    return days
