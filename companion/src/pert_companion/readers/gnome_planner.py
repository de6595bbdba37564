"""Reads GNOME Planner's files (.planner): work or fixed durations, links, calendars, resources."""

from collections.abc import Iterator, Mapping
from datetime import date, datetime
from decimal import Decimal
from fractions import Fraction

from pert_companion.model import moments
from pert_companion.model.calendar import Calendar
from pert_companion.model.errors import InputError
from pert_companion.model.plan import (
    Constraint,
    ConstraintKind,
    Group,
    Lag,
    Link,
    LinkKind,
    Progress,
    Resource,
    ResourceKind,
    Task,
)
from pert_companion.model.source import Source
from pert_companion.model.xmltree import (
    Node,
    decimal,
    head_text,
    local_name,
    parse,
    whole,
)
from pert_companion.readers import fields, gnome_calendars
from pert_companion.readers.base import ReaderOptions, Reading
from pert_companion.readers.fields import NamedPlace
from pert_companion.readers.grid import clip
from pert_companion.readers.task_tree import (
    Attributes,
    Row,
    TreeReader,
    missing_task,
    title,
)
from pert_companion.readers.values import Unreadable

_CONSTRAINTS = {
    "start-no-earlier-than": ConstraintKind.START_NO_EARLIER,
    "finish-no-later-than": ConstraintKind.FINISH_NO_LATER,
    "must-start-on": ConstraintKind.MUST_START,
    "as-late-as-possible": ConstraintKind.AS_LATE_AS_POSSIBLE,
}
_KINDS = {kind.value: kind for kind in LinkKind}
_AS_SOON = "as-soon-as-possible"
_MATERIAL = "2"
_MOST_SECONDS = 10**10


def matches(data: bytes) -> bool:
    """Says whether the bytes look like a file of GNOME Planner."""
    head = head_text(data)
    return "<project" in head and ("mrproject-version" in head or "project-start=" in head)


def read(source: Source, options: ReaderOptions) -> Reading:
    """Returns the plan of a file and what is not in it."""
    root = parse(source)
    project = Node(root)
    if local_name(root) != "project" or not project.has("tasks"):
        raise InputError(f"{source.name}: not a file of GNOME Planner: no project with tasks")
    return _Reader(source, options, project).reading()


class _Reader(TreeReader):
    """Reads one file."""

    format = "gnome_planner"

    def first_day(self) -> date:
        """Returns the first day of the project."""
        text = self.project.attribute("project-start")
        found = _moment(text)
        start = self.options.start or (None if found is None else found.date())
        if start is None:
            shown = clip(text, 40)
            raise InputError(
                f"{self.source.name}: project-start {shown!r} is no day; give one with --start"
            )
        return start

    def plan_calendar(self) -> Calendar:
        """Returns the calendar of the project, or the one that is asked for."""
        options = self.options
        found = gnome_calendars.read_calendars(self.project, self.losses)
        wanted = options.calendar.casefold()
        if wanted:
            named = [each for each in found.values() if each.name.casefold() == wanted]
            if not named:
                raise InputError(f"{self.source.name}: no calendar named {options.calendar!r}")
            chosen = named[0]
        else:
            chosen = found.get(self.project.attribute("calendar")) or Calendar()
        day = options.day_minutes or chosen.day_minutes
        week = options.week_minutes or chosen.week_minutes
        month = options.month_days or chosen.month_days
        return Calendar(chosen.name, chosen.week, chosen.exceptions, day, week, month)

    def group(self, row: Row) -> Group:
        """Returns the group of a row; a constraint of one is a loss."""
        if row.node.has("constraint"):
            self.fields.lose(row, "constraint", "a group has no constraint", "")
        return super().group(row)

    def task(self, row: Row) -> Task | None:
        """Returns the task of a row, or None and a loss."""
        is_milestone = row.text("type") == "milestone"
        minutes = 0 if is_milestone else self.minutes(row)
        if minutes is None:
            return None
        percent = self.fields.read(row, "percent-complete", fields.percentage)
        return Task(
            uid=row.uid,
            where=row.where,
            name=row.name,
            minutes=minutes,
            parent=row.parent,
            row=whole(row.uid),
            cost=self.cost_of_resources(row, minutes),
            constraint=self.constraint(row),
            listed_start=self.start_day(row, minutes),
            listed_finish=self.finish_day(row, minutes),
            progress=Progress(percent=percent) if percent else Progress(),
        )

    def start_day(self, row: Row, minutes: int) -> date | None:
        """Returns the first day of work of a task; a milestone has the day of its moment."""
        field = "work-start" if row.text("work-start") else "start"
        found = self.fields.read(row, field, _known_moment)
        if found is None or minutes == 0:
            return None if found is None else found.date()
        return moments.start_day(self.calendar, found.isoformat())

    def finish_day(self, row: Row, minutes: int) -> date | None:
        """Returns the last day of work of a task; a milestone has the day of its moment."""
        found = self.fields.read(row, "end", _known_moment)
        if found is None:
            return None
        return found.date() if minutes == 0 else moments.last_day(self.calendar, found)

    def minutes(self, row: Row) -> int | None:
        """Returns the duration of a task: its own if it is fixed, else its work, shared.

        None and a loss if there is none.
        """
        is_fixed = row.text("scheduling") == "fixed-duration"
        field = "duration" if is_fixed else "work"
        seconds = self.fields.taken(row, field, row.text(field), _seconds_of_task)
        if seconds is None:
            return None
        crew = Fraction(0)
        for load in self.loads.get(row.uid, ()):
            if load.resource.kind is ResourceKind.WORK:
                crew += Fraction(load.percent) / 100
        if not is_fixed and crew > 0:
            seconds = seconds / crew
        return round(seconds / 60)

    def constraint(self, row: Row) -> Constraint | None:
        """Returns the date constraint of a task, or None."""
        node = row.node.child("constraint")
        if node is None or node.attribute("type") == _AS_SOON:
            return None
        text = node.attribute("type")
        kind = _CONSTRAINTS.get(text)
        if kind is None:
            self.fields.lose(row, "constraint", "this is no known constraint", text)
            return None
        if kind is ConstraintKind.AS_LATE_AS_POSSIBLE:
            return Constraint(kind, None)
        when = node.attribute("time")
        moment = _moment(when)
        if moment is None:
            why = f"its date {clip(when, 40)!r} is none" if when else "it has no date"
            self.fields.lose(row, "constraint", why, text)
            return None
        if kind is ConstraintKind.FINISH_NO_LATER:
            return Constraint(kind, moments.last_day(self.calendar, moment))
        return Constraint(kind, moment.date())

    def links(self, known: Mapping[str, Task | Group]) -> Iterator[Link]:
        """Yields the links of all rows that are carried over."""
        for row in self.rows:
            if row.uid not in known:
                continue
            for node in row.node.within("predecessors", "predecessor"):
                link = self.link(row, Attributes(node), known)
                if link is not None:
                    yield link

    def link(self, row: Row, part: Attributes, known: Mapping[str, Task | Group]) -> Link | None:
        """Returns a link to a row, or None and a loss."""
        before, text = part.text("predecessor-id"), part.text("type") or "FS"
        why = missing_task((before,), known)
        if not why and text not in _KINDS:
            why = "this is no kind of link"
        if why:
            self.fields.lose(row, "predecessor", why, f"{before} {text}")
            return None
        lag = self.fields.taken(row, "lag", part.text("lag") or "0", _seconds_of_lag)
        if lag is None:
            return None
        wait = Lag(round(lag / 60), elapsed=lag != 0)
        return Link(before, row.uid, _KINDS[text], wait, row.where, f"{clip(before, 20)}{text}")

    def read_resources(self) -> Iterator[Resource]:
        """Yields the resources."""
        for node in self.project.within("resources", "resource"):
            is_material = node.attribute("type") == _MATERIAL
            name = title(node.attribute("name"))
            place, part = NamedPlace(f"resource {clip(name, 60)}"), Attributes(node)
            yield Resource(
                node.attribute("id"),
                name,
                ResourceKind.MATERIAL if is_material else ResourceKind.WORK,
                "units" if is_material else "h",
                self.fields.part(place, part, "std-rate", fields.amount) or None,
                self.fields.part(place, part, "ovt-rate", fields.amount) or None,
            )

    def load(self, row: Row, part: Attributes, resource: Resource) -> Decimal | None:
        """Returns the percentage of an allocation; all of the resource if it says nothing."""
        if resource.kind is ResourceKind.MATERIAL:
            why = "the file says no quantity of a material"
            self.fields.lose(row, "units", why, f"resource {resource.uid}, {part.text('units')}")
            return None
        return self.fields.taken(row, "units", part.text("units") or "100", fields.positive)


def _seconds(text: str) -> Fraction | None:
    number = decimal(text)
    return None if number is None or abs(number) > _MOST_SECONDS else Fraction(number)


def _seconds_of_task(text: str) -> Fraction:
    seconds = _seconds(text)
    if seconds is None or seconds < 0:
        raise Unreadable("this is no duration; the task is left out")
    return seconds


def _seconds_of_lag(text: str) -> Fraction:
    seconds = _seconds(text)
    if seconds is None:
        raise Unreadable("this is no lag; the link is left out")
    return seconds


def _moment(text: str) -> datetime | None:
    """Returns the moment of `20260901T080000Z`, or None."""
    if len(text) < 15 or text[8:9] != "T" or not text[:8].isdigit() or not text[9:15].isdigit():
        return None
    clock = f"{text[9:11]}:{text[11:13]}:{text[13:15]}"
    return moments.moment(f"{text[:4]}-{text[4:6]}-{text[6:8]}T{clock}")


def _known_moment(text: str) -> datetime:
    found = _moment(text)
    if found is None:
        raise Unreadable("this is no date such as 20260901T080000Z")
    return found
