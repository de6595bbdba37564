"""What GanttProject and GNOME Planner share: tasks inside tasks, and what a reader makes of them.

Both files have an element for each task, which holds the elements of the tasks below it; the fields
of a task are attributes.
"""

from abc import ABC, abstractmethod
from collections.abc import Iterator, Mapping, Sequence
from dataclasses import dataclass
from datetime import date
from decimal import Decimal
from fractions import Fraction

from pert_companion.model.calendar import Calendar
from pert_companion.model.errors import InputError
from pert_companion.model.losses import Loss, LossKind
from pert_companion.model.plan import (
    Assignment,
    Group,
    Link,
    Plan,
    Resource,
    ResourceKind,
    Task,
)
from pert_companion.model.source import Source
from pert_companion.model.xmltree import Node, nested, whole
from pert_companion.readers.base import ReaderOptions, Reading
from pert_companion.readers.fields import TextReader
from pert_companion.readers.grid import MOST_ROWS, clip

_PERCENT_OF_HOUR = 6000
"""Minutes of an hour times percent."""
_KINDS = {
    "start": LossKind.DATE,
    "end": LossKind.DATE,
    "work-start": LossKind.DATE,
    "project-start": LossKind.DATE,
    "duration": LossKind.TASK,
    "work": LossKind.TASK,
    "complete": LossKind.PROGRESS,
    "percent-complete": LossKind.PROGRESS,
    "thirdDate": LossKind.CONSTRAINT,
    "constraint": LossKind.CONSTRAINT,
    "cost-manual-value": LossKind.COST,
    "rate": LossKind.RESOURCE,
    "std-rate": LossKind.RESOURCE,
    "ovt-rate": LossKind.RESOURCE,
    "load": LossKind.RESOURCE,
    "units": LossKind.RESOURCE,
    "crash": LossKind.CRASH,
    "slope": LossKind.CRASH,
    "crash cost": LossKind.CRASH,
    "depend": LossKind.LINK,
    "predecessor": LossKind.LINK,
    "lag": LossKind.LINK,
    "previous-task": LossKind.BASELINE,
    "Calendar": LossKind.CALENDAR,
}
"""The kind of loss of each field that cannot be read."""


@dataclass(frozen=True)
class Row:
    """A row of the outline: its element, its group, and whether it has rows below it."""

    node: Node
    parent: str | None
    is_group: bool

    @property
    def uid(self) -> str:
        """Returns the id of the row."""
        return self.node.attribute("id")

    @property
    def name(self) -> str:
        """Returns the name of the row."""
        return title(self.node.attribute("name"))

    @property
    def where(self) -> str:
        """Returns the place for messages."""
        return f"task id {clip(self.uid, 20)}"

    def text(self, name: str) -> str:
        """Returns the text of an attribute."""
        return self.node.attribute(name)


@dataclass(frozen=True)
class Attributes:
    """An element whose fields are its attributes."""

    node: Node

    def text(self, name: str) -> str:
        """Returns the text of an attribute."""
        return self.node.attribute(name)


@dataclass(frozen=True)
class Load:
    """How many percent of a resource work on a task."""

    resource: Resource
    percent: Decimal


class TreeReader(ABC):
    """Reads one file; a format adds what its elements mean."""

    format = ""

    def __init__(self, source: Source, options: ReaderOptions, project: Node) -> None:
        self.source = source
        self.options = options
        self.project = project
        self.losses: list[Loss] = []
        self.fields = TextReader(_KINDS, self.losses, LossKind.FIELD)
        self.rows = tuple(self._rows())
        self.start = self.first_day()
        self.calendar = self.plan_calendar()
        self.resources = {resource.uid: resource for resource in self.read_resources()}
        self.loads = self._loads()

    @abstractmethod
    def first_day(self) -> date:
        """Returns the first day of the project."""

    @abstractmethod
    def plan_calendar(self) -> Calendar:
        """Returns the calendar of the plan."""

    @abstractmethod
    def task(self, row: Row) -> Task | None:
        """Returns the task of a row, or None and a loss."""

    @abstractmethod
    def links(self, known: Mapping[str, Task | Group]) -> Iterator[Link]:
        """Yields the links between entries that are carried over."""

    @abstractmethod
    def read_resources(self) -> Iterator[Resource]:
        """Yields the resources."""

    @abstractmethod
    def load(self, row: Row, part: Attributes, resource: Resource) -> Decimal | None:
        """Returns the percentage of an allocation, or None and a loss."""

    def notes(self) -> Iterator[str]:
        """Yields what is to be said of the file; nothing, unless a format has something."""
        return iter(())

    def own_calendars(self) -> tuple[Calendar, ...]:
        """Returns the calendars that tasks have besides the plan's."""
        return ()

    def group(self, row: Row) -> Group:
        """Returns the group of a row."""
        return Group(row.uid, row.where, row.name, row.parent, row=whole(row.uid))

    def reading(self) -> Reading:
        """Returns the plan and its losses."""
        entries: dict[str, Task | Group] = {}
        for row in self.rows:
            entry = self.group(row) if row.is_group else self.task(row)
            if entry is not None:
                entries[row.uid] = entry
        if not any(isinstance(entry, Task) for entry in entries.values()):
            reason = self.losses[0].line(self.source.name) if self.losses else ""
            raise InputError(reason or f"{self.source.name}: no tasks")
        name = self.options.name or title(self.project.attribute("name"))
        plan = Plan(
            name=name or self.source.path.stem,
            start=self.start,
            calendar=self.calendar,
            outline=tuple(entries.values()),
            links=tuple(self.links(entries)),
            resources=tuple(self.resources.values()),
            assignments=tuple(self._assignments(entries)),
            data_date=self.options.data_date,
            source=self.format,
            calendars=self.own_calendars(),
            notes=tuple(self.notes()),
        )
        return Reading(plan, tuple(self.losses))

    def cost_of_resources(self, row: Row, minutes: int) -> Decimal | None:
        """Returns what the crews of a task cost, or None if none of them has a rate."""
        total: Fraction | None = None
        for load in self.loads.get(row.uid, ()):
            rate = load.resource.rate
            if rate is not None and load.resource.kind is ResourceKind.WORK:
                cost = Fraction(rate) * Fraction(load.percent) * minutes / _PERCENT_OF_HOUR
                total = (total or Fraction(0)) + cost
        return None if total is None else round(Decimal(total.numerator) / total.denominator, 2)

    def _rows(self) -> Iterator[Row]:
        """Yields the rows in order. Raises `InputError` if an id is missing or not unique."""
        seen: set[str] = set()
        for node, above in nested(self.project.child("tasks"), "task"):
            uid = node.attribute("id")
            if not uid or uid in seen:
                raise InputError(f"{self.source.name}: task id {clip(uid, 20)!r} is not unique")
            if len(seen) >= MOST_ROWS:
                raise InputError(f"{self.source.name}: more than {MOST_ROWS} tasks")
            seen.add(uid)
            parent = None if above is None else above.attribute("id")
            yield Row(node, parent, node.has("task"))

    def _loads(self) -> dict[str, list[Load]]:
        """Returns who works on each task; an allocation to nobody is a loss."""
        rows = {row.uid: row for row in self.rows}
        found: dict[str, list[Load]] = {}
        for node in self.project.within("allocations", "allocation"):
            part = Attributes(node)
            row, resource = rows.get(part.text("task-id")), part.text("resource-id")
            if row is None or resource not in self.resources:
                self._lose_allocation(part, row)
                continue
            percent = self.load(row, part, self.resources[resource])
            if percent is not None:
                found.setdefault(row.uid, []).append(Load(self.resources[resource], percent))
        return found

    def _lose_allocation(self, part: Attributes, row: Row | None) -> None:
        shown = f"task {part.text('task-id')}, resource {part.text('resource-id')}"
        place = f"allocation of task id {clip(part.text('task-id'), 20)}"
        name = "" if row is None else row.name
        why = "there is no such task or resource"
        self.losses.append(Loss(LossKind.RESOURCE, place, name, "allocation", clip(shown, 60), why))

    def _assignments(self, entries: Mapping[str, Task | Group]) -> Iterator[Assignment]:
        """Yields how long each resource works on each task."""
        for uid, loads in self.loads.items():
            entry = entries.get(uid)
            if not isinstance(entry, Task) or not entry.minutes:
                continue
            for load in loads:
                if load.percent:
                    quantity = load.percent * entry.minutes / 100
                    yield Assignment(uid, load.resource.uid, quantity)


def missing_task(rows: Sequence[str], known: Mapping[str, Task | Group]) -> str:
    """Returns why a link between these ids is left out, or an empty text if both are known."""
    if all(uid in known for uid in rows):
        return ""
    return "one of the tasks is not in this file or not carried over"


def title(text: str) -> str:
    """Returns a text in one line."""
    return " ".join(text.split())
