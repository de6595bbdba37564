"""Makes the resources and assignments of a plan from the cells of resources and work of a list."""

from collections.abc import Sequence
from dataclasses import dataclass, replace
from decimal import Decimal

from pert_companion.model.losses import LossKind
from pert_companion.model.plan import Assignment, Resource, ResourceKind, Task
from pert_companion.readers.cells import CellReader
from pert_companion.readers.grid import MOST_PARTS, Rate, clip
from pert_companion.readers.outline import Row
from pert_companion.readers.values import (
    Style,
    Unreadable,
    duration,
    is_nothing,
    number,
    text_of,
    whole_minutes,
)


@dataclass(frozen=True)
class ResourceText:
    """One resource of a cell: how many of it work, or how much of a material is used."""

    name: str
    quantity: Decimal
    unit: str
    """The unit of a material, or an empty text for what works."""
    text: str


class Assigner:
    """Collects who works on the tasks of a list, in the order in which the list names them."""

    def __init__(self, reader: CellReader, rates: Sequence[Rate]) -> None:
        self._reader = reader
        self._rates = {rate.name.casefold(): rate for rate in rates}
        self._resources: dict[tuple[str, str], Resource] = {}
        self._uids: set[str] = set()
        self._quantities: dict[tuple[str, str], Decimal] = {}

    @property
    def resources(self) -> tuple[Resource, ...]:
        """Returns the resources that some task uses."""
        return tuple(self._resources.values())

    @property
    def assignments(self) -> tuple[Assignment, ...]:
        """Returns how much of each resource each task uses."""
        return tuple(
            Assignment(task, resource, quantity)
            for (task, resource), quantity in self._quantities.items()
        )

    def add(self, task: Task, row: Row) -> None:
        """Adds the resources of the row of a task. A crew works as long as the task takes.

        A column of work has the hours of all crews of the task together.
        """
        parts = self._parts(row)
        crews = [part for part in parts if not self._unit_of(part)]
        minutes = self._minutes_each(task, row, crews)
        for part in parts:
            unit = self._unit_of(part)
            quantity = part.quantity if unit else part.quantity * minutes
            if quantity <= 0:
                self._reader.lose(row, "resources", "it works for no time here", part.text)
                continue
            resource = self._resource(part, unit)
            key = (task.uid, resource.uid)
            self._quantities[key] = self._quantities.get(key, Decimal(0)) + quantity

    def _parts(self, row: Row) -> list[ResourceText]:
        if is_nothing(row.cell("resources")):
            return []
        text = text_of(row.cell("resources"))
        parts, wrong = resources_in(text, self._reader.style)
        for piece, why in wrong:
            self._reader.lose(row, "resources", why, piece)
        return parts

    def _unit_of(self, part: ResourceText) -> str:
        """Returns the unit of a material; an empty text for what works."""
        rate = self._rates.get(part.name.casefold())
        if part.unit or rate is None or not rate.is_material:
            return part.unit
        return rate.unit or "units"

    def _minutes_each(self, task: Task, row: Row, crews: Sequence[ResourceText]) -> Decimal:
        """Returns the minutes that a whole crew of the task works."""
        if is_nothing(row.cell("work")):
            return Decimal(task.minutes)
        unit = self._reader.head.units.get("work", "hours")
        try:
            work = duration(row.cell("work"), self._reader.style, unit)
        except Unreadable as reason:
            self._reader.lose(row, "work", str(reason))
            return Decimal(task.minutes)
        minutes = whole_minutes(work.minutes)
        if work.is_elapsed:
            why = "elapsed time is counted as work"
            self._reader.lose(row, "work", why, kind=LossKind.ELAPSED)
        units = sum((part.quantity for part in crews), Decimal(0))
        if not units:
            if minutes:
                self._reader.lose(row, "work", "there is no resource that does it")
            return Decimal(task.minutes)
        return Decimal(minutes) / units

    def _resource(self, part: ResourceText, unit: str) -> Resource:
        """Returns the resource of a name and a unit, made where it is named first."""
        key = (part.name.casefold(), unit.casefold())
        found = self._resources.get(key)
        if found is not None:
            return found
        name = clip(" ".join(part.name.split()), 200)
        uid = f"{name} ({unit or 'h'})" if name in self._uids else name
        self._uids.add(uid)
        rate = self._rates.get(part.name.casefold(), Rate(name))
        if unit:
            made = Resource(uid, name, ResourceKind.MATERIAL, unit, rate.rate)
        else:
            made = Resource(uid, name, rate=rate.rate, overtime_rate=rate.overtime_rate)
        made = replace(made, capacity=rate.capacity)
        self._resources[key] = made
        return made


def _resource_parts(text: str) -> list[str]:
    """Returns the resources of a cell, split at marks that are not inside brackets."""
    outside = ""
    depth = 0
    pieces: list[str] = []
    current: list[str] = []
    marks = []
    for character in text:
        depth += (character == "[") - (character == "]" and depth > 0)
        if character in ";,\r\n" and depth == 0:
            pieces.append("".join(current))
            marks.append(character)
            current = []
        else:
            current.append(character)
    pieces.append("".join(current))
    outside = ";" if ";" in marks else ","
    parts = [pieces[0]]
    for mark, piece in zip(marks, pieces[1:], strict=True):
        if mark in (outside, "\r", "\n"):
            parts.append(piece)
        else:
            parts[-1] += mark + piece
    return [part.strip() for part in parts if part.strip()]


def _resource(part: str, style: Style) -> ResourceText:
    name, bracket, rest = part.partition("[")
    name = name.strip()
    if not name:
        raise Unreadable("a quantity without a resource")
    if not bracket:
        return ResourceText(name, Decimal(1), "", part)
    inside = rest.rstrip("] ").strip()
    digits = inside
    for position, character in enumerate(inside):
        if not (character.isdigit() or character in ".,'’"):
            digits = inside[:position]
            break
    unit = inside[len(digits) :].strip()
    try:
        quantity = number(digits, style)
    except Unreadable as reason:
        raise Unreadable("the brackets hold no quantity") from reason
    if unit == "%":
        return ResourceText(name, quantity / 100, "", part)
    if "/" in unit:
        raise Unreadable("an amount per time depends on the schedule; write the whole amount")
    return ResourceText(name, quantity, unit, part)


def resources_in(text: str, style: Style) -> tuple[list[ResourceText], list[tuple[str, str]]]:
    """Returns the resources of a cell (`Carpenters[50%]; Concrete[12 m3]`), and what is none.

    What cannot be read comes as pairs of its text and the reason.
    """
    found = []
    wrong = []
    parts = _resource_parts(text)
    if len(parts) > MOST_PARTS:
        return [], [(text, f"more than {MOST_PARTS} resources in one cell")]
    for part in parts:
        try:
            found.append(_resource(part, style))
        except Unreadable as reason:
            wrong.append((part, str(reason)))
    return found, wrong
