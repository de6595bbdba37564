"""Puts a schedule into the file of GanttProject (.gan) that its plan came from.

GanttProject has the start, the duration in whole days and the percent complete of a task, and no
date of the report. A task under way lasts what was done of it and what is left, and its percent is
such that as much is left as the schedule says. Elements that do not change keep their bytes.
"""

import math
from collections.abc import Iterable, Iterator
from datetime import date, datetime
from fractions import Fraction
from itertools import count
from xml.etree.ElementTree import Element

from pert_companion.analysis.schedule import Schedule, ScheduledTask
from pert_companion.model import moments
from pert_companion.model.crash_fields import COST_NAMES, CRASH_NAMES, SLOPE_NAMES
from pert_companion.model.errors import InputError
from pert_companion.model.sidefile import SideFile
from pert_companion.model.xmltree import Node, decimal, local_name, nested, whole
from pert_companion.writers.changed_fields import CHANGED
from pert_companion.writers.price_fields import (
    cost_at_shortest,
    duration_like,
    number_text,
    shortest_of_begun,
)
from pert_companion.writers.xml_edits import XmlFile

START = "start"
DURATION = "duration"
PERCENT = "complete"
COST = "cost-manual-value"
IS_CALCULATED = "cost-calculated"
VALUE = "value"
_ALL = 100


def into_gan(
    original: bytes, name: str, schedule: Schedule, side: SideFile
) -> tuple[bytes, list[str]]:
    """Returns the original with a schedule of what is left, and what did not fit.

    Tasks are found by their ids. Finished tasks stay as they are; begun ones keep their start. Each
    task of the schedule that the original lacks is named, and each that gets a part of a day.
    Raises `InputError` if the original is no file of GanttProject.
    """
    xml = XmlFile(original, name)
    if local_name(xml.root) != "project":
        raise InputError(f"{name}: not a file of GanttProject")
    change = _Change(xml, side)
    faults = []
    for task in schedule.tasks:
        if task.uid not in change.tasks:
            faults.append(f"{name}: no task with id {task.uid} ({task.name})")
            continue
        part = change.put(change.tasks[task.uid], task)
        if part:
            faults.append(f"{name}: task id {task.uid} ({task.name}): {part}")
    change.put_groups()
    return xml.changed(), faults


class _Change:
    """Changes the elements of one file."""

    def __init__(self, xml: XmlFile, side: SideFile) -> None:
        self.xml = xml
        self.side = side
        self.calendar = side.calendar
        holder = Node(xml.root).child("tasks")
        self.rows = [(node.element, above) for node, above in nested(holder, "task")]
        self.tasks = {element.get("id", ""): element for element, _ in self.rows}
        self.changed: set[Element] = set()
        self.columns = {} if holder is None else dict(_columns(holder))

    def set(self, element: Element, name: str, text: str) -> None:
        """Sets an attribute that an element has, and that a schedule may change."""
        before = element.get(name, "").strip()
        may_change = name in CHANGED["gan"][local_name(element)]
        if before and before != text and may_change:
            self.xml.set_attribute(element, name, text)
            self.changed.add(element)

    def put(self, element: Element, task: ScheduledTask) -> str:
        """Puts an unfinished task of the schedule into its element; returns what does not fit."""
        percent = decimal(element.get(PERCENT, "")) or 0
        if percent >= _ALL:
            return ""
        fault = self.shorten(element, task, bool(percent)) if task.shortened_minutes else ""
        if not percent:
            self.put_start(element, task.start)
        return fault

    def put_start(self, element: Element, moment: datetime) -> None:
        """Sets the first day, unless no work is between it and the one that the file has."""
        before = moments.moment(element.get(START, ""))
        position = self.calendar.position(moment)
        if before is None or self.calendar.position(before) != position:
            self.set(element, START, self.calendar.at(position).date().isoformat())

    def shorten(self, element: Element, task: ScheduledTask, has_begun: bool) -> str:
        """Gives a task its chosen duration, and what goes with it."""
        day = self.calendar.day_minutes
        before = whole(element.get(DURATION, "")) or 0
        exact = max(Fraction(0), before - Fraction(task.shortened_minutes, day))
        days = math.ceil(exact)
        fault = ""
        if days != exact:
            fault = f"{number_text(exact)} days; the file has whole days: {days}"
        if has_begun:
            days, percent = days_and_percent(days, math.ceil(Fraction(task.left_minutes, day)))
            self.set(element, PERCENT, str(percent))
        self.set(element, DURATION, str(days))
        cost = self.put_cost(element, task)
        self.put_prices(element, task, days * day, cost)
        return fault

    def put_cost(self, element: Element, task: ScheduledTask) -> Fraction:
        """Sets the cost of a shortened task, which is its own from now on, and returns it."""
        scale = self.side.money_scale
        cost = Fraction(task.cost, scale)
        own = decimal(element.get(COST, ""))
        if own is not None and element.get(IS_CALCULATED) == "false":
            cost = Fraction(own) + Fraction(task.extra_cost, scale)
        if task.extra_cost:
            for name, text in ((COST, number_text(cost)), (IS_CALCULATED, "false")):
                if name in element.attrib:
                    self.xml.set_attribute(element, name, text)
                else:
                    self.xml.add_attribute(element, name, text)
        return cost

    def put_prices(
        self, element: Element, task: ScheduledTask, lasting: int, cost: Fraction
    ) -> None:
        """Sets the custom columns of a shortened task that lasts so many minutes now."""
        shortest = self.value(element, CRASH_NAMES)
        if shortest is None:
            return
        least = task.shortest_minutes
        if decimal(element.get(PERCENT, "")):
            least = shortest_of_begun(task, lasting, self.side.unit_minutes)
            least -= least % self.calendar.day_minutes
            self.set(shortest, VALUE, duration_like(shortest.get(VALUE, ""), least, self.calendar))
        total = self.value(element, COST_NAMES)
        if total is None or self.value(element, SLOPE_NAMES) is not None:
            return
        amount = cost_at_shortest(task, self.side, cost, lasting, least)
        if decimal(total.get(VALUE, "")) != amount:
            self.set(total, VALUE, number_text(amount))

    def value(self, element: Element, names: Iterable[str]) -> Element | None:
        """Returns the custom column of a task with one of these names that has a value, or None."""
        found: dict[str, Element] = {}
        for child in element.iterfind("customproperty"):
            column = self.columns.get(child.get("taskproperty-id", ""))
            if column is not None and child.get(VALUE, "").strip():
                found.setdefault(column, child)
        return next((found[name] for name in names if name in found), None)

    def put_groups(self) -> None:
        """Sets the start and duration of groups to those of the rows below, if any changed."""
        below: dict[Element, list[Element]] = {}
        for element, above in reversed(self.rows):
            if element in below:
                self.put_group(element, below[element])
            if above is not None:
                below.setdefault(above.element, []).append(element)

    def put_group(self, element: Element, below: list[Element]) -> None:
        """Sets the start and duration of a group to those of the rows right below it."""
        if self.changed.isdisjoint(below):
            return
        spans = [span for span in map(self.span, below) if span is not None]
        if not spans:
            return
        self.changed.add(element)
        start = min(first for first, _ in spans)
        finish = max(last for _, last in spans)
        self.put_start(element, self.calendar.morning(start))
        minutes = self.calendar.between(self.calendar.morning(start), finish)
        self.set(element, DURATION, str(math.ceil(Fraction(minutes, self.calendar.day_minutes))))

    def span(self, element: Element) -> tuple[date, datetime] | None:
        """Returns the first day of a row and the moment at which it ends, or None."""
        start = moments.day(element.get(START, ""))
        days = whole(element.get(DURATION, ""))
        if start is None or days is None:
            return None
        morning = self.calendar.morning(start)
        return start, self.calendar.end_of(morning, max(0, days) * self.calendar.day_minutes)


def days_and_percent(days: int, left: int) -> tuple[int, int]:
    """Returns a duration and a whole percentage by which so many days are left of it.

    What is left is rounded up to days, and at least one day. The duration is `days`, or the nearest
    one that has such a percentage: each one below 100 days has.
    """
    left = max(1, left)
    lasting = max(left, days)
    for distance in count():
        for near in (lasting + distance, lasting - distance):
            percent = min(_ALL - 1, max(1, _ALL - _ALL * left // max(1, near)))
            if near >= left and math.ceil(Fraction(near * (_ALL - percent), _ALL)) == left:
                return near, percent
    raise AssertionError("a duration of 100 times what is left has a percentage")


def _columns(tasks: Node) -> Iterator[tuple[str, str]]:
    """Yields the id of each custom column, and its name in small letters."""
    for node in tasks.within("taskproperties", "taskproperty"):
        if node.attribute("type") == "custom":
            yield node.attribute("id"), node.attribute("name").casefold()
