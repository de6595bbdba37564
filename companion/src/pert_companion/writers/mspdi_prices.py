"""Keeps the prices of further shortening in the custom fields of a file of MS Project."""

from collections.abc import Iterator
from fractions import Fraction
from typing import Protocol
from xml.etree.ElementTree import Element

from pert_companion.analysis.schedule import ScheduledTask
from pert_companion.model.crash_fields import COST_NAMES, CRASH_NAMES, SLOPE_NAMES
from pert_companion.model.sidefile import SideFile
from pert_companion.model.xmltree import decimal
from pert_companion.state.remaining import State
from pert_companion.writers.mspdi_elements import duration_text, minutes_of, name_of
from pert_companion.writers.price_fields import (
    cost_at_shortest,
    keeps_cost_at_shortest,
    number_text,
    shortest_of_begun,
)

_CENTS = 100
_COST_FIELDS = ("cost", "kosten")
"""How the names of custom fields begin that hold amounts, in hundredths."""


class Setter(Protocol):
    """Changes elements."""

    def set(self, element: Element, tag: str, text: str) -> None:
        """Sets the text of a child."""


class Prices:
    """The custom fields of one file that say how tasks are shortened."""

    def __init__(self, root: Element, side: SideFile) -> None:
        """Takes the project's element."""
        self.side = side
        self.names: dict[str, tuple[str, str]] = {}
        path = f"{name_of('ExtendedAttributes')}/{name_of('ExtendedAttribute')}"
        for element in root.iterfind(path):
            names = (_text(element, "FieldName"), _text(element, "Alias"))
            self.names[_text(element, "FieldID")] = (names[0].casefold(), names[1].casefold())

    def put(self, setter: Setter, element: Element, task: ScheduledTask, lasting: int) -> None:
        """Sets the fields of a shortened task that lasts so many minutes now."""
        shortest = next(self._fields(element, CRASH_NAMES), None)
        if shortest is None:
            return
        least = minutes_of(_text(shortest, "Value"))
        if task.state is State.BEGUN and task.left_minutes:
            least = shortest_of_begun(task, lasting, self.side.unit_minutes)
            setter.set(shortest, "Value", duration_text(least))
        cost = next(self._fields(element, COST_NAMES), None)
        if cost is None or least is None or any(True for _ in self._fields(element, SLOPE_NAMES)):
            return
        if keeps_cost_at_shortest(task):
            return
        total = Fraction(decimal(_text(element, "Cost")) or 0) / _CENTS
        amount = cost_at_shortest(task, self.side, total, lasting, least)
        if self._is_amount(cost):
            amount *= _CENTS
        setter.set(cost, "Value", number_text(amount))

    def _fields(self, element: Element, wanted: tuple[str, ...]) -> Iterator[Element]:
        """Yields the fields of a task that have one of these names."""
        for field in element.iterfind(name_of("ExtendedAttribute")):
            known = self.names.get(_text(field, "FieldID"), ("", ""))
            if any(name in wanted for name in known) and _text(field, "Value"):
                yield field

    def _is_amount(self, field: Element) -> bool:
        name = self.names[_text(field, "FieldID")][0]
        return name.startswith(_COST_FIELDS)


def _text(element: Element, tag: str) -> str:
    return (element.findtext(name_of(tag)) or "").strip()
