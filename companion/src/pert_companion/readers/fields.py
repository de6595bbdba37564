"""The one way in which readers take the values of fields: what cannot be read is a loss.

A field is empty, or it has a value, or it is a loss that names row, task, field and text. None
means only that nothing was there, or that a loss says what was.
"""

from abc import ABC, abstractmethod
from collections.abc import Callable, Mapping
from dataclasses import dataclass
from datetime import date, datetime
from decimal import Decimal
from typing import Generic, Protocol, TypeVar

from pert_companion.model import moments, xmltree
from pert_companion.model.calendar import Calendar
from pert_companion.model.losses import Loss, LossKind
from pert_companion.readers.grid import clip
from pert_companion.readers.values import Unreadable, is_nothing

_ALL = 100


class Place(Protocol):
    """A row, task or activity of a file, as losses name it."""

    @property
    def where(self) -> str:
        """Returns its place: `row 12`, `task UID 7`."""

    @property
    def name(self) -> str:
        """Returns its name, or an empty text."""


class Texts(Protocol):
    """What has fields that are texts."""

    def text(self, name: str) -> str:
        """Returns the text of a field; an empty one if there is none."""


class TextRow(Texts, Place, Protocol):
    """A row of a planner's file."""


@dataclass(frozen=True)
class NamedPlace:
    """A place that is no row: a resource, a calendar, the project itself."""

    where: str
    name: str = ""


P = TypeVar("P", bound=Place)
V = TypeVar("V")
T = TypeVar("T")


class FieldReader(ABC, Generic[P, V]):
    """Reads the fields of rows. What is there and cannot be read is a loss, and reads as None."""

    def __init__(self, kinds: Mapping[str, LossKind], losses: list[Loss], usual: LossKind) -> None:
        """Takes the kind of the losses of each field, where losses go, and the kind of others."""
        self.losses = losses
        self._kinds = kinds
        self._usual = usual

    @abstractmethod
    def value(self, row: P, name: str) -> V | None:
        """Returns what a field holds; None if it is empty."""

    @abstractmethod
    def shown(self, row: P, name: str) -> str:
        """Returns what a field holds as a text for messages."""

    def text_of(self, given: V) -> str:
        """Returns a value as a text for messages."""
        return str(given)

    def heading(self, name: str) -> str:
        """Returns what the file calls a field."""
        return name

    def read(self, row: P, name: str, convert: Callable[[V], T]) -> T | None:
        """Returns the value of a field; None if it is empty or, with a loss, unreadable."""
        given = self.value(row, name)
        return None if given is None else self.taken(row, name, given, convert)

    def taken(self, row: Place, name: str, given: V, convert: Callable[[V], T]) -> T | None:
        """Returns what a value means, or None and a loss at a place."""
        try:
            return convert(given)
        except Unreadable as reason:
            self.name_loss(row, name, str(reason), self.text_of(given))
            return None

    def lose(
        self,
        row: P,
        name: str,
        why: str,
        text: str | None = None,
        kind: LossKind | None = None,
    ) -> None:
        """Keeps a loss: of a field, or of the part of it that `text` is."""
        self.name_loss(row, name, why, self.shown(row, name) if text is None else text, kind)

    def name_loss(
        self, row: Place, name: str, why: str, text: str, kind: LossKind | None = None
    ) -> None:
        """Keeps a loss of any place."""
        known = self._kinds.get(name, self._usual) if kind is None else kind
        heading, shown = self.heading(name), clip(text)
        self.losses.append(Loss(known, row.where, clip(row.name), heading, shown, why))


class TextReader(FieldReader[TextRow, str]):
    """Reads the fields of planners' files, which are texts in one form in every country."""

    def value(self, row: TextRow, name: str) -> str | None:
        """Returns the text of a field; None if it is empty or says that there is nothing."""
        return given(row.text(name))

    def shown(self, row: TextRow, name: str) -> str:
        """Returns the text of a field."""
        return row.text(name)

    def part(
        self,
        row: Place,
        part: Texts,
        name: str,
        convert: Callable[[str], T],
        label: str = "",
    ) -> T | None:
        """Returns the value of a field of a part of a row, such as a link; losses name the row."""
        text = given(part.text(name))
        return None if text is None else self.taken(row, label or name, text, convert)


def given(text: str) -> str | None:
    """Returns a text, or None if it is empty or says that there is nothing (`NA`)."""
    return None if is_nothing(text) else text


def number(text: str) -> Decimal:
    """Returns a number in the form of XML: `-12.5`, `1e3`."""
    return _known(xmltree.decimal(text), "this is no number")


def positive(text: str) -> Decimal:
    """Returns a number that is not negative."""
    found = number(text)
    if found < 0:
        raise Unreadable("this is negative")
    return found


def amount(text: str) -> Decimal:
    """Returns an amount of money."""
    return _known(xmltree.decimal(text), "this is no amount")


def percentage(text: str) -> Decimal:
    """Returns a percentage from 0 to 100."""
    found = _known(xmltree.decimal(text), "this is no percentage")
    if not 0 <= found <= _ALL:
        raise Unreadable("a percentage is from 0 to 100")
    return found


def day(text: str) -> date:
    """Returns the day of a moment."""
    return moment(text).date()


def moment(text: str) -> datetime:
    """Returns a moment such as `2026-09-01T08:00:00`."""
    return _known(moments.moment(text), _no_date())


def start_day(calendar: Calendar) -> Callable[[str], date]:
    """Returns what makes the first day of work of the text of a start."""
    return lambda text: _known(moments.start_day(calendar, text), _no_date())


def finish_day(calendar: Calendar) -> Callable[[str], date]:
    """Returns what makes the last day of work of the text of a finish."""
    return lambda text: _known(moments.finish_day(calendar, text), _no_date())


def _no_date() -> str:
    first, last = moments.FIRST_YEAR, moments.LAST_YEAR
    return f"this is no date from {first} to {last} such as 2026-09-01T08:00:00"


def _known(found: T | None, why: str) -> T:
    if found is None:
        raise Unreadable(why)
    return found
