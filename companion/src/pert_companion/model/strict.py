"""JSON with types checked: each value is asked for by name, type and bounds, or is one error."""

import json
import re
from datetime import date, datetime
from decimal import Decimal
from typing import Any

from pert_companion.model.errors import InputError

MAX_TEXT = 100_000
"""The most characters of one text."""
FIRST_YEAR = 1900
LAST_YEAR = 2199
"""The years that a deck can name."""

_DAY = re.compile(r"[0-9]{4}-[0-9]{2}-[0-9]{2}")
_MOMENT = re.compile(r"[0-9]{4}-[0-9]{2}-[0-9]{2}T[0-9]{2}:[0-9]{2}")
_SURROGATE = re.compile("[\ud800-\udfff]")
_DECIMAL = re.compile(r"-?[0-9]{1,20}(?:\.[0-9]{1,10})?")


def parse(data: bytes, name: str) -> Any:
    """Returns the value of JSON in UTF-8; `InputError` names the file and the fault.

    Numbers with a fraction, `NaN`, infinities and keys that occur twice are faults too.
    """
    try:
        return json.loads(
            data.decode("utf-8"),
            object_pairs_hook=_object,
            parse_int=_integer,
            parse_float=_no_float,
            parse_constant=_no_float,
        )
    except UnicodeDecodeError as error:
        raise InputError(f"{name}: not in UTF-8 at byte {error.start + 1}") from None
    except json.JSONDecodeError as error:
        raise InputError(f"{name}: no JSON: {error.msg} in line {error.lineno}") from None
    except RecursionError:
        raise InputError(f"{name}: nested too deeply") from None
    except _ValueFault as error:
        raise InputError(f"{name}: {error}") from None


def parse_day(text: str) -> date | None:
    """Returns a date that is written as YYYY-MM-DD, or None."""
    try:
        return date.fromisoformat(text) if _DAY.fullmatch(text) else None
    except ValueError:
        return None


class _ValueFault(ValueError):
    """A value that JSON allows and this package does not."""


def _object(pairs: list[tuple[str, Any]]) -> dict[str, Any]:
    content = dict(pairs)
    if len(content) != len(pairs):
        raise _ValueFault("a key occurs twice")
    return content


def _integer(text: str) -> int:
    if len(text) > 20:
        raise _ValueFault("a number with more than 20 digits")
    return int(text)


def _no_float(text: str) -> float:
    raise _ValueFault(f"{text[:20]} is no whole number")


class Fields:
    """The fields of one JSON object, each asked for once; `end` refuses what nobody asked for."""

    def __init__(self, value: Any, name: str, place: str) -> None:
        """Takes the value at `place` (a path such as `tasks[3]`) of the file `name`."""
        self._name = name
        self._place = place
        if not isinstance(value, dict):
            raise InputError(f"{name}: {place or 'the file'} is no object")
        self._values: dict[str, Any] = value
        self._asked: set[str] = set()

    def fault(self, text: str, field: str = "") -> InputError:
        """Returns the error for a field, or for the object itself."""
        place = ".".join(part for part in (self._place, field) if part)
        return InputError(f"{self._name}: {place}: {text}" if place else f"{self._name}: {text}")

    def has(self, field: str) -> bool:
        """Says whether the object has the field and it is not null."""
        self._asked.add(field)
        return self._values.get(field) is not None

    def end(self) -> None:
        """Raises `InputError` if the object has fields that were not asked for."""
        unknown = sorted(self._values.keys() - self._asked)
        if unknown:
            raise self.fault(f"unknown key {unknown[0][:40]!r}")

    def text(self, field: str) -> str:
        """Returns a text of at most `MAX_TEXT` characters."""
        return self._as_text(field, self._value(field))

    def optional_text(self, field: str) -> str | None:
        """Returns a text, or None for null or an absent field."""
        return self.text(field) if self.has(field) else None

    def texts(self, field: str) -> tuple[str, ...]:
        """Returns a list of texts."""
        return tuple(self._as_text(field, value) for value in self._list(field))

    def mapping(self, field: str) -> dict[str, str]:
        """Returns an object whose values are texts."""
        value = self._value(field)
        if not isinstance(value, dict):
            raise self.fault("it is no object", field)
        texts = {}
        for key, text in value.items():
            texts[self._as_text(field, key)] = self._as_text(field, text)
        return texts

    def integer(self, field: str, low: int, high: int) -> int:
        """Returns a whole number from `low` to `high`, both inclusive."""
        return self._as_integer(field, self._value(field), low, high)

    def optional_integer(self, field: str, low: int, high: int) -> int | None:
        """Returns a whole number, or None for null or an absent field."""
        return self.integer(field, low, high) if self.has(field) else None

    def day(self, field: str) -> date:
        """Returns a date of the years of decks that is written as YYYY-MM-DD."""
        text = self.text(field)
        day = parse_day(text)
        if day is None:
            raise self.fault(f"{text[:40]!r} is no date", field)
        if not FIRST_YEAR <= day.year <= LAST_YEAR:
            raise self.fault(f"{day} is not in the years {FIRST_YEAR} to {LAST_YEAR}", field)
        return day

    def optional_day(self, field: str) -> date | None:
        """Returns a date, or None for null or an absent field."""
        return self.day(field) if self.has(field) else None

    def moment(self, field: str) -> datetime:
        """Returns a moment of the years of decks that is written as YYYY-MM-DDThh:mm."""
        text = self.text(field)
        try:
            moment = datetime.fromisoformat(text) if _MOMENT.fullmatch(text) else None
        except ValueError:
            moment = None
        if moment is None or not FIRST_YEAR <= moment.year <= LAST_YEAR:
            raise self.fault(f"{text[:40]!r} is no moment", field)
        return moment

    def optional_decimal(self, field: str) -> Decimal | None:
        """Returns a decimal number that is written as a text, or None."""
        text = self.optional_text(field)
        if text is None:
            return None
        if not _DECIMAL.fullmatch(text):
            raise self.fault(f"{text[:40]!r} is no decimal number", field)
        return Decimal(text)

    def boolean(self, field: str) -> bool:
        """Returns whether a field is true."""
        value = self._value(field)
        if not isinstance(value, bool):
            raise self.fault("it is neither true nor false", field)
        return value

    def inner(self, field: str) -> "Fields":
        """Returns the fields of an object in this one."""
        return Fields(self._value(field), self._name, self._path(field))

    def entries(self, field: str) -> list["Fields"]:
        """Returns the objects of a list, each with its place."""
        found = []
        for number, value in enumerate(self._list(field)):
            found.append(Fields(value, self._name, f"{self._path(field)}[{number}]"))
        return found

    def pairs(self, field: str) -> tuple[tuple[int, int], ...]:
        """Returns a list of pairs of whole numbers, minutes of a day."""
        return self._as_pairs(field, self._list(field))

    def lists_of_pairs(self, field: str) -> tuple[tuple[tuple[int, int], ...], ...]:
        """Returns a list of lists of pairs of whole numbers."""
        return tuple(self._as_pairs(field, value) for value in self._list(field))

    def _path(self, field: str) -> str:
        return f"{self._place}.{field}" if self._place else field

    def _value(self, field: str) -> Any:
        self._asked.add(field)
        if field not in self._values:
            raise self.fault("it is missing", field)
        return self._values[field]

    def _list(self, field: str) -> list[Any]:
        value = self._value(field)
        if not isinstance(value, list):
            raise self.fault("it is no list", field)
        return value

    def _as_text(self, field: str, value: Any) -> str:
        if not isinstance(value, str):
            raise self.fault("it is no text", field)
        if len(value) > MAX_TEXT:
            raise self.fault(f"it has more than {MAX_TEXT} characters", field)
        if not value.isascii() and _SURROGATE.search(value):
            raise self.fault("it has half of a surrogate pair", field)
        return value

    def _as_integer(self, field: str, value: Any, low: int, high: int) -> int:
        if not isinstance(value, int) or isinstance(value, bool):
            raise self.fault("it is no whole number", field)
        if not low <= value <= high:
            raise self.fault(f"{value} is not from {low} to {high}", field)
        return value

    def _as_pairs(self, field: str, value: Any) -> tuple[tuple[int, int], ...]:
        pairs = []
        for pair in value if isinstance(value, list) else [None]:
            if not isinstance(pair, list) or len(pair) != 2:
                raise self.fault("it is no list of pairs", field)
            begin = self._as_integer(field, pair[0], 0, 24 * 60)
            pairs.append((begin, self._as_integer(field, pair[1], 0, 24 * 60)))
        return tuple(pairs)
