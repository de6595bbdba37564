"""Reads the calendars of Primavera P6: the nested text of XER's `clndr_data`.

A calendar is an item such as `(0||DaysOfWeek()( .. ))`: a name, attributes in round brackets, and
further items. Days of the week are 1 (Sunday) to 7, exceptions are days since 1899-12-30, shifts
are `(0||0(s|08:00|f|12:00)())`.
"""

from collections.abc import Iterator
from dataclasses import dataclass, field
from datetime import date, timedelta
from fractions import Fraction

from pert_companion.model.calendar import (
    STANDARD_DAY,
    STANDARD_WEEK,
    Calendar,
    CalendarException,
    Shift,
    merged_shifts,
)
from pert_companion.model.xmltree import decimal, whole

MOST_CHARACTERS = 4_000_000
MOST_LEVELS = 12
_EPOCH = date(1899, 12, 30)
_MOST_SERIAL = 110_000
"""The last day of an exception is in the year 2201."""
_MIDNIGHT = 24 * 60


@dataclass
class Item:
    """One item of the nested text."""

    name: str
    attributes: str = ""
    items: list["Item"] = field(default_factory=list)

    def item(self, name: str) -> "Item | None":
        """Returns the first item of a name directly inside it, or None."""
        for each in self.items:
            if each.name == name:
                return each
        return None

    def attribute(self, name: str) -> str:
        """Returns an attribute by its name: `08:00` for `s` in `s|08:00|f|12:00`."""
        parts = self.attributes.split("|")
        for key, value in zip(parts[::2], parts[1::2]):
            if key.strip() == name:
                return value.strip()
        return ""


class CalendarTextError(ValueError):
    """Says why a text is no calendar."""


def parse_items(text: str) -> list[Item]:
    """Returns the items of a text, in time linear in its length.

    Raises `CalendarTextError` if brackets do not match, or items are nested too deeply.
    """
    if len(text) > MOST_CHARACTERS:
        raise CalendarTextError(f"more than {MOST_CHARACTERS} characters")
    scanner = _Scanner(text)
    items = list(scanner.items(0))
    if scanner.peek():
        raise CalendarTextError("brackets do not match")
    return items


class _Scanner:
    """Walks over the text once."""

    def __init__(self, text: str) -> None:
        self.text = text
        self.position = 0

    def peek(self) -> str:
        """Returns the next character that is no white space, or an empty text at the end."""
        text = self.text
        while self.position < len(text) and text[self.position] in " \t\r\n\x7f":
            self.position += 1
        return text[self.position : self.position + 1]

    def expect(self, character: str) -> None:
        """Steps over a character."""
        if self.peek() != character:
            raise CalendarTextError("brackets do not match")
        self.position += 1

    def until(self, character: str) -> str:
        """Returns the text up to a character and steps over it."""
        end = self.text.find(character, self.position)
        if end < 0:
            raise CalendarTextError("it is cut off")
        found = self.text[self.position : end]
        self.position = end + 1
        return found

    def items(self, level: int) -> Iterator[Item]:
        """Yields the items up to a closing bracket or the end."""
        if level > MOST_LEVELS:
            raise CalendarTextError(f"items in more than {MOST_LEVELS} levels")
        while self.peek() == "(":
            self.position += 1
            name = self.until("(").rpartition("||")[2].strip()
            attributes = self.until(")")
            self.expect("(")
            inside = list(self.items(level + 1))
            self.expect(")")
            self.expect(")")
            yield Item(name, attributes, inside)


def hours_in_minutes(text: str) -> int | None:
    """Returns the minutes of a positive number of hours, at most those of a month, or None."""
    hours = decimal(text)
    if hours is None or not 0 < hours <= 744:
        return None
    return round(Fraction(hours) * 60)


@dataclass(frozen=True)
class Lengths:
    """The working minutes of a day and a week, and the days of a month."""

    day: int = 480
    week: int = 2400
    month: int = 20


def lengths_of(day: str, week: str, month: str) -> tuple[Lengths, bool]:
    """Returns the lengths that texts of hours say, and whether the day's hours are understood.

    What a text does not say is that of eight hours, five days and twenty days.
    """
    minutes = hours_in_minutes(day)
    is_known = minutes is not None and minutes <= _MIDNIGHT
    of_day = minutes if minutes is not None and is_known else Lengths.day
    of_week = hours_in_minutes(week) or 5 * of_day
    of_month = (hours_in_minutes(month) or 20 * of_day) // of_day
    lengths = Lengths(of_day, min(of_week, 7 * _MIDNIGHT), max(1, of_month))
    return lengths, is_known or not day


def calendar_of(name: str, text: str, lengths: Lengths) -> Calendar:
    """Returns the calendar of a text; without one it is worked from Monday to Friday.

    Raises `CalendarTextError` if the text is none.
    """
    week = list(STANDARD_WEEK)
    exceptions: list[CalendarException] = []
    if text.strip():
        items = parse_items(text)
        data = items[0] if items else Item("")
        days = data.item("DaysOfWeek")
        if days is None:
            raise CalendarTextError("it has no DaysOfWeek")
        week = [()] * 7
        for item in days.items:
            number = whole(item.name)
            if number is not None and 1 <= number <= 7:
                week[(number - 2) % 7] = _shifts(item)
        listed = data.item("Exceptions")
        exceptions = list(_exceptions(listed)) if listed is not None else []
    elif lengths.day != Lengths.day:
        week = [day_of(lengths.day)] * 5 + [(), ()]
    return Calendar(name, tuple(week), tuple(exceptions), lengths.day, lengths.week, lengths.month)


def day_of(minutes: int) -> tuple[Shift, ...]:
    """Returns the shifts of a day of so many minutes; that of 8 hours is the standard one."""
    if minutes == Lengths.day:
        return STANDARD_DAY
    begin = STANDARD_DAY[0][0]
    if begin + minutes > _MIDNIGHT:
        begin = _MIDNIGHT - minutes
    return ((begin, begin + minutes),)


def _exceptions(listed: Item) -> Iterator[CalendarException]:
    for item in listed.items:
        serial = whole(item.attribute("d"))
        if serial is None or not 0 < serial <= _MOST_SERIAL:
            raise CalendarTextError(f"the exception {item.attributes[:40]!r} is no day")
        day = _EPOCH + timedelta(days=serial)
        yield CalendarException(day, day, "", _shifts(item))


def _shifts(item: Item) -> tuple[Shift, ...]:
    found = []
    for part in item.items:
        begin = minute_of_day(part.attribute("s"))
        end = minute_of_day(part.attribute("f"))
        if begin is None or end is None:
            raise CalendarTextError(f"the shift {part.attributes[:40]!r} has no times")
        found.append((begin, end or _MIDNIGHT))
    return merged_shifts(found)


def minute_of_day(text: str) -> int | None:
    """Returns the minute of `08:00`, `8:00 AM` or `17:30:00`, or None."""
    clock, _, half = text.strip().upper().partition(" ")
    parts = [whole(part) for part in clock.split(":")]
    if len(parts) not in (2, 3) or half not in ("", "AM", "PM"):
        return None
    hour, minute = parts[0], parts[1]
    if hour is None or minute is None or not 0 <= minute < 60:
        return None
    if half:
        hour = hour % 12 + (12 if half == "PM" else 0)
    found = hour * 60 + minute
    return found if 0 <= found <= _MIDNIGHT else None
