"""Reads working time as people write it: `mon-sat`, `mon-fri 06:00-14:00`, `24 hours`."""

import re
from collections.abc import Iterable
from fractions import Fraction

from pert_companion.model.calendar import MINUTES_OF_DAY, Shift, merged_shifts
from pert_companion.readers.values import Unreadable

Week = tuple[tuple[Shift, ...], ...]
"""The shifts of Monday to Sunday."""

_NAMES = (
    ("mon", "monday", "mo", "montag"),
    ("tue", "tuesday", "di", "dienstag"),
    ("wed", "wednesday", "mi", "mittwoch"),
    ("thu", "thursday", "do", "donnerstag"),
    ("fri", "friday", "fr", "freitag"),
    ("sat", "saturday", "sa", "samstag", "sonnabend"),
    ("sun", "sunday", "so", "sonntag"),
)
_NUMBER_OF: dict[str, int] = {}
for _number, _day_names in enumerate(_NAMES):
    _NUMBER_OF.update(dict.fromkeys(_day_names, _number))
_AROUND_THE_CLOCK = frozenset(("24 hours", "24 hour", "24h", "24/7", "24 stunden", "24 std"))
_ALWAYS: tuple[Shift, ...] = ((0, MINUTES_OF_DAY),)
_DAYS = re.compile(r"([^\W\d_]+(?:\s*[-–,]\s*[^\W\d_]+)*)\s*(.*)")
_HOURS = re.compile(r"([0-9]{1,2})(?:[.,]([0-9]{1,2}))?\s*(?:h|hours?|std\.?|stunden)?")
_RANGE = re.compile(r"([0-9]{1,2})(?::([0-9]{2}))?\s*[-–]\s*([0-9]{1,2})(?::([0-9]{2}))?")
_BETWEEN_RANGES = re.compile(
    r"\s*(?:[,;+&]|\band\b|\bund\b)\s*|\s+(?=[0-9]{1,2}(?::[0-9]{2})?\s*[-–])"
)
_MOST_CHARACTERS = 200

_START_OF_DAY = 8 * 60
_MOST_BEFORE_BREAK = 4 * 60
_BREAK = 60


def weekdays_in(text: str) -> frozenset[int]:
    """Returns the numbers of weekdays, Monday 0, of names and ranges such as `sun-thu,sat`.

    Raises `Unreadable` that names the part that is none.
    """
    found: set[int] = set()
    for part in text.casefold().replace("–", "-").split(","):
        first, mark, last = (word.strip(" .") for word in part.partition("-"))
        last = last if mark else first
        if first not in _NUMBER_OF or last not in _NUMBER_OF:
            raise Unreadable(
                f"{part.strip()!r} is no weekday such as mon, no range such as mon-fri"
            )
        begin, end = _NUMBER_OF[first], _NUMBER_OF[last]
        found.update((begin + number) % 7 for number in range((end - begin) % 7 + 1))
    return frozenset(found)


def usual_day(minutes: int) -> tuple[Shift, ...]:
    """Returns the shifts of a day of so many minutes: from 8:00, an hour's break after four hours.

    A day that would end after midnight has no break, and begins as late as it can by 8:00.
    """
    first = min(minutes, _MOST_BEFORE_BREAK)
    rest = minutes - first
    if rest == 0 or _START_OF_DAY + minutes + _BREAK > MINUTES_OF_DAY:
        begin = max(0, min(_START_OF_DAY, MINUTES_OF_DAY - minutes))
        return ((begin, begin + minutes),)
    second = _START_OF_DAY + first + _BREAK
    return ((_START_OF_DAY, _START_OF_DAY + first), (second, second + rest))


def shifts_in(text: str) -> tuple[Shift, ...]:
    """Returns the shifts of hours such as `06:00-12:00, 12:30-16:30`, or of a number of hours.

    Raises `Unreadable` if they are none.
    """
    words = text.strip().casefold()
    number = _HOURS.fullmatch(words)
    if number is not None:
        return usual_day(_minutes_of(number))
    return merged_shifts(_shift_of(part) for part in _BETWEEN_RANGES.split(words) if part)


def _minutes_of(number: re.Match[str]) -> int:
    """Returns the minutes of a number of hours."""
    minutes = Fraction(f"{number[1]}.{number[2] or 0}") * 60
    if minutes.denominator != 1 or not 0 < minutes <= MINUTES_OF_DAY:
        raise Unreadable(f"{number[0]!r} is no number of hours of a day")
    return int(minutes)


def _shift_of(part: str) -> Shift:
    found = _RANGE.fullmatch(part)
    if found is None:
        raise Unreadable(f"{part[:40]!r} is no working time such as 06:00-14:00")
    begin, end = _minute_of(found[1], found[2]), _minute_of(found[3], found[4])
    if not begin < end <= MINUTES_OF_DAY:
        raise Unreadable(f"{part!r} does not end after it begins, by midnight")
    return begin, end


def _minute_of(hour: str, minute: str | None) -> int:
    if int(minute or 0) > 59:
        raise Unreadable(f"{hour}:{minute} is no time of a day")
    return int(hour) * 60 + int(minute or 0)


def week_of(days: Iterable[int], shifts: tuple[Shift, ...]) -> Week:
    """Returns a week in which these weekdays, Monday 0, have these shifts."""
    worked = frozenset(days)
    return tuple(shifts if number in worked else () for number in range(7))


def week_in(text: str, usual: tuple[Shift, ...]) -> Week:
    """Returns the week of words such as `mon-sat 06:00-14:00`; `usual` are shifts without hours.

    Raises `Unreadable` if they are none.
    """
    words = " ".join(text[:_MOST_CHARACTERS].casefold().split())
    if words in _AROUND_THE_CLOCK:
        return week_of(range(7), _ALWAYS)
    found = _DAYS.fullmatch(words)
    if found is None:
        raise Unreadable("this is no working time such as mon-sat 06:00-14:00")
    days = weekdays_in(found[1])
    return week_of(days, shifts_in(found[2]) if found[2] else usual)
