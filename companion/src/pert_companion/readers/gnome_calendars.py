"""Reads the calendars of GNOME Planner: types of days, weeks of them, and dates."""

from collections.abc import Iterator, Mapping
from dataclasses import dataclass

from pert_companion.model import moments
from pert_companion.model.calendar import (
    STANDARD_DAY,
    STANDARD_WEEK,
    Calendar,
    CalendarException,
    Shift,
    merged_shifts,
)
from pert_companion.model.losses import Loss, LossKind
from pert_companion.model.xmltree import Node, nested, whole
from pert_companion.readers.grid import clip

WORKING = "0"
FREE = "1"
USE_BASE = "2"
_WEEKDAYS = ("mon", "tue", "wed", "thu", "fri", "sat", "sun")
_MIDNIGHT = 24 * 60


@dataclass(frozen=True)
class _Base:
    """What a calendar inherits: shifts of types of days, the week by types, dates."""

    shifts: Mapping[str, tuple[Shift, ...]]
    week: tuple[str, ...]
    days: tuple[tuple[str, str], ...]


_STANDARD = _Base({WORKING: STANDARD_DAY, FREE: ()}, (WORKING,) * 5 + (FREE,) * 2, ())


def read_calendars(project: Node, losses: list[Loss]) -> dict[str, Calendar]:
    """Returns the calendars of a file by their ids; what cannot be read is added to `losses`."""
    found: dict[str, Calendar] = {}
    bases: dict[str, _Base] = {}
    for node, above in nested(project.child("calendars"), "calendar"):
        base = _STANDARD if above is None else bases[above.attribute("id")]
        merged = _merged(node, base)
        bases[node.attribute("id")] = merged
        found[node.attribute("id")] = _calendar(node, merged, losses)
    return found


def _merged(node: Node, base: _Base) -> _Base:
    """Returns what a calendar says, where it says it, and else what its base does."""
    shifts = dict(base.shifts)
    for part in node.within("overridden-day-types", "overridden-day-type"):
        shifts[part.attribute("id")] = _shifts(part)
    week = list(base.week)
    default = node.child("default-week")
    for number, name in enumerate(_WEEKDAYS):
        kind = "" if default is None else default.attribute(name)
        if kind not in ("", USE_BASE):
            week[number] = kind
    own = tuple(
        (part.attribute("date"), part.attribute("id"))
        for part in node.within("days", "day")
        if part.attribute("id") != USE_BASE
    )
    return _Base(shifts, tuple(week), (*own, *base.days))


def _calendar(node: Node, said: _Base, losses: list[Loss]) -> Calendar:
    name = clip(node.attribute("name") or "Default")
    week = tuple(said.shifts.get(kind, ()) for kind in said.week)
    day = _minutes(said.shifts.get(WORKING, ())) or 480
    exceptions = list(_exceptions(name, said, losses))
    if not any(week):
        week = STANDARD_WEEK
    of_week = sum(_minutes(shifts) for shifts in week)
    return Calendar(name, week, tuple(exceptions), day, of_week)


def _exceptions(name: str, said: _Base, losses: list[Loss]) -> Iterator[CalendarException]:
    for text, kind in said.days:
        day = None
        if len(text) == 8 and text.isdigit():
            day = moments.day(f"{text[:4]}-{text[4:6]}-{text[6:8]}")
        if day is None or kind not in said.shifts:
            why = "this is no day of a known type; the calendar is used without it"
            shown = clip(f"{text} {kind}", 40)
            losses.append(Loss(LossKind.CALENDAR, f"calendar {name}", "", "day", shown, why))
            continue
        yield CalendarException(day, day, "", said.shifts[kind])


def _shifts(node: Node) -> tuple[Shift, ...]:
    found = []
    for part in node.children("interval"):
        begin, end = _minute(part.attribute("start")), _minute(part.attribute("end"))
        if begin is not None and end is not None:
            found.append((begin, end or _MIDNIGHT))
    return merged_shifts(found)


def _minute(text: str) -> int | None:
    """Returns the minute of the day of `0830`, or None."""
    number = whole(text)
    if number is None or not 0 <= number <= 2400 or number % 100 >= 60:
        return None
    return number // 100 * 60 + number % 100


def _minutes(shifts: tuple[Shift, ...]) -> int:
    return sum(end - begin for begin, end in shifts)
