"""Calendars, and the logic of a plan, in the JSON of side files."""

from datetime import date
from typing import Any

from pert_companion.model import strict
from pert_companion.model.calendar import Calendar, CalendarException
from pert_companion.model.errors import InputError
from pert_companion.model.logic import Logic, LogicTie
from pert_companion.model.plan import LinkKind

MOST_LAG = 10**10
"""The longest lag of a link, in minutes."""


def calendar_json(calendar: Calendar) -> dict[str, Any]:
    """Returns a calendar as JSON."""
    exceptions = []
    for exception in calendar.exceptions:
        exceptions.append(
            {
                "first": exception.first.isoformat(),
                "last": exception.last.isoformat(),
                "name": exception.name,
                "shifts": exception.shifts,
            }
        )
    return {
        "name": calendar.name,
        "day_minutes": calendar.day_minutes,
        "week_minutes": calendar.week_minutes,
        "month_days": calendar.month_days,
        "week": calendar.week,
        "exceptions": exceptions,
    }


def read_calendar(fields: strict.Fields) -> Calendar:
    """Returns the calendar that JSON holds. Raises `InputError` if it is none."""
    exceptions = []
    for entry in fields.entries("exceptions"):
        exceptions.append(
            CalendarException(
                first=entry.day("first"),
                last=entry.day("last"),
                name=entry.text("name"),
                shifts=entry.pairs("shifts"),
            )
        )
        entry.end()
    name = fields.text("name")
    week = fields.lists_of_pairs("week")
    day_minutes = fields.integer("day_minutes", 1, 24 * 60)
    week_minutes = fields.integer("week_minutes", 1, 7 * 24 * 60)
    month_days = fields.integer("month_days", 1, 31)
    fields.end()
    try:
        return Calendar(name, week, tuple(exceptions), day_minutes, week_minutes, month_days)
    except InputError as error:
        raise fields.fault(str(error)) from None


def logic_json(logic: Logic) -> dict[str, Any]:
    """Returns the fields of a logic."""
    return {
        "begin": logic.begin.isoformat(timespec="minutes"),
        "calendars": [calendar_json(calendar) for calendar in logic.calendars],
        "ties": [_tie_json(tie) for tie in logic.ties],
    }


def _tie_json(tie: LogicTie) -> dict[str, Any]:
    content: dict[str, Any] = {"task": tie.task, "kind": tie.kind.value}
    if tie.day is not None:
        content["day"] = tie.day.isoformat()
        return content
    content["before"] = tie.before
    if tie.lag:
        content["lag"] = tie.lag
        content["calendar"] = tie.calendar
    return content


def read_logic(fields: strict.Fields) -> Logic | None:
    """Returns the logic that the fields of a side file say, or None if they say none.

    Raises `InputError` if calendars have the same name, or a link or lag is none.
    """
    if not fields.has("begin"):
        return None
    begin = fields.moment("begin")
    calendars = tuple(read_calendar(entry) for entry in fields.entries("calendars"))
    if len({calendar.name for calendar in calendars}) < len(calendars):
        raise fields.fault("two calendars have the same name", "calendars")
    ties = tuple(_tie(entry) for entry in fields.entries("ties"))
    logic = Logic(begin, calendars, ties)
    for tie in ties:
        if tie.calendar and tie.calendar not in logic.by_name:
            raise fields.fault(f"there is no calendar {tie.calendar[:40]!r}", "ties")
    return logic


def _tie(fields: strict.Fields) -> LogicTie:
    text = fields.text("kind")
    kinds = {kind.value: kind for kind in LinkKind}
    if text not in kinds:
        raise fields.fault(f"{text[:40]!r} is no kind of link", "kind")
    day: date | None = fields.optional_day("day")
    tie = LogicTie(
        task=fields.text("task"),
        kind=kinds[text],
        before="" if day is not None else fields.text("before"),
        lag=fields.optional_integer("lag", -MOST_LAG, MOST_LAG) or 0,
        calendar=fields.optional_text("calendar") or "",
        day=day,
    )
    fields.end()
    return tie
