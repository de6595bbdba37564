"""Writes a schedule as iCalendar (RFC 5545): an all-day entry for each real task."""

from datetime import datetime, timedelta, timezone
from hashlib import sha256

from icalendar import Calendar, Event

from pert_companion import VERSION
from pert_companion.analysis.schedule import Schedule, ScheduledTask
from pert_companion.model.figures import days_text

_STAMP = datetime(2000, 1, 1, tzinfo=timezone.utc)
"""The same plan gives the same bytes, so the stamp is fixed."""


def to_ics(schedule: Schedule) -> bytes:
    """Returns the schedule as a calendar file. An entry ends on the day after its last day."""
    calendar = Calendar()
    calendar.add("prodid", f"-//pert-companion//{VERSION}//EN")
    calendar.add("version", "2.0")
    calendar.add("x-wr-calname", schedule.title or schedule.code)
    for task in schedule.tasks:
        calendar.add_component(_entry(task, schedule))
    data = calendar.to_ical()
    assert isinstance(data, bytes)
    return data


def _entry(task: ScheduledTask, schedule: Schedule) -> Event:
    event = Event()
    event.add("uid", _uid(task, schedule))
    event.add("dtstamp", _STAMP)
    event.add("dtstart", task.first_day)
    event.add("dtend", max(task.first_day, task.last_day) + timedelta(days=1))
    event.add("summary", one_line(task.name or task.code))
    event.add("description", _description(task, schedule))
    event.add("transp", "TRANSPARENT")
    return event


def _uid(task: ScheduledTask, schedule: Schedule) -> str:
    """Returns an id that stays the same for the same task of the same project."""
    text = f"{schedule.code}\n{task.uid}\n{task.code}"
    return f"{sha256(text.encode()).hexdigest()[:32]}@pert-companion"


def _description(task: ScheduledTask, schedule: Schedule) -> str:
    days = days_text(task.chosen_minutes, schedule.day_minutes)
    slack = days_text(task.total_float_minutes, schedule.day_minutes)
    kind = "critical" if task.is_critical else f"float {slack} d"
    return f"{task.code}: {days} d, {kind}"


def one_line(text: str) -> str:
    """Returns the text without control characters and line ends of any kind."""
    return "".join(" " if _is_control(char) else char for char in text)


def _is_control(char: str) -> bool:
    return ord(char) < 0x20 or 0x7F <= ord(char) <= 0x9F or char in "\u2028\u2029"
