"""Writes a schedule as a new file of MS Project (MSPDI).

It has the calendar, the groups, and the tasks with their links, dates, costs and deadlines.
"""

from collections.abc import Iterator, Mapping, Sequence
from dataclasses import dataclass
from datetime import date, datetime, timedelta
from fractions import Fraction
from xml.etree import ElementTree as Tree
from xml.etree.ElementTree import Element, SubElement

from pert_companion.analysis.schedule import Schedule, ScheduledTask
from pert_companion.model.calendar import Calendar, Shift
from pert_companion.model.lines import xml_text
from pert_companion.model.plan import LinkKind
from pert_companion.model.predecessors import FirstDayWait, RealLink
from pert_companion.writers.mspdi_elements import (
    IN_DAYS,
    NAMESPACE,
    bytes_of,
    duration_text,
    moment_text,
    name_of,
)

_LINK_TYPES = {
    LinkKind.FINISH_FINISH: 0,
    LinkKind.FINISH_START: 1,
    LinkKind.START_FINISH: 2,
    LinkKind.START_START: 3,
}
_AS_SOON, _AS_LATE = 0, 1
_START_NO_EARLIER = 4
_FINISH_NO_EARLIER = 6
_TENTHS = 10
"""Lags are in tenths of a minute."""


@dataclass(frozen=True)
class _Row:
    """A row of the file: a group, or a task."""

    uid: int
    level: int
    name: str
    task: ScheduledTask | None
    start: datetime
    finish: datetime


def to_mspdi(
    schedule: Schedule,
    calendar: Calendar,
    links: Mapping[str, list[RealLink]],
    waits: Mapping[str, FirstDayWait],
    money_scale: int = 1,
) -> bytes:
    """Returns a new file with the schedule.

    By the code of each task, `links` has its links, and `waits` how long after the first day of the
    project it may start and finish.
    """
    Tree.register_namespace("", NAMESPACE)
    root = Element(name_of("Project"))
    rows = list(_rows(schedule))
    start = calendar.morning(schedule.start)
    _add_project(root, schedule, calendar, max([row.finish for row in rows], default=start))
    _add_calendar(root, calendar)
    uids = {row.task.code: row.uid for row in rows if row.task is not None}
    tasks = SubElement(root, name_of("Tasks"))
    origin = calendar.position(start)
    for number, row in enumerate(rows, 1):
        _add_task(tasks, number, row, money_scale)
        if row.task is not None:
            wait = waits.get(row.task.code, FirstDayWait())
            unit, is_late = schedule.unit_minutes, row.task.is_as_late
            _add_constraint(tasks[-1], calendar, origin, wait, unit, is_late)
            if row.task.deadline is not None:
                evening = calendar.evening(row.task.deadline)
                _add(tasks[-1], "Deadline", moment_text(evening))
            _add_links(tasks[-1], links.get(row.task.code, []), uids, schedule.unit_minutes)
    return bytes_of(root)


def _add_project(root: Element, schedule: Schedule, calendar: Calendar, finish: datetime) -> None:
    """Adds what the file says of the project itself."""
    _add(root, "SaveVersion", "14")
    _add(root, "Name", f"{schedule.code}.xml")
    _add(root, "Title", xml_text(schedule.title))
    _add(root, "ScheduleFromStart", "1")
    _add(root, "StartDate", moment_text(calendar.morning(schedule.start)))
    _add(root, "FinishDate", moment_text(finish))
    _add(root, "CalendarUID", "1")
    _add(root, "DefaultStartTime", _first_time(calendar))
    _add(root, "MinutesPerDay", str(calendar.day_minutes))
    _add(root, "MinutesPerWeek", str(calendar.week_minutes))
    _add(root, "DaysPerMonth", str(calendar.month_days))
    if schedule.currency:
        _add(root, "CurrencyCode", schedule.currency)


def _rows(schedule: Schedule) -> Iterator[_Row]:
    """Yields groups and tasks in the order of the plan; a group begins where its path changes."""
    numbers = _uids(schedule.tasks)
    free = max(numbers.values(), default=0)
    open_path: tuple[str, ...] = ()
    for task in schedule.tasks:
        shared = _shared(open_path, task.outline)
        for level in range(shared, len(task.outline)):
            free += 1
            path = task.outline[: level + 1]
            start, finish = _span(schedule.tasks, path)
            yield _Row(free, level + 1, path[-1], None, start, finish)
        open_path = task.outline
        level = len(task.outline) + 1
        yield _Row(numbers[task.code], level, task.name, task, task.start, task.finish)


def _uids(tasks: Sequence[ScheduledTask]) -> dict[str, int]:
    """Returns a number for each task: the source's own where all have one, else by order."""
    own = {task.code: int(task.uid) for task in tasks if _is_uid(task.uid)}
    if len(own) == len(tasks) and len(set(own.values())) == len(tasks):
        return own
    return {task.code: number for number, task in enumerate(tasks, 1)}


def _is_uid(text: str) -> bool:
    return text.isascii() and text.isdigit() and len(text) <= 9 and int(text) > 0


def _shared(one: tuple[str, ...], other: tuple[str, ...]) -> int:
    shared = 0
    for left, right in zip(one, other):
        if left != right:
            break
        shared += 1
    return shared


def _span(tasks: Sequence[ScheduledTask], path: tuple[str, ...]) -> tuple[datetime, datetime]:
    below = [task for task in tasks if task.outline[: len(path)] == path]
    start = min(task.start for task in below)
    finish = max(task.finish for task in below)
    return start, finish


def cents_text(amount: int, money_scale: int) -> str:
    """Returns an amount of a deck in hundredths of the currency."""
    return str(round(Fraction(amount * 100, money_scale)))


def _add_task(tasks: Element, number: int, row: _Row, money_scale: int) -> None:
    element = SubElement(tasks, name_of("Task"))
    _add(element, "UID", str(row.uid))
    _add(element, "ID", str(number))
    _add(element, "Name", xml_text(row.name))
    _add(element, "Manual", "0")
    _add(element, "OutlineLevel", str(row.level))
    _add(element, "Start", moment_text(row.start))
    _add(element, "Finish", moment_text(row.finish))
    if row.task is None:
        _add(element, "Milestone", "0")
        _add(element, "Summary", "1")
        return
    _add(element, "Duration", duration_text(row.task.chosen_minutes))
    _add(element, "DurationFormat", str(IN_DAYS))
    _add(element, "Estimated", "0")
    _add(element, "Milestone", "1" if row.task.is_milestone else "0")
    _add(element, "Summary", "0")
    _add(element, "Critical", "1" if row.task.is_critical else "0")
    if row.task.cost:
        _add(element, "FixedCost", cents_text(row.task.cost, money_scale))
    if row.task.percent:
        _add(element, "PercentComplete", row.task.percent.partition(".")[0])
    if row.task.cost:
        _add(element, "Cost", cents_text(row.task.cost, money_scale))


def _add_constraint(
    element: Element,
    calendar: Calendar,
    origin: int,
    wait: FirstDayWait,
    unit_minutes: int,
    is_as_late: bool,
) -> None:
    """Adds the first moment at which a task may start or finish, if it waits for the calendar.

    A file has one constraint a task; if both ends wait, the start is what it says. A task that
    waits for no day may be one that is to be as late as possible.
    """
    if wait.start > 0:
        kind, moment = _START_NO_EARLIER, calendar.at(origin + wait.start * unit_minutes)
    elif wait.finish > 0:
        kind, moment = _FINISH_NO_EARLIER, calendar.end_at(origin + wait.finish * unit_minutes)
    else:
        _add(element, "ConstraintType", str(_AS_LATE if is_as_late else _AS_SOON))
        return
    _add(element, "ConstraintType", str(kind))
    _add(element, "ConstraintDate", moment_text(moment))


def _add_links(
    element: Element, links: Sequence[RealLink], uids: dict[str, int], unit_minutes: int
) -> None:
    for link in links:
        part = SubElement(element, name_of("PredecessorLink"))
        _add(part, "PredecessorUID", str(uids[link.predecessor]))
        _add(part, "Type", str(_LINK_TYPES[link.kind]))
        _add(part, "LinkLag", str(link.lag * unit_minutes * _TENTHS))
        _add(part, "LagFormat", str(IN_DAYS))


def _add_calendar(root: Element, calendar: Calendar) -> None:
    calendars = SubElement(root, name_of("Calendars"))
    element = SubElement(calendars, name_of("Calendar"))
    _add(element, "UID", "1")
    _add(element, "Name", xml_text(calendar.name) or "Standard")
    _add(element, "IsBaseCalendar", "1")
    days = SubElement(element, name_of("WeekDays"))
    for number in range(1, 8):
        shifts = calendar.week[(number - 2) % 7]
        day = SubElement(days, name_of("WeekDay"))
        _add(day, "DayType", str(number))
        _add_shifts(day, shifts)
    if not calendar.exceptions:
        return
    exceptions = SubElement(element, name_of("Exceptions"))
    for exception in calendar.exceptions:
        part = SubElement(exceptions, name_of("Exception"))
        _add(part, "EnteredByOccurrences", "0")
        period = SubElement(part, name_of("TimePeriod"))
        _add(period, "FromDate", f"{exception.first}T00:00:00")
        _add(period, "ToDate", f"{exception.last}T23:59:00")
        _add(part, "Occurrences", str((exception.last - exception.first).days + 1))
        _add(part, "Name", xml_text(exception.name))
        _add(part, "Type", "1")
        _add_shifts(part, exception.shifts)


def _add_shifts(element: Element, shifts: Sequence[Shift]) -> None:
    _add(element, "DayWorking", "1" if shifts else "0")
    if not shifts:
        return
    times = SubElement(element, name_of("WorkingTimes"))
    for begin, end in shifts:
        part = SubElement(times, name_of("WorkingTime"))
        _add(part, "FromTime", _time(begin))
        _add(part, "ToTime", _time(end))


def _add(element: Element, tag: str, text: str) -> None:
    SubElement(element, name_of(tag)).text = text


def _time(minute: int) -> str:
    moment = datetime.combine(date.min, datetime.min.time()) + timedelta(minutes=minute % 1440)
    return moment.strftime("%H:%M:%S")


def _first_time(calendar: Calendar) -> str:
    begins = [shifts[0][0] for shifts in calendar.week if shifts]
    return _time(min(begins, default=8 * 60))
