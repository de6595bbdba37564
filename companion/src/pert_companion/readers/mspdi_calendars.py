"""Reads the calendars of MS Project's XML."""

from collections.abc import Iterator
from dataclasses import dataclass
from datetime import date
from itertools import chain

from pert_companion.model.calendar import (
    STANDARD_WEEK,
    Calendar,
    CalendarException,
    Shift,
    merged_shifts,
)
from pert_companion.model.losses import Loss, LossKind
from pert_companion.model.moments import day as day_of
from pert_companion.model.xmltree import Node, whole

_DAILY = ("", "0", "1")
_YEARLY = "2"
_MONTHLY = "4"
_WEEKLY = "6"
_MOST_YEARS = 300
_MOST_DAYS = 20_000
_MIDNIGHT = 24 * 60


@dataclass(frozen=True)
class Calendars:
    """The calendars of a file by their UID."""

    held: dict[str, Calendar]

    def by_uid(self, uid: str) -> Calendar | None:
        """Returns a calendar by its UID, or None."""
        return self.held.get(uid)

    def by_name(self, name: str) -> Calendar | None:
        """Returns the first calendar of a name in any case of letters, or None."""
        for calendar in self.held.values():
            if calendar.name.casefold() == name.casefold():
                return calendar
        return None


def read_calendars(project: Node, losses: list[Loss]) -> Calendars:
    """Returns the calendars; what of them cannot be read is added to `losses`."""
    nodes = {node.text("UID"): node for node in project.within("Calendars", "Calendar")}
    held: dict[str, Calendar] = {}
    for uid in nodes:
        _read(uid, nodes, held, losses)
    return Calendars(held)


def _read(
    uid: str, nodes: dict[str, Node], held: dict[str, Calendar], losses: list[Loss]
) -> Calendar | None:
    """Returns a calendar after the one it is based on; a loop of calendars has no base."""
    chain = []
    while uid in nodes and uid not in held and uid not in chain:
        chain.append(uid)
        uid = nodes[uid].text("BaseCalendarUID")
    base = held.get(uid)
    for each in reversed(chain):
        base = _calendar(nodes[each], base, losses)
        held[each] = base
    return base


def _calendar(node: Node, base: Calendar | None, losses: list[Loss]) -> Calendar:
    week = list(base.week if base is not None else STANDARD_WEEK)
    exceptions: list[CalendarException] = []
    dated: list[CalendarException] = []
    for day in node.within("WeekDays", "WeekDay"):
        number = whole(day.text("DayType"))
        if number == 0:
            dated.extend(_dated(day))
        elif number is not None and 1 <= number <= 7:
            week[(number - 2) % 7] = _shifts(day)
    for part in node.within("Exceptions", "Exception"):
        found = list(_exceptions(part))
        if not found:
            losses.append(_lost(node, part))
        exceptions.extend(found)
    losses.extend(_lost_times(node))
    known = {(each.first, each.last, each.shifts) for each in exceptions}
    exceptions += [each for each in dated if (each.first, each.last, each.shifts) not in known]
    if base is not None:
        exceptions.extend(base.exceptions)
    return Calendar(node.text("Name") or "Standard", tuple(week), tuple(exceptions))


def _lost(node: Node, part: Node) -> Loss:
    why = "this repeated exception of the calendar is not carried over; add its days"
    name = part.text("Name")[:60]
    return Loss(
        LossKind.CALENDAR,
        f"calendar {node.text('Name')[:40]}",
        "",
        "Exception",
        name,
        why,
    )


def _lost_times(node: Node) -> Iterator[Loss]:
    """Yields a loss for each working time of a calendar that has no begin and end of a day."""
    days = chain(node.within("WeekDays", "WeekDay"), node.within("Exceptions", "Exception"))
    for part in chain.from_iterable(day.within("WorkingTimes", "WorkingTime") for day in days):
        texts = [part.text(name) for name in ("FromTime", "ToTime")]
        if any(texts) and any(_minute(text) is None for text in texts):
            where, shown = f"calendar {node.text('Name')[:40]}", " to ".join(texts)[:60]
            why = "these are no times of a day; the calendar is used without them"
            yield Loss(LossKind.CALENDAR, where, "", "WorkingTime", shown, why)


def _exceptions(part: Node) -> Iterator[CalendarException]:
    """Yields the days of an exception: a stretch of days, or the same day of several years."""
    period = part.child("TimePeriod")
    if period is None:
        return
    first, last = day_of(period.text("FromDate")), day_of(period.text("ToDate"))
    if first is None or last is None or last < first:
        return
    name, shifts = part.text("Name")[:80], _shifts(part)
    kind = part.text("Type")
    if kind in _DAILY and part.text("Period") in ("", "0", "1"):
        yield CalendarException(first, last, name, shifts)
        return
    days: Iterator[date] = iter(())
    if kind == _YEARLY:
        days = _yearly(first, last, part)
    elif kind == _MONTHLY:
        days = _monthly(first, last, part)
    elif kind == _WEEKLY:
        days = _weekly(first, last, part)
    for day in days:
        yield CalendarException(day, day, name, shifts)


def _yearly(first: date, last: date, part: Node) -> Iterator[date]:
    """Yields the day of each year between two days; months are counted from 0."""
    month, number = whole(part.text("Month")), whole(part.text("MonthDay"))
    if month is None or number is None:
        return
    for year in range(first.year, min(last.year, first.year + _MOST_YEARS) + 1):
        try:
            day = date(year, month + 1, number)
        except ValueError:
            continue
        if first <= day <= last:
            yield day


def _monthly(first: date, last: date, part: Node) -> Iterator[date]:
    """Yields the day of each month, or each second one, ..; none if a month may have no such day.

    It is not known where to count from if only each second one counts and the first is over.
    """
    number, months = whole(part.text("MonthDay")), whole(part.text("Period") or "1")
    if number is None or months is None or not 1 <= number <= 28 or not 1 <= months <= 99:
        return
    if months > 1 and number < first.day:
        return
    end = min(12 * last.year + last.month, 12 * first.year + 12 * _MOST_YEARS)
    for month in range(12 * first.year + first.month - 1, end, months):
        day = date(month // 12, month % 12 + 1, number)
        if first <= day <= last:
            yield day


def _weekly(first: date, last: date, part: Node) -> Iterator[date]:
    """Yields the days of each week, or each second one, .., that bits name; the first is Sunday."""
    bits, weeks = whole(part.text("DaysOfWeek")), whole(part.text("Period") or "1")
    if bits is None or weeks is None or not 1 <= weeks <= 99 or not 0 < bits < 128:
        return
    sunday = first.toordinal() - first.isoweekday() % 7
    for ordinal in range(first.toordinal(), min(last.toordinal(), sunday + _MOST_DAYS) + 1):
        week, weekday = divmod(ordinal - sunday, 7)
        if week % weeks == 0 and bits >> weekday & 1:
            yield date.fromordinal(ordinal)


def _dated(day: Node) -> Iterator[CalendarException]:
    """Yields the exception of an older form, a weekday of type 0 with a time period."""
    period = day.child("TimePeriod")
    if period is None:
        return
    first, last = day_of(period.text("FromDate")), day_of(period.text("ToDate"))
    if first is not None and last is not None and first <= last:
        yield CalendarException(first, last, "", _shifts(day))


def _shifts(node: Node) -> tuple[Shift, ...]:
    """Returns the shifts of a weekday or exception; none if it is not worked."""
    if not node.flag("DayWorking"):
        return ()
    shifts = []
    for part in node.within("WorkingTimes", "WorkingTime"):
        begin, end = _minute(part.text("FromTime")), _minute(part.text("ToTime"))
        if begin is not None and end is not None:
            shifts.append((begin, end or _MIDNIGHT))
    return merged_shifts(shifts)


def _minute(text: str) -> int | None:
    """Returns the minute of the day of `08:00:00`, or None."""
    parts = text[:8].split(":")
    numbers = [whole(part) for part in parts]
    if len(numbers) < 2 or numbers[0] is None or numbers[1] is None:
        return None
    minute = numbers[0] * 60 + numbers[1]
    return minute if 0 <= minute < _MIDNIGHT else None
