"""Dates of a plan with several calendars, hour by hour: the tests' own method, as plain as can be.

A calendar is the hours of its weekdays, less its free days. A moment is a number of hours since a
first midnight. Nothing of the package's calendars, links or passes is used.
"""

from collections.abc import Mapping, Sequence
from dataclasses import dataclass, field
from datetime import date, datetime, timedelta

FIRST = datetime(2026, 3, 1)
"""The midnight from which hours are counted: that of a Sunday."""


@dataclass(frozen=True)
class Hours:
    """A calendar: which hours of which weekdays are worked, Monday being 0, and free days."""

    weekdays: frozenset[int]
    hours: frozenset[int]
    free: frozenset[date] = frozenset()

    def works(self, hour: int) -> bool:
        """Says whether the hour that begins then is worked; the first day is a Sunday."""
        days, of_day = divmod(hour, 24)
        if of_day not in self.hours or (days + 6) % 7 not in self.weekdays:
            return False
        return not self.free or FIRST.date() + timedelta(days=days) not in self.free

    def next_work(self, hour: int) -> int:
        """Returns the first hour of work that does not begin before an hour."""
        while not self.works(hour):
            hour += 1
        return hour

    def end_of(self, hour: int, count: int) -> int:
        """Returns when so many hours of work are done, at least one."""
        while count > 0:
            count -= self.works(hour)
            hour += 1
        return hour

    def begin_of(self, hour: int, count: int) -> int:
        """Returns when so many hours of work before an hour begin, at least one."""
        while count > 0:
            hour -= 1
            count -= self.works(hour)
        return hour

    def worked(self, first: int, last: int) -> int:
        """Returns the hours of work from an hour to a later one."""
        return sum(1 for hour in range(first, last) if self.works(hour))


@dataclass(frozen=True)
class HourTask:
    """A task of so many hours of its calendar; the earliest day it may start and finish on."""

    name: str
    hours: int
    calendar: Hours
    no_start_before: date | None = None
    no_finish_before: date | None = None


@dataclass(frozen=True)
class HourLink:
    """A link with a lag in hours of a calendar."""

    before: str
    after: str
    kind: str
    lag: int
    calendar: Hours


Found = dict[str, tuple[int, int]]
"""When tasks begin and end, in hours."""


@dataclass(frozen=True)
class Actual:
    """The dates of finished tasks, and the starts of those under way, of which hours are left."""

    finished: Found = field(default_factory=dict)
    begun: Mapping[str, int] = field(default_factory=dict)


def moment_of(hour: int) -> datetime:
    """Returns the moment of an hour."""
    return FIRST + timedelta(hours=hour)


def dates_by_hours(
    tasks: Sequence[HourTask],
    links: Sequence[HourLink],
    begin: int,
    held: Mapping[str, int] | None = None,
    actual: Actual = Actual(),
) -> Found:
    """Returns the early dates of tasks, which are in the order of their links.

    The tasks in `held` begin no earlier than these hours.
    """
    found: Found = {}
    for task in tasks:
        if task.name in actual.finished:
            found[task.name] = actual.finished[task.name]
            continue
        starts = [begin, (held or {}).get(task.name, begin)]
        finishes = []
        if task.no_start_before is not None:
            starts.append(task.calendar.next_work(_hour_of(task.no_start_before)))
        if task.no_finish_before is not None:
            midnight = _hour_of(task.no_finish_before) + 24
            finishes.append(_evening(task.calendar, midnight))
        for link in links:
            if link.after == task.name:
                (starts if link.kind[1] == "S" else finishes).append(_bound(link, found))
        start, finish = _placed(task, max(starts), finishes)
        found[task.name] = actual.begun.get(task.name, start), finish
    return found


def _hour_of(day: date) -> int:
    return (day - FIRST.date()).days * 24


def _evening(calendar: Hours, hour: int) -> int:
    """Returns the end of the last work before an hour."""
    while not calendar.works(hour - 1):
        hour -= 1
    return hour


def _bound(link: HourLink, found: Found) -> int:
    start, finish = found[link.before]
    hour = start if link.kind[0] == "S" else finish
    if link.lag > 0:
        return link.calendar.end_of(hour, link.lag)
    if link.lag == 0:
        return hour
    begin = link.calendar.begin_of(hour, -link.lag)
    return begin if link.kind[1] == "S" else _evening(link.calendar, begin)


def _placed(task: HourTask, least: int, finishes: list[int]) -> tuple[int, int]:
    """Returns the first dates of a task in one piece, which may end in free time after its work."""
    if task.hours == 0:
        moment = max([least, *finishes])
        return moment, moment
    calendar = task.calendar
    start = calendar.next_work(least)
    while True:
        finish = calendar.end_of(start, task.hours)
        waits_until = max(finishes, default=finish)
        if calendar.next_work(finish) >= waits_until:
            return start, finish if finish >= waits_until else calendar.next_work(finish)
        start = calendar.next_work(start + 1)


def float_by_hours(
    task: HourTask, tasks: Sequence[HourTask], links: Sequence[HourLink], begin: int
) -> int:
    """Returns by how many hours of its own work a task may begin later and the end stays."""
    early = dates_by_hours(tasks, links, begin)
    end = max(finish for _, finish in early.values())
    start = early[task.name][0]
    least, most = 0, task.calendar.worked(start, end) + 1
    while most - least > 1:
        hours = (least + most) // 2
        later = task.calendar.end_of(start, hours)
        if task.hours:
            later = task.calendar.next_work(later)
        found = dates_by_hours(tasks, links, begin, {task.name: later})
        if max(finish for _, finish in found.values()) > end:
            most = hours
        else:
            least = hours
    return least
