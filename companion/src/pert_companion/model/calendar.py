"""Working time: which days and hours are worked, and counting and adding working time both ways.

A calendar has shifts for each weekday and exceptions by date. Times within a day are minutes from
midnight, and moments are naive `datetime`s of which the minutes count. Counting is exact: `add` and
`between` are inverse on working moments. A day is a working day if any of its time is worked; a
planner's `1 day` is `day_minutes` of work.

A calendar is a scale: `position` says how many working minutes lie before a moment, `at` and
`end_at` say which moment has a position. Between two shifts all moments have the same position:
`at` returns the last of them (the morning on which work goes on), `end_at` the first (the evening
on which work ends). Each call takes a time that is logarithmic in the number of exceptions and does
not depend on the years between.
"""

from bisect import bisect_right
from collections.abc import Iterable, Iterator, Sequence
from dataclasses import dataclass
from datetime import date, datetime, timedelta
from functools import cached_property
from heapq import heappop, heappush
from itertools import accumulate

from pert_companion.model.errors import InputError

Shift = tuple[int, int]
"""A stretch of working time in a day: first and last minute from midnight, the end exclusive."""

MINUTES_OF_DAY = 24 * 60
STANDARD_DAY: tuple[Shift, ...] = ((8 * 60, 12 * 60), (13 * 60, 17 * 60))
STANDARD_WEEK: tuple[tuple[Shift, ...], ...] = (STANDARD_DAY,) * 5 + ((), ())
EVERY_DAY: tuple[tuple[Shift, ...], ...] = (STANDARD_DAY,) * 7

_LAST_DAY = date.max.toordinal()


@dataclass(frozen=True)
class CalendarException:
    """Days, both ends inclusive, that are worked otherwise: free if it has no shifts."""

    first: date
    last: date
    name: str = ""
    shifts: tuple[Shift, ...] = ()


@dataclass(frozen=True)
class Calendar:
    """The working time of a plan. `week` has the shifts of Monday to Sunday.

    Where exceptions overlap, the first in the tuple holds.
    """

    name: str = "Standard"
    week: tuple[tuple[Shift, ...], ...] = STANDARD_WEEK
    exceptions: tuple[CalendarException, ...] = ()
    day_minutes: int = 480
    """The working minutes that a planner's `1 day` means."""
    week_minutes: int = 2400
    month_days: int = 20

    def __post_init__(self) -> None:
        """Checks the parts.

        Raises `InputError` with the name of the calendar if there are not seven weekdays, shifts
        are out of order or out of the day, an exception ends before it begins, or a day, week or
        month has no time.
        """
        fault = _fault(self)
        if fault:
            raise InputError(f"calendar {self.name!r}: {fault}")

    def exception_on(self, day: date) -> CalendarException | None:
        """Returns the exception that holds on a day, or None."""
        index = self._exceptions.index_at(day.toordinal())
        return None if index is None else self.exceptions[index]

    def shifts_on(self, day: date) -> tuple[Shift, ...]:
        """Returns the shifts of a day, in order; none if it is free."""
        exception = self.exception_on(day)
        if exception is not None:
            return exception.shifts
        return self.week[day.weekday()]

    def is_working(self, day: date) -> bool:
        """Says whether any time of the day is worked."""
        return bool(self.shifts_on(day))

    def working_minutes(self, day: date) -> int:
        """Returns the minutes of work of a day."""
        return _length(self.shifts_on(day))

    def position(self, moment: datetime) -> int:
        """Returns the working minutes from the beginning of the year 1 to a moment."""
        minute = moment.hour * 60 + moment.minute
        done = 0
        for begin, end in self.shifts_on(moment.date()):
            done += max(0, min(minute, end) - begin)
        return self._minutes.before(moment.toordinal()) + done

    def at(self, position: int) -> datetime:
        """Returns the moment with a position at which work goes on: a morning, not an evening.

        Raises `InputError` if the moment is not in the years 1 to 9999.
        """
        found = self._minutes.day_at(position)
        if found is None:
            raise InputError(f"calendar {self.name!r}: a date outside the years 1 to 9999")
        ordinal, rest = found
        day = date.fromordinal(ordinal)
        for begin, end in self.shifts_on(day):
            if rest < end - begin:
                return _moment(day, begin + rest)
            rest -= end - begin
        raise AssertionError("a day has the minutes that its shifts have")

    def end_at(self, position: int) -> datetime:
        """Returns the moment with a position at which work ends: an evening, not a morning.

        Raises `InputError` if the moment is not in the years 1 to 9999.
        """
        last = self.at(position - 1)
        if last.date() == date.max and last.hour * 60 + last.minute == MINUTES_OF_DAY - 1:
            raise InputError(f"calendar {self.name!r}: a date outside the years 1 to 9999")
        return last + timedelta(minutes=1)

    def between(self, first: datetime, last: datetime) -> int:
        """Returns the working minutes from a moment to another; negative if `last` is earlier."""
        return self.position(last) - self.position(first)

    def add(self, moment: datetime, minutes: int) -> datetime:
        """Returns the moment at which work goes on after so many working minutes.

        Negative minutes lead back. The moment is always one of work: 8 hours after a Friday morning
        are the Monday morning, and no minutes after a Saturday too. `InputError` as in `at`.
        """
        return self.at(self.position(moment) + minutes)

    def end_of(self, moment: datetime, minutes: int) -> datetime:
        """Returns the moment at which work that begins at `moment` and takes `minutes` ends.

        That is an evening rather than the next morning: 8 hours from a Friday morning end on the
        Friday evening. Work without duration from a morning ends on the evening before it.
        `InputError` as in `end_at`.
        """
        return self.end_at(self.position(moment) + minutes)

    def add_elapsed(self, moment: datetime, minutes: int) -> datetime:
        """Returns the first working moment when so many minutes by the clock have gone by.

        Raises `InputError` if it is not in the years 1 to 9999.
        """
        try:
            reached = moment + timedelta(minutes=minutes)
        except OverflowError:
            raise InputError(
                f"calendar {self.name!r}: a date outside the years 1 to 9999"
            ) from None
        return self.add(reached, 0)

    def morning(self, day: date) -> datetime:
        """Returns the first working moment on the day or after it."""
        return self.add(_moment(day, 0), 0)

    def evening(self, day: date) -> datetime:
        """Returns the end of work on the day, or on the last working day before it."""
        shifts = self.shifts_on(day)
        if shifts and shifts[-1][1] < MINUTES_OF_DAY:
            return _moment(day, shifts[-1][1])
        return self.end_at(self._minutes.before(day.toordinal() + 1))

    def count_days(self, first: date, last: date) -> int:
        """Returns the working days from `first` (counted) to `last` (not counted).

        It is negative if `last` is earlier: then the days from `last` to the day before `first`.
        """
        return self._days.before(last.toordinal()) - self._days.before(first.toordinal())

    def add_days(self, day: date, count: int) -> date:
        """Returns the working day so many working days after the first one on or after `day`.

        Raises `InputError` if it is not in the years 1 to 9999.
        """
        found = self._days.day_at(self._days.before(day.toordinal()) + count)
        if found is None:
            raise InputError(f"calendar {self.name!r}: a date outside the years 1 to 9999")
        return date.fromordinal(found[0])

    def working_days(self, first: date, last: date) -> Iterator[date]:
        """Yields the working days from `first` to `last`, both ends inclusive."""
        for ordinal in range(first.toordinal(), last.toordinal() + 1):
            day = date.fromordinal(ordinal)
            if self.is_working(day):
                yield day

    @cached_property
    def _exceptions(self) -> "_Stretches":
        return _Stretches.of(self.exceptions)

    @cached_property
    def _minutes(self) -> "_Scale":
        free = [_length(exception.shifts) for exception in self.exceptions]
        return _Scale([_length(shifts) for shifts in self.week], self._exceptions, free)

    @cached_property
    def _days(self) -> "_Scale":
        worked = [int(bool(exception.shifts)) for exception in self.exceptions]
        return _Scale([int(bool(shifts)) for shifts in self.week], self._exceptions, worked)


def merged_shifts(shifts: Iterable[Shift]) -> tuple[Shift, ...]:
    """Returns shifts in order of time; those that overlap or touch become one, empty ones none."""
    merged: list[Shift] = []
    for begin, end in sorted(shifts):
        if end <= begin:
            continue
        if merged and begin <= merged[-1][1]:
            merged[-1] = (merged[-1][0], max(end, merged[-1][1]))
        else:
            merged.append((begin, end))
    return tuple(merged)


def free_days(days: Iterable[date], name: str = "") -> tuple[CalendarException, ...]:
    """Returns an exception without work for each day, in order and each once."""
    return tuple(CalendarException(day, day, name) for day in sorted(set(days)))


class _Stretches:
    """The stretches of days that exceptions cover: disjoint, in order, each of one exception.

    Days are ordinals; the ends of stretches are exclusive.
    """

    def __init__(self, begins: list[int], ends: list[int], indices: list[int]) -> None:
        self.begins = begins
        self.ends = ends
        self.indices = indices

    @classmethod
    def of(cls, exceptions: Sequence[CalendarException]) -> "_Stretches":
        """Returns the stretches of exceptions, where the first of those that overlap holds."""
        edges: set[int] = set()
        for exception in exceptions:
            edges.update((exception.first.toordinal(), exception.last.toordinal() + 1))
        by_begin = sorted(range(len(exceptions)), key=lambda index: exceptions[index].first)
        stretches = cls([], [], [])
        waiting: list[int] = []
        cuts = sorted(edges)
        at = 0
        for begin, end in zip(cuts, cuts[1:]):
            while at < len(by_begin) and exceptions[by_begin[at]].first.toordinal() <= begin:
                heappush(waiting, by_begin[at])
                at += 1
            while waiting and exceptions[waiting[0]].last.toordinal() < begin:
                heappop(waiting)
            if waiting:
                stretches._append(begin, end, waiting[0])
        return stretches

    def _append(self, begin: int, end: int, index: int) -> None:
        if self.indices and self.indices[-1] == index and self.ends[-1] == begin:
            self.ends[-1] = end
            return
        self.begins.append(begin)
        self.ends.append(end)
        self.indices.append(index)

    def index_at(self, ordinal: int) -> int | None:
        """Returns the index of the exception that holds on a day, or None."""
        found = bisect_right(self.begins, ordinal) - 1
        if found < 0 or ordinal >= self.ends[found]:
            return None
        return self.indices[found]


class _Scale:
    """Adds up a weight of days (minutes, or 1 for a working day) from the beginning of the year 1.

    The days fall into parts, alternately of the week and of an exception. `starts` has the first
    day of each part as an ordinal, `totals` the weight before it. The day 1 is a Monday.
    """

    def __init__(self, week: list[int], stretches: _Stretches, weights: list[int]) -> None:
        self._week = [0, *accumulate(week)]
        self._starts = [1]
        self._fixed: list[int | None] = [None]
        self._totals = [0]
        for begin, end, index in zip(stretches.begins, stretches.ends, stretches.indices):
            self._begin_part(begin, weights[index])
            self._begin_part(end, None)

    def _begin_part(self, ordinal: int, weight: int | None) -> None:
        """Begins a part at a day, each day of it with a weight, or with that of the week."""
        total = self.before(ordinal)
        if self._starts[-1] == ordinal:
            self._fixed[-1] = weight
            return
        self._starts.append(ordinal)
        self._totals.append(total)
        self._fixed.append(weight)

    def _regular(self, ordinal: int) -> int:
        """Returns the weight of the days before a day if there were no exceptions."""
        weeks, weekday = divmod(ordinal - 1, 7)
        return weeks * self._week[7] + self._week[weekday]

    def before(self, ordinal: int) -> int:
        """Returns the weight of all days before a day."""
        part = bisect_right(self._starts, ordinal) - 1
        start, weight = self._starts[part], self._fixed[part]
        if weight is None:
            return self._totals[part] + self._regular(ordinal) - self._regular(start)
        return self._totals[part] + (ordinal - start) * weight

    def day_at(self, position: int) -> tuple[int, int] | None:
        """Returns the day that holds a position, and how much of its weight comes before it.

        The day has a weight greater than that. Returns None if there is none up to the year 9999.
        """
        if position < 0:
            return None
        part = bisect_right(self._totals, position) - 1
        rest = position - self._totals[part]
        weight = self._fixed[part]
        if weight is None:
            found = self._day_of_week_part(self._regular(self._starts[part]) + rest)
        else:
            found = self._day_of_fixed_part(self._starts[part], weight, rest)
        return found if found is not None and found[0] <= _LAST_DAY else None

    def _day_of_week_part(self, regular: int) -> tuple[int, int] | None:
        if self._week[7] == 0:
            return None
        weeks, rest = divmod(regular, self._week[7])
        weekday = bisect_right(self._week, rest) - 1
        return weeks * 7 + weekday + 1, rest - self._week[weekday]

    @staticmethod
    def _day_of_fixed_part(start: int, weight: int, rest: int) -> tuple[int, int] | None:
        if weight == 0:
            return None
        days, minutes = divmod(rest, weight)
        return start + days, minutes


def _moment(day: date, minute: int) -> datetime:
    """Returns the moment of a minute of a day, less than 24 hours."""
    return datetime(day.year, day.month, day.day, minute // 60, minute % 60)


def _length(shifts: tuple[Shift, ...]) -> int:
    """Returns the minutes of shifts."""
    return sum(end - begin for begin, end in shifts)


def _fault(calendar: Calendar) -> str:
    """Returns what is wrong with the parts of a calendar, or an empty text."""
    if len(calendar.week) != 7:
        return f"{len(calendar.week)} weekdays instead of 7"
    if min(calendar.day_minutes, calendar.week_minutes, calendar.month_days) < 1:
        return "a day, week or month without working time"
    if calendar.day_minutes > MINUTES_OF_DAY or calendar.week_minutes > 7 * MINUTES_OF_DAY:
        return "a day or week has more working time than it is long"
    for shifts in calendar.week:
        if not _are_in_order(shifts):
            return "shifts of a weekday that overlap or are no times of a day"
    for exception in calendar.exceptions:
        if exception.last < exception.first:
            return f"exception {exception.name!r} ends on {exception.last}, before it begins"
        if not _are_in_order(exception.shifts):
            return f"exception {exception.name!r}: shifts that overlap or are no times of a day"
    return ""


def _are_in_order(shifts: tuple[Shift, ...]) -> bool:
    """Says whether shifts are times of a day, each after the one before it."""
    last = 0
    for begin, end in shifts:
        if not last <= begin < end <= MINUTES_OF_DAY:
            return False
        last = end
    return True


def works_daily(calendar: Calendar) -> bool:
    """Says whether every day of the calendar is worked."""
    return all(calendar.week) and not any(not e.shifts for e in calendar.exceptions)
