"""Working time: counting and adding are inverse, and equal a count minute by minute."""

from collections.abc import Callable
from datetime import date, datetime, timedelta

import pytest
from hypothesis import given, settings
from hypothesis import strategies as st

from pert_companion.model.calendar import (
    EVERY_DAY,
    STANDARD_DAY,
    STANDARD_WEEK,
    Calendar,
    CalendarException,
    Shift,
    free_days,
    merged_shifts,
)
from pert_companion.model.errors import InputError
from timing import within

FIRST = date(2024, 1, 1)


def random_shifts() -> st.SearchStrategy[tuple[Shift, ...]]:
    """Returns shifts of a day in hours, none to three of them."""
    hour = st.integers(0, 24).map(lambda value: value * 60)
    pairs = st.lists(st.tuples(hour, hour), max_size=3)
    return pairs.map(merged_shifts)


@st.composite
def random_calendars(draw: st.DrawFn) -> Calendar:
    """Returns a calendar with exceptions around the year 2024 that may overlap."""
    week = tuple(draw(random_shifts()) for _ in range(7))
    exceptions = []
    for _ in range(draw(st.integers(0, 6))):
        first = FIRST + timedelta(days=draw(st.integers(-20, 60)))
        last = first + timedelta(days=draw(st.integers(0, 12)))
        exceptions.append(CalendarException(first, last, "x", draw(random_shifts())))
    return Calendar("Random", week, tuple(exceptions))


def first_exception(calendar: Calendar, day: date) -> CalendarException | None:
    """Returns the exception that holds on a day, found one by one."""
    for exception in calendar.exceptions:
        if exception.first <= day <= exception.last:
            return exception
    return None


def plain_minutes(calendar: Calendar, day: date) -> int:
    """Returns the minutes of a day whose shifts are whole hours, found by asking for each hour."""
    exception = first_exception(calendar, day)
    shifts = calendar.week[day.weekday()] if exception is None else exception.shifts
    worked = 0
    for hour in range(24):
        worked += any(begin <= hour * 60 < end for begin, end in shifts)
    return worked * 60


@given(random_calendars(), st.integers(-40, 100), st.integers(0, 60))
@settings(max_examples=60, deadline=None)
def test_days_are_counted_one_by_one(calendar: Calendar, begin: int, length: int) -> None:
    """Counts of days and minutes are the sums over the days between."""
    first = FIRST + timedelta(days=begin)
    last = first + timedelta(days=length)
    days = [first + timedelta(days=number) for number in range(length)]
    minutes = [plain_minutes(calendar, day) for day in days]
    assert [calendar.working_minutes(day) for day in days] == minutes
    assert [calendar.exception_on(day) for day in days] == [
        first_exception(calendar, day) for day in days
    ]
    assert calendar.count_days(first, last) == sum(1 for count in minutes if count > 0)
    assert calendar.count_days(last, first) == -calendar.count_days(first, last)
    between = calendar.between(
        datetime(first.year, first.month, first.day),
        datetime(last.year, last.month, last.day),
    )
    assert between == sum(minutes)
    assert list(calendar.working_days(first, last - timedelta(days=1))) == [
        day for day, count in zip(days, minutes) if count > 0
    ]


@given(random_calendars(), st.integers(-50_000, 100_000), st.integers(-40_000, 40_000))
@settings(max_examples=150, deadline=None)
def test_adding_is_the_inverse_of_counting(calendar: Calendar, minute: int, added: int) -> None:
    """The moment that `add` returns is a working one, as many minutes away as were added."""
    moment = datetime(2024, 1, 1) + timedelta(minutes=minute)
    if not any(calendar.week):
        return
    reached = calendar.add(moment, added)
    assert calendar.between(moment, reached) == added
    assert calendar.position(reached + timedelta(minutes=1)) == calendar.position(reached) + 1
    assert calendar.add(reached, -added) == calendar.add(moment, 0)
    ended = calendar.end_of(moment, added)
    assert calendar.between(moment, ended) == added
    assert calendar.position(ended - timedelta(minutes=1)) == calendar.position(ended) - 1
    assert calendar.add(reached, 0) == reached


@given(random_calendars(), st.integers(-30, 90), st.integers(-30, 30))
@settings(max_examples=60, deadline=None)
def test_adding_days_is_the_inverse_of_counting_days(
    calendar: Calendar, begin: int, count: int
) -> None:
    """The day that `add_days` returns is a working day, so many working days away."""
    if not any(calendar.week):
        return
    day = FIRST + timedelta(days=begin)
    reached = calendar.add_days(day, count)
    assert calendar.is_working(reached)
    assert calendar.count_days(day, reached) == count


def test_the_evening_is_the_end_and_the_morning_the_beginning() -> None:
    """Eight hours from a Friday morning end on the evening, and work goes on on Monday."""
    calendar = Calendar()
    friday = datetime(2024, 3, 8, 8)
    assert calendar.add(friday, 480) == datetime(2024, 3, 11, 8)
    assert calendar.end_of(friday, 480) == datetime(2024, 3, 8, 17)
    assert calendar.add(datetime(2024, 3, 9), 0) == datetime(2024, 3, 11, 8)
    assert calendar.add(datetime(2024, 3, 8, 17), -480) == friday
    assert calendar.end_of(friday, 240) == datetime(2024, 3, 8, 12)
    assert calendar.add(friday, 240) == datetime(2024, 3, 8, 13)
    assert calendar.end_of(datetime(2024, 3, 11, 8), 0) == datetime(2024, 3, 8, 17)
    assert calendar.morning(date(2024, 3, 9)) == datetime(2024, 3, 11, 8)
    assert calendar.evening(date(2024, 3, 8)) == datetime(2024, 3, 8, 17)
    assert calendar.evening(date(2024, 3, 10)) == datetime(2024, 3, 8, 17)


def test_elapsed_time_goes_over_free_days() -> None:
    """Fourteen elapsed days from 20 December end after the holidays, on a working morning."""
    holidays = CalendarException(date(2024, 12, 23), date(2025, 1, 3), "Christmas")
    calendar = Calendar(exceptions=(holidays,))
    evening = datetime(2024, 12, 20, 17)
    reached = calendar.add_elapsed(evening, 14 * 1440)
    assert reached == datetime(2025, 1, 6, 8)
    assert calendar.between(evening, reached) == 0
    night = Calendar(week=(((0, 360), (1320, 1440)),) * 7)
    assert night.evening(date(2024, 3, 8)) == datetime(2024, 3, 9)


def test_the_first_of_exceptions_that_overlap_holds() -> None:
    """A Saturday that is worked within a free week stays worked if it comes first."""
    worked = CalendarException(date(2024, 3, 9), date(2024, 3, 9), "extra", STANDARD_DAY)
    free = CalendarException(date(2024, 3, 4), date(2024, 3, 15), "shutdown")
    calendar = Calendar(exceptions=(worked, free))
    assert calendar.count_days(date(2024, 3, 1), date(2024, 3, 18)) == 2
    assert calendar.exception_on(date(2024, 3, 9)) == worked
    assert calendar.exception_on(date(2024, 3, 10)) == free
    assert calendar.exception_on(date(2024, 3, 16)) is None


def test_years_are_bounded() -> None:
    """A date before the year 1 or after 9999 is an error with one line."""
    calendar = Calendar()
    calls: list[Callable[[], object]] = [
        lambda: calendar.add(datetime(9999, 12, 1), 10**9),
        lambda: calendar.add(datetime(2024, 1, 1), 10**30),
        lambda: calendar.add(datetime(1, 1, 1), -1),
        lambda: calendar.end_of(datetime(1, 1, 1), 0),
        lambda: calendar.add_days(date(2024, 1, 1), 10**12),
        lambda: calendar.add_elapsed(datetime(2024, 1, 1), 10**14),
        lambda: calendar.add_elapsed(datetime(9999, 12, 31), 1439),
        lambda: Calendar(week=((),) * 7).morning(date(2024, 1, 1)),
        lambda: Calendar(week=(((0, 1440),),) * 7).evening(date.max),
    ]
    for call in calls:
        with pytest.raises(InputError, match="outside the years 1 to 9999"):
            call()
    assert calendar.evening(date.max) == datetime(9999, 12, 31, 17)


def test_work_of_exceptions_alone() -> None:
    """A calendar without weekly work has the days of its exceptions."""
    worked = CalendarException(date(2024, 3, 9), date(2024, 3, 10), "weekend", STANDARD_DAY)
    calendar = Calendar(week=((),) * 7, exceptions=(worked,))
    assert calendar.add(datetime(2024, 1, 1), 480) == datetime(2024, 3, 10, 8)
    assert calendar.end_of(datetime(2024, 1, 1), 960) == datetime(2024, 3, 10, 17)
    with pytest.raises(InputError):
        calendar.add(datetime(2024, 1, 1), 960)


@pytest.mark.parametrize(
    "parts, line",
    [
        ({"week": STANDARD_WEEK[:6]}, "6 weekdays instead of 7"),
        ({"day_minutes": 0}, "without working time"),
        ({"day_minutes": 1441}, "more working time than it is long"),
        ({"week": (((480, 400),),) + STANDARD_WEEK[1:]}, "shifts of a weekday"),
        ({"week": (((480, 1441),),) + STANDARD_WEEK[1:]}, "shifts of a weekday"),
        (
            {"exceptions": (CalendarException(date(2024, 3, 2), date(2024, 3, 1), "A"),)},
            "'A' ends on 2024-03-01, before it begins",
        ),
        (
            {"exceptions": (CalendarException(FIRST, FIRST, "A", ((9, 9),)),)},
            "'A': shifts that overlap",
        ),
    ],
)
def test_faults_of_a_calendar_are_one_line(parts: dict[str, object], line: str) -> None:
    """A calendar that makes no sense names itself and its fault."""
    with pytest.raises(InputError, match=line):
        Calendar(**parts)  # type: ignore[arg-type]


def test_helpers_give_tidy_parts() -> None:
    """Shifts are merged and free days listed once."""
    assert merged_shifts([(600, 700), (480, 600), (900, 900), (1000, 990)]) == ((480, 700),)
    days = free_days([date(2024, 5, 1), date(2024, 3, 1), date(2024, 5, 1)], "rest")
    assert [exception.first for exception in days] == [
        date(2024, 3, 1),
        date(2024, 5, 1),
    ]
    assert Calendar(week=EVERY_DAY).is_working(date(2024, 3, 10))


def test_decades_and_many_calls_are_quick() -> None:
    """A hundred thousand calls over centuries and thousands of exceptions take seconds at most."""
    days = [FIRST + timedelta(days=3 * number) for number in range(5000)]
    calendar = Calendar(exceptions=free_days(days))
    moment = datetime(1950, 1, 1)
    with within(20):
        for number in range(50_000):
            reached = calendar.add(moment, number * 997)
            assert calendar.between(moment, reached) == number * 997
