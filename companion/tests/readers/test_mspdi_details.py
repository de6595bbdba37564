"""What MS Project's XML says beyond what random plans have, case by case."""

from dataclasses import replace
from datetime import date, datetime
from decimal import Decimal
from fractions import Fraction
from pathlib import Path

import pytest

from pert_companion.model import moments
from pert_companion.model.calendar import Calendar
from pert_companion.model.errors import InputError
from pert_companion.model.logic import CLOCK_NAME
from pert_companion.model.plan import (
    Constraint,
    ConstraintKind,
    Crash,
    Lag,
    LinkKind,
    Plan,
    ResourceKind,
    Task,
)
from pert_companion.model.source import Source
from pert_companion.readers import mspdi, mspdi_tasks
from pert_companion.readers.base import ReaderOptions, Reading

NAMESPACE = "http://schemas.microsoft.com/project"
START = "<StartDate>2026-03-02T08:00:00</StartDate>"


def task(uid: int, *parts: str, level: int = 1) -> str:
    """Returns a task with further elements."""
    return (
        f"<Task><UID>{uid}</UID><ID>{uid}</ID><Name>Task {uid}</Name>"
        f"<OutlineLevel>{level}</OutlineLevel>{''.join(parts)}</Task>"
    )


DAY = "<Duration>PT8H0M0S</Duration>"


def read(tasks: str, head: str = START, options: ReaderOptions = ReaderOptions()) -> Reading:
    """Reads a file with tasks."""
    data = f'<Project xmlns="{NAMESPACE}">{head}<Tasks>{tasks}</Tasks></Project>'
    return mspdi.read(Source(Path("plan.xml"), data.encode()), options)


def first(reading: Reading) -> Task:
    """Returns the first task."""
    return next(reading.plan.tasks())


def kinds(reading: Reading) -> list[str]:
    """Returns the kinds of the losses."""
    return [loss.kind.value for loss in reading.losses]


def link(*parts: str) -> str:
    """Returns a link to task 1."""
    return f"<PredecessorLink><PredecessorUID>1</PredecessorUID>{''.join(parts)}</PredecessorLink>"


@pytest.mark.parametrize(
    ("text", "minutes"),
    (
        ("PT16H0M0S", 960),
        ("PT16H", 960),
        ("P2D", 2880),
        ("P1DT8H30M", 1920 + 30),
        ("PT0H0M90S", 2),
        ("PT30M0.5S", 30),
        ("PT", None),
        ("P", None),
        ("16", None),
        ("PT-8H0M0S", None),
        ("PT" + "9" * 70 + "H", None),
    ),
)
def test_durations(text: str, minutes: int | None) -> None:
    """Durations in all the forms that programs write."""
    assert mspdi_tasks.duration(text) == minutes


def test_lags() -> None:
    """Tenths of minutes, elapsed ones, percentages, elapsed percentages, kinds of links."""
    parts = (
        "<Type>3</Type><LinkLag>4800</LinkLag><LagFormat>7</LagFormat>",
        "<Type>0</Type><LinkLag>14400</LinkLag><LagFormat>8</LagFormat>",
        "<Type>2</Type><LinkLag>-50</LinkLag><LagFormat>19</LagFormat>",
        "<LinkLag>50</LinkLag><LagFormat>20</LagFormat>",
    )
    tasks = "".join(task(n, DAY, link(part)) for n, part in enumerate(parts, 2))
    reading = read(task(1, DAY) + tasks)
    assert [(each.kind, each.lag) for each in reading.plan.links] == [
        (LinkKind.START_START, Lag(480)),
        (LinkKind.FINISH_FINISH, Lag(1440, elapsed=True)),
        (LinkKind.START_FINISH, Lag(share=Fraction(-1, 2))),
        (LinkKind.FINISH_START, Lag(share=Fraction(1, 2))),
    ]
    assert kinds(reading) == ["elapsed"]


@pytest.mark.parametrize(
    "part",
    (
        "<Type>9</Type>",
        "<LinkLag>many</LinkLag>",
        "<LinkLag>99999999999999</LinkLag>",
        "<CrossProject>1</CrossProject>",
    ),
)
def test_links_without_sense(part: str) -> None:
    """A link of no kind, without a lag, or to another file is a loss."""
    reading = read(task(1, DAY) + task(2, DAY, link(part)))
    assert reading.plan.links == () and kinds(reading) == ["link"]


def test_links_of_groups() -> None:
    """Links from and to summary rows stay links of groups."""
    tasks = task(1) + task(2, DAY, level=2) + task(3, link()) + task(4, DAY, level=2)
    (found,) = read(tasks).plan.links
    assert (found.predecessor, found.successor) == ("1", "3")


def test_rows_that_are_left_out() -> None:
    """Inactive tasks go with their links; tasks of other files leave theirs as losses."""
    tasks = task(1, DAY, "<Active>0</Active>") + task(2, DAY, link())
    reading = read(tasks)
    assert kinds(reading) == ["task"] and [each.uid for each in reading.plan.tasks()] == ["2"]
    for flag in ("ExternalTask", "IsSubproject"):
        tasks = task(1, DAY, f"<{flag}>1</{flag}>") + task(2, DAY, link())
        assert kinds(read(tasks)) == ["task", "link"]
    assert kinds(read(task(1, DAY) + task(2, "<IsNull>1</IsNull>"))) == []


def test_groups_with_more_than_a_name() -> None:
    """Deadline, constraint and fixed cost of a group are losses; its own WBS code is its code."""
    parts = "<Deadline>2026-05-01T17:00:00</Deadline><ConstraintType>4</ConstraintType>"
    parts += "<FixedCost>5000</FixedCost><WBS>A.1</WBS><OutlineNumber>1</OutlineNumber>"
    reading = read(task(1, parts) + task(2, DAY, level=2))
    assert kinds(reading) == ["deadline", "constraint", "cost"]
    assert next(reading.plan.groups()).code == "A.1"
    parts = "<WBS>1</WBS><OutlineNumber>1</OutlineNumber>"
    assert next(read(task(1, parts) + task(2, DAY, level=2)).plan.groups()).code == ""


def test_elapsed_durations() -> None:
    """14 days by the clock are 14 times 24 hours of a calendar that never stops."""
    parts = "<Duration>PT336H0M0S</Duration><DurationFormat>8</DurationFormat>"
    reading = read(task(1, parts, "<Start>2026-03-02T08:00:00</Start>"))
    assert first(reading).minutes == 14 * 1440 and kinds(reading) == []
    assert first(reading).calendar == CLOCK_NAME


def test_manual_tasks() -> None:
    """A manual task with dates alone has the working time between them; without any, none."""
    dates = "<Manual>1</Manual><Start>2026-03-02T08:00:00</Start>"
    reading = read(task(1, dates, "<Finish>2026-03-04T17:00:00</Finish>"))
    assert first(reading).minutes == 3 * 480 and first(reading).manual and kinds(reading) == []
    at_once = read(task(1, dates, "<Finish>2026-03-02T08:00:00</Finish>"))
    assert first(at_once).minutes == 0 and kinds(at_once) == []
    for parts in (dates, "<Manual>1</Manual>"):
        with pytest.raises(InputError, match="without dates"):
            read(task(1, parts))
    assert kinds(read(task(1, dates) + task(2, DAY))) == ["task"]


def test_split_tasks() -> None:
    """A task that takes longer than it works is named."""
    dates = "<Start>2026-03-02T08:00:00</Start><Finish>2026-03-06T17:00:00</Finish>"
    reading = read(task(1, DAY, dates))
    assert kinds(reading) == ["pause"] and "2400" in reading.losses[0].why
    assert kinds(read(task(1, DAY, dates, "<Manual>1</Manual>"))) == []


def test_evenings_and_mornings() -> None:
    """A finish before the first shift is of the day before, a start after the last of the next."""
    dates = "<Start>2026-03-06T17:00:00</Start><Finish>2026-03-10T00:00:00</Finish>"
    found = first(read(task(1, DAY, dates)))
    assert (found.listed_start, found.listed_finish) == (
        date(2026, 3, 9),
        date(2026, 3, 9),
    )
    calendar = Calendar()
    assert moments.finish_day(calendar, "2026-03-09T08:00:00") == date(2026, 3, 6)
    assert moments.finish_day(calendar, "2026-03-09T08:01:00") == date(2026, 3, 9)
    assert moments.finish_day(calendar, "2026-03-09") == date(2026, 3, 9)
    assert moments.finish_day(calendar, "2026-03-07T12:00:00") == date(2026, 3, 7)
    assert moments.finish_day(calendar, "soon") is None
    assert moments.start_day(calendar, "soon") is None
    assert moments.start_day(calendar, "2026-03-07T17:00:00") == date(2026, 3, 7)
    assert moments.moment("2026-99-01T00:00:00") is None
    assert moments.moment("0001-01-01T00:00:00") is None
    assert moments.moment("2026-03-02T08:00:00+01:00") == datetime(2026, 3, 2, 8)


def test_progress() -> None:
    """Percent, actual dates, remaining duration and costs; a finish counts at 100 % alone."""
    parts = "<PercentComplete>40</PercentComplete><ActualStart>2026-03-02T08:00:00</ActualStart>"
    parts += "<ActualFinish>2026-03-03T17:00:00</ActualFinish><ActualCost>12345</ActualCost>"
    parts += "<RemainingDuration>PT4H0M0S</RemainingDuration><RemainingCost>500</RemainingCost>"
    found = first(read(task(1, DAY, parts))).progress
    assert (found.percent, found.actual_finish, found.remaining) == (
        Decimal(40),
        None,
        240,
    )
    assert (found.actual_cost, found.remaining_cost) == (Decimal("123.45"), Decimal(5))
    started = "<PercentComplete>0</PercentComplete><ActualStart>2026-03-02T08:00:00</ActualStart>"
    assert first(read(task(1, DAY, started))).progress.actual_start == date(2026, 3, 2)


def test_constraints_without_sense() -> None:
    """A constraint without a date is a loss; one of a finish is of an evening."""
    parts = "<ConstraintType>4</ConstraintType>"
    assert kinds(read(task(1, DAY, parts))) == ["constraint"]
    parts = "<ConstraintType>7</ConstraintType><ConstraintDate>2026-03-09T00:00:00</ConstraintDate>"
    found = first(read(task(1, DAY, parts))).constraint
    assert found == Constraint(ConstraintKind.FINISH_NO_LATER, date(2026, 3, 6))


def test_baselines() -> None:
    """Baselines 0 to 10; one with another number is a loss."""
    parts = "".join(f"<Baseline><Number>{n}</Number></Baseline>" for n in (0, 10, 11, "x"))
    reading = read(task(1, DAY, parts))
    assert [saved.number for saved in first(reading).baselines] == [0, 10]
    assert kinds(reading) == ["baseline", "baseline"]


FIELDS = (
    "<ExtendedAttributes><ExtendedAttribute><FieldID>1</FieldID><FieldName>Duration2</FieldName>"
    "</ExtendedAttribute><ExtendedAttribute><FieldID>2</FieldID><FieldName>Text1</FieldName>"
    "<Alias>Crash</Alias></ExtendedAttribute><ExtendedAttribute><FieldID>3</FieldID>"
    "<FieldName>Number1</FieldName><Alias>Slope</Alias></ExtendedAttribute>"
    "<ExtendedAttribute><FieldID>4</FieldID><FieldName>Cost3</FieldName></ExtendedAttribute>"
    "</ExtendedAttributes>"
)


def custom(number: int, value: str) -> str:
    """Returns the value of a custom field."""
    return (
        f"<ExtendedAttribute><FieldID>{number}</FieldID><Value>{value}</Value></ExtendedAttribute>"
    )


@pytest.mark.parametrize(
    ("parts", "options", "crash", "losses"),
    (
        (custom(2, "0.5d") + custom(3, "40"), {}, Crash(240, slope=Decimal(40)), []),
        (custom(1, "PT4H0M0S") + custom(3, "40"), {}, None, []),
        (
            custom(1, "PT4H0M0S") + custom(4, "40000"),
            {"crash_field": "Duration2", "crash_cost_field": "cost3"},
            Crash(240, cost=Decimal(400)),
            [],
        ),
        (custom(2, "4h"), {}, None, ["crash"]),
        (custom(2, "8h"), {}, None, []),
        (custom(2, "9h") + custom(3, "40"), {}, None, ["crash"]),
        (custom(2, "soon") + custom(3, "40"), {}, None, ["crash"]),
        (custom(2, "4 eh") + custom(3, "40"), {}, None, ["crash"]),
        (custom(9, "4h"), {}, None, []),
    ),
)
def test_crash_durations(
    parts: str, options: dict[str, str], crash: Crash | None, losses: list[str]
) -> None:
    """Custom fields by alias or by --crash-field; amounts of cost fields are in hundredths."""
    reading = read(task(1, DAY, parts), START + FIELDS, replace(ReaderOptions(), **options))
    assert first(reading).crash == crash and kinds(reading) == losses


def calendar(uid: int, name: str, parts: str = "", base: int = -1) -> str:
    """Returns a calendar of a file."""
    return (
        f"<Calendar><UID>{uid}</UID><Name>{name}</Name><BaseCalendarUID>{base}</BaseCalendarUID>"
        f"{parts}</Calendar>"
    )


def exception(kind: str, first_day: str, last_day: str, *parts: str) -> str:
    """Returns a free exception of a calendar."""
    return (
        f"<Exception><TimePeriod><FromDate>{first_day}T00:00:00</FromDate><ToDate>{last_day}"
        f"T23:59:00</ToDate></TimePeriod><Name>Free</Name><Type>{kind}</Type>{''.join(parts)}"
        "<DayWorking>0</DayWorking></Exception>"
    )


def head(calendars: str, uid: int = 1) -> str:
    """Returns the head of a project with calendars."""
    return f"{START}<CalendarUID>{uid}</CalendarUID><Calendars>{calendars}</Calendars>"


def free_days(plan: Plan, days: int = 40) -> list[date]:
    """Returns the weekdays that are free, from the first day on."""
    found = [date.fromordinal(plan.start.toordinal() + n) for n in range(days)]
    return [day for day in found if day.weekday() < 5 and not plan.calendar.is_working(day)]


@pytest.mark.parametrize(
    ("part", "days"),
    (
        (exception("1", "2026-03-03", "2026-03-04"), [3, 4]),
        (
            exception(
                "2",
                "2026-01-01",
                "2028-12-31",
                "<Month>2</Month><MonthDay>5</MonthDay>",
            ),
            [5],
        ),
        (
            exception(
                "6",
                "2026-03-02",
                "2026-03-20",
                "<DaysOfWeek>2</DaysOfWeek><Period>2</Period>",
            ),
            [2, 16],
        ),
        (exception("4", "2026-03-02", "2026-12-31", "<MonthDay>5</MonthDay>"), [5]),
        (
            exception(
                "4",
                "2026-01-05",
                "2027-01-05",
                "<MonthDay>5</MonthDay><Period>2</Period>",
            ),
            [5],
        ),
        (
            exception(
                "4",
                "2026-02-05",
                "2027-01-05",
                "<MonthDay>5</MonthDay><Period>2</Period>",
            ),
            [],
        ),
    ),
)
def test_exceptions(part: str, days: list[int]) -> None:
    """Stretches of days, days of each year, of months, and of weeks."""
    reading = read(task(1, DAY), head(calendar(1, "C", f"<Exceptions>{part}</Exceptions>")))
    assert [day.day for day in free_days(reading.plan, 30)] == days and kinds(reading) == []


@pytest.mark.parametrize(
    "part",
    (
        exception("4", "2026-03-03", "2026-12-04"),
        exception("4", "2026-03-03", "2026-12-04", "<MonthDay>31</MonthDay>"),
        exception("4", "2026-03-03", "2026-12-04", "<MonthDay>2</MonthDay><Period>2</Period>"),
        exception("5", "2026-03-03", "2026-12-04", "<MonthItem>4</MonthItem>"),
        exception("2", "2026-03-03", "2026-12-04"),
        exception("6", "2026-03-03", "2026-12-04"),
        exception("2", "2026-03-03", "2026-12-04", "<Month>1</Month><MonthDay>30</MonthDay>"),
        exception("1", "2026-03-05", "2026-03-04"),
        "<Exception><Name>Never</Name></Exception>",
    ),
)
def test_exceptions_that_are_not_read(part: str) -> None:
    """Other recurrences are losses that name the calendar."""
    reading = read(task(1, DAY), head(calendar(1, "C", f"<Exceptions>{part}</Exceptions>")))
    assert kinds(reading) == ["calendar"] and reading.losses[0].where == "calendar C"


def weekday(number: int, *parts: str) -> str:
    """Returns a weekday; 1 is Sunday, 0 a dated exception."""
    return f"<WeekDay><DayType>{number}</DayType>{''.join(parts)}</WeekDay>"


def test_calendars_build_on_others() -> None:
    """A calendar has the week and exceptions of its base, and its own before them."""
    period = "<TimePeriod><FromDate>2026-03-04T00:00:00</FromDate>"
    period += "<ToDate>2026-03-04T23:59:00</ToDate></TimePeriod><DayWorking>0</DayWorking>"
    base = weekday(2, "<DayWorking>0</DayWorking>") + weekday(0, period)
    times = "<WorkingTimes><WorkingTime><FromTime>22:00:00</FromTime><ToTime>00:00:00</ToTime>"
    times += "</WorkingTime><WorkingTime><FromTime>x</FromTime><ToTime>26:00</ToTime></WorkingTime>"
    own = weekday(3, "<DayWorking>1</DayWorking>", times + "</WorkingTimes>")
    dated = f"<Exceptions>{exception('1', '2026-03-04', '2026-03-04')}</Exceptions>"
    calendars = calendar(1, "Own", f"<WeekDays>{own}{weekday(0, period)}</WeekDays>{dated}", 2)
    calendars += calendar(2, "Base", f"<WeekDays>{base}</WeekDays>", 3)
    calendars += calendar(3, "Loop", "", 1)
    plan = read(task(1, DAY), head(calendars)).plan
    assert plan.calendar.week[0] == () and plan.calendar.week[1] == ((22 * 60, 24 * 60),)
    assert [each.name for each in plan.calendar.exceptions][:1] == ["Free"]
    assert not plan.calendar.is_working(date(2026, 3, 4))


def test_calendars_of_tasks_and_resources() -> None:
    """Only other working time makes a difference; it is named."""
    night = f"<WeekDays>{weekday(2, '<DayWorking>0</DayWorking>')}</WeekDays>"
    calendars = calendar(1, "C") + calendar(2, "Same") + calendar(3, "Night", night)
    calendars += calendar(4, "C", night)
    for uid, name in ((2, None), (3, "Night"), (4, "C (UID 4)"), (9, None)):
        parts = f"<CalendarUID>{uid}</CalendarUID>"
        assert first(read(task(1, DAY, parts), head(calendars))).calendar == name
    work = (
        "<Resources><Resource><UID>1</UID><Name>Crew</Name><Type>1</Type>"
        "<CalendarUID>3</CalendarUID></Resource><Resource><UID>2</UID><Name>Other</Name>"
        "<CalendarUID>2</CalendarUID></Resource></Resources><Assignments><Assignment>"
        "<TaskUID>1</TaskUID><ResourceUID>1</ResourceUID><Work>PT8H0M0S</Work></Assignment>"
        "<Assignment><TaskUID>1</TaskUID><ResourceUID>2</ResourceUID><Work>PT8H0M0S</Work>"
        "</Assignment></Assignments>"
    )
    reading = read(task(1, DAY), head(calendars) + work)
    assert kinds(reading) == ["calendar"] and reading.losses[0].where == "resource Crew"


def test_assignments() -> None:
    """Cost resources have no quantity, unknown ones are losses, work of nobody is none."""
    work = "<Resources><Resource><UID>1</UID><Name>Fee</Name><Type>2</Type></Resource><Resource>"
    work += "<UID>2</UID></Resource></Resources><Assignments>"
    for uid in (1, 2, -65535):
        work += f"<Assignment><TaskUID>1</TaskUID><ResourceUID>{uid}</ResourceUID></Assignment>"
    work += "<Assignment><TaskUID>9</TaskUID><ResourceUID>1</ResourceUID></Assignment>"
    reading = read(task(1, DAY), f"{START}{work}</Assignments>")
    assert kinds(reading) == ["resource"] and reading.plan.assignments == ()
    assert reading.plan.resources[0].kind is ResourceKind.COST


def test_the_project() -> None:
    """Lengths without sense are noted, the first day comes from tasks, a calendar can be chosen."""
    lengths = "<MinutesPerDay>0</MinutesPerDay><DaysPerMonth>21.7</DaysPerMonth>"
    plan = read(task(1, DAY), START + lengths).plan
    assert (plan.calendar.day_minutes, plan.calendar.month_days) == (480, 22)
    assert any("MinutesPerDay" in note for note in plan.notes)
    dated = task(1, DAY, "<Start>2026-03-05T08:00:00</Start>") + task(2, DAY)
    assert read(dated, "").plan.start == date(2026, 3, 5)
    with pytest.raises(InputError, match="no start date"):
        read(task(1, DAY), "")
    calendars = head(calendar(1, "One") + calendar(2, "Two"))
    assert read(task(1, DAY), calendars, ReaderOptions(calendar="two")).plan.calendar.name == "Two"
    with pytest.raises(InputError, match="no calendar named 'three'"):
        read(task(1, DAY), calendars, ReaderOptions(calendar="three"))


def test_files_without_a_plan() -> None:
    """No tasks, two with one UID, none that is carried over."""
    with pytest.raises(InputError, match="no tasks"):
        read("")
    with pytest.raises(InputError, match="two tasks have the UID 1"):
        read(task(1, DAY) + task(1, DAY))
    with pytest.raises(InputError, match="no duration"):
        read(task(1))
    milestone = read(task(1, "<Milestone>1</Milestone><Start>2026-03-02T08:00:00</Start>"))
    assert first(milestone).is_milestone


def test_taskjuggler_fixes_tasks() -> None:
    """The day of a task without links is its start; that of one with links is none."""
    fixed = "<Manual>1</Manual><ConstraintType>2</ConstraintType>"
    dates = "<Start>2026-03-09T08:00:00</Start><Finish>2026-03-09T17:00:00</Finish>"
    tasks = task(1, DAY, fixed, dates) + task(2, DAY, fixed, dates, link())
    comment = "<!-- Generated by TaskJuggler -->"
    data = f'{comment}<Project xmlns="{NAMESPACE}">{START}<Tasks>{tasks}</Tasks></Project>'
    plan = mspdi.read(Source(Path("tj.xml"), data.encode()), ReaderOptions()).plan
    assert [each.constraint for each in plan.tasks()] == [
        Constraint(ConstraintKind.START_NO_EARLIER, date(2026, 3, 9)),
        None,
    ]


@pytest.mark.parametrize("form", (4, 6, 8, 10, 12, 20, 36, 38, 40, 42, 44, 52))
def test_formats_of_elapsed_time(form: int) -> None:
    """MS Project's codes of durations and lags by the clock, estimated ones and shares too."""
    start = "<Start>2026-03-02T08:00:00</Start>"
    form_tag = f"<DurationFormat>{form}</DurationFormat>"
    reading = read(task(1, "<Duration>PT168H0M0S</Duration>", start, form_tag))
    assert first(reading).calendar == CLOCK_NAME and first(reading).minutes == 7 * 1440
    lag_tags = f"<LinkLag>14400</LinkLag><LagFormat>{form}</LagFormat><Type>1</Type>"
    reading = read(task(1, DAY) + task(2, DAY, link(lag_tags)))
    (found,) = reading.plan.links
    assert found.lag.elapsed or found.lag.share is not None


@pytest.mark.parametrize("form", (3, 5, 7, 9, 11, 19, 21, 35, 37, 39, 41, 43, 51, 53))
def test_formats_of_working_time(form: int) -> None:
    """The other codes count working time."""
    form_tag = f"<DurationFormat>{form}</DurationFormat>"
    reading = read(task(1, "<Duration>PT168H0M0S</Duration>", form_tag))
    assert first(reading).calendar is None and first(reading).minutes == 168 * 60
    lag_tags = f"<LinkLag>14400</LinkLag><LagFormat>{form}</LagFormat><Type>1</Type>"
    (found,) = read(task(1, DAY) + task(2, DAY, link(lag_tags))).plan.links
    assert not found.lag.elapsed


def level_zero(uid: int, *parts: str) -> str:
    """Returns a row as TaskJuggler writes its top tasks."""
    return task(uid, *parts, level=0)


def test_several_tasks_at_the_top_of_taskjuggler() -> None:
    """One row of level 0 is the project itself; several are its groups and tasks."""
    rows = level_zero(1) + task(2, DAY) + level_zero(3, DAY) + level_zero(4) + task(5, DAY)
    plan = read(rows).plan
    assert [group.uid for group in plan.groups()] == ["1", "4"]
    assert [(each.uid, each.parent) for each in plan.tasks()] == [
        ("2", "1"),
        ("3", None),
        ("5", "4"),
    ]
    only = read(level_zero(1) + task(2, DAY) + task(3, DAY)).plan
    assert list(only.groups()) == [] and [each.uid for each in only.tasks()] == [
        "2",
        "3",
    ]


def test_work_by_day_of_taskjuggler() -> None:
    """An assignment without a sum has the work of each day."""
    daily = "<TimephasedData><Type>1</Type><Value>PT{}H0M0S</Value></TimephasedData>"
    actual = "<TimephasedData><Type>2</Type><Value>PT4H0M0S</Value></TimephasedData>"
    head = START + (
        "<Resources><Resource><UID>1</UID><Name>Crew</Name><Type>1</Type></Resource></Resources>"
        "<Assignments><Assignment><UID>0</UID><TaskUID>1</TaskUID><ResourceUID>1</ResourceUID>"
        f"<Units>1.0</Units>{daily.format(8)}{daily.format(0)}{daily.format(6)}{actual}"
        "</Assignment></Assignments>"
    )
    plan = read(task(1, "<Duration>PT16H0M0S</Duration>"), head).plan
    assert [(each.resource, int(each.quantity)) for each in plan.assignments] == [("1", 14 * 60)]
