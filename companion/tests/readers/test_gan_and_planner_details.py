"""What files of GanttProject and GNOME Planner say beyond what random plans have."""

from dataclasses import replace
from datetime import date
from decimal import Decimal
from pathlib import Path
from typing import Any

import pytest

from pert_companion.model.errors import InputError
from pert_companion.model.plan import (
    Baseline,
    Constraint,
    ConstraintKind,
    Crash,
    LinkKind,
    ResourceKind,
    Task,
)
from pert_companion.model.source import Source
from pert_companion.readers import gan, gnome_planner
from pert_companion.readers.base import ReaderOptions, Reading


def first(reading: Reading) -> Task:
    """Returns the first task."""
    return next(reading.plan.tasks())


def kinds(reading: Reading) -> list[str]:
    """Returns the kinds of the losses."""
    return [loss.kind.value for loss in reading.losses]


def read_gan(tasks: str, rest: str = "", calendars: str = "", **options: object) -> Reading:
    """Reads a file of GanttProject."""
    data = (
        f'<project name="P" view-date="2026-03-02"><calendars>{calendars}</calendars>'
        f"<tasks>{tasks}</tasks>{rest}</project>"
    )
    assert gan.matches(data.encode())
    return gan.read(Source(Path("p.gan"), data.encode()), replace(ReaderOptions(), **options))


def gan_task(uid: int, inside: str = "", **attributes: object) -> str:
    """Returns a task of two days from Monday, 2 March 2026."""
    values = {"name": f"Task {uid}", "start": "2026-03-02", "duration": 2, **attributes}
    words = "".join(f' {key.replace("_", "-")}="{value}"' for key, value in values.items())
    return f'<task id="{uid}"{words}>{inside}</task>'


def test_gan_dates() -> None:
    """The finish is the last day of work; the first day is the earliest start."""
    reading = read_gan(gan_task(1, duration=6) + gan_task(2, start="2026-02-27"))
    task = first(reading)
    assert (task.listed_start, task.listed_finish) == (
        date(2026, 3, 2),
        date(2026, 3, 9),
    )
    assert reading.plan.start == date(2026, 2, 27)
    assert read_gan(gan_task(1), start=date(2026, 1, 5)).plan.start == date(2026, 1, 5)
    with pytest.raises(InputError, match="--start"):
        read_gan(gan_task(1, start="soon"))


def test_gan_milestones_progress_and_earliest_starts() -> None:
    """Milestones have no duration, even if old versions write one."""
    task = first(read_gan(gan_task(1, meeting="true", duration=1, complete=0)))
    assert task.is_milestone and task.listed_finish == date(2026, 3, 2)
    task = first(read_gan(gan_task(1, complete=40, thirdDate="2026-03-04", thirdDate_constraint=1)))
    assert task.progress.percent == 40
    assert task.constraint == Constraint(ConstraintKind.START_NO_EARLIER, date(2026, 3, 4))


def test_gan_calendar() -> None:
    """Free weekdays, days of one year and of each year, days that are worked."""
    week = '<day-types><default-week id="1" fri="1" sat="1" sun="0"/></day-types>'
    days = '<date year="2026" month="3" date="3" type="HOLIDAY">Rest</date>'
    days += '<date year="" month="3" date="4" type="HOLIDAY"/>'
    days += '<date year="2026" month="3" date="6" type="WORKING_DAY"/>'
    days += '<date year="2026" month="3" date="9" type="NEUTRAL"/>'
    days += '<date year="2026" month="2" date="30" type="HOLIDAY"/>'
    calendar = read_gan(gan_task(1), calendars=week + days).plan.calendar
    worked = [n for n in range(1, 14) if calendar.is_working(date(2026, 3, n))]
    assert worked == [1, 2, 5, 6, 8, 9, 10, 11, 12]
    assert not calendar.is_working(date(2027, 3, 4))
    assert calendar.week_minutes == 5 * 480
    long = read_gan(gan_task(1), day_minutes=600)
    assert first(long).minutes == 1200 and long.plan.calendar.week[0] == ((480, 1080),)


def test_gan_resources() -> None:
    """Rates of days become rates of hours; tasks cost what their resources do, or their own."""
    crew = '<resources><resource id="3" name="Crew"><rate name="standard" value="400"/></resource>'
    loads = '</resources><allocations><allocation task-id="1" resource-id="3" load="50.0"/>'
    loads += '<allocation task-id="9" resource-id="3"/>'
    loads += '<allocation task-id="1" resource-id="3" load="-5"/></allocations>'
    reading = read_gan(gan_task(1, cost_calculated="true"), crew + loads)
    assert first(reading).cost == Decimal("400.00")
    assert reading.plan.resources[0].rate == 50
    assert reading.plan.assignments[0].quantity == 480
    assert kinds(reading) == ["resource", "resource"]
    own = gan_task(1, cost_calculated="false", cost_manual_value="75")
    assert first(read_gan(own, crew + loads)).cost == 75


def test_gan_links_baselines_and_columns() -> None:
    """Links are with the task before; columns of one's own say crash durations."""
    links = '<depend id="2" type="3" difference="-1"/><depend id="9"/><depend id="2" type="8"/>'
    columns = '<taskproperties><taskproperty id="a" name="Crash" type="custom"/>'
    columns += '<taskproperty id="b" name="Slope" type="custom"/>'
    columns += '<taskproperty id="c" name="Slope" type="default"/></taskproperties>'
    crash = '<customproperty taskproperty-id="a" value="1"/>'
    crash += '<customproperty taskproperty-id="b" value="30"/>'
    tasks = columns + gan_task(1, links) + gan_task(2, crash)
    tasks += gan_task(3, crash.replace('value="1"', 'value="x"'))
    saved = '<previous><previous-tasks name="one"><previous-task id="1" start="2026-03-02"'
    saved += ' duration="5"/><previous-task id="1" duration="x"/></previous-tasks></previous>'
    reading = read_gan(tasks, saved)
    plan = reading.plan
    assert [(each.kind, each.lag.minutes) for each in plan.links] == [
        (LinkKind.FINISH_FINISH, -480)
    ]
    assert kinds(reading) == ["baseline", "crash", "link", "link"]
    assert list(plan.tasks())[1].crash == Crash(480, slope=Decimal(30))
    assert first(reading).baselines == (
        Baseline(0, date(2026, 3, 2), date(2026, 3, 6), 2400, None),
    )


def test_gan_vacations() -> None:
    """Vacations of resources are noted."""
    rest = '<vacations><vacation start="2026-03-05" end="2026-03-10" resourceid="0"/></vacations>'
    assert any("vacations" in note for note in read_gan(gan_task(1), rest).plan.notes)
    assert read_gan(gan_task(1)).plan.notes == ()


def test_gan_without_a_plan() -> None:
    """Ids twice, no tasks, none that is carried over."""
    with pytest.raises(InputError, match="is not unique"):
        read_gan(gan_task(1) + gan_task(1))
    with pytest.raises(InputError, match="no start date"):
        read_gan("")
    with pytest.raises(InputError, match="no tasks"):
        read_gan("", start=date(2026, 3, 2))
    with pytest.raises(InputError, match="no duration"):
        read_gan(gan_task(1, duration="-4"))


def read_planner(tasks: str, rest: str = "", calendars: str = "", **options: object) -> Reading:
    """Reads a file of GNOME Planner."""
    data = (
        '<project name="P" mrproject-version="2" project-start="20260302T000000Z" calendar="1">'
        f"<calendars>{calendars}</calendars><tasks>{tasks}</tasks>{rest}</project>"
    )
    assert gnome_planner.matches(data.encode())
    source = Source(Path("p.planner"), data.encode())
    return gnome_planner.read(source, replace(ReaderOptions(), **options))


def planner_task(uid: int, inside: str = "", **attributes: object) -> str:
    """Returns a task of two days of work."""
    values = {"name": f"Task {uid}", "work": 57600, **attributes}
    words = "".join(f' {key.replace("_", "-")}="{value}"' for key, value in values.items())
    return f'<task id="{uid}"{words}>{inside}</task>'


def test_planner_work_and_crews() -> None:
    """Work is shared by those who do it; a fixed duration is not; materials have no quantity."""
    rest = '<resources><resource id="1" name="A" type="1" std-rate="40"/>'
    rest += '<resource id="2" name="Sand" type="2" std-rate="5"/></resources><allocations>'
    rest += '<allocation task-id="1" resource-id="1" units="50"/>'
    rest += '<allocation task-id="2" resource-id="1"/>'
    for words in ('task-id="1" resource-id="2"', 'task-id="9" resource-id="1"'):
        rest += f"<allocation {words}/>"
    rest += '<allocation task-id="1" resource-id="1" units="-1"/></allocations>'
    fixed = planner_task(2, scheduling="fixed-duration", duration=28800)
    reading = read_planner(planner_task(1) + fixed, rest)
    tasks = list(reading.plan.tasks())
    assert [task.minutes for task in tasks] == [1920, 480]
    assert [task.cost for task in tasks] == [Decimal("640.00"), Decimal("320.00")]
    assert [each.quantity for each in reading.plan.assignments] == [960, 480]
    assert kinds(reading) == ["resource", "resource", "resource"]
    assert reading.plan.resources[1].kind is ResourceKind.MATERIAL


def test_planner_constraints() -> None:
    """Four kinds of constraints; one of a finish is of an evening, one of a group is a loss."""
    for text, constraint in (
        ("as-soon-as-possible", None),
        ("as-late-as-possible", Constraint(ConstraintKind.AS_LATE_AS_POSSIBLE, None)),
        ("must-start-on", Constraint(ConstraintKind.MUST_START, date(2026, 3, 9))),
        (
            "finish-no-later-than",
            Constraint(ConstraintKind.FINISH_NO_LATER, date(2026, 3, 6)),
        ),
    ):
        inside = f'<constraint type="{text}" time="20260309T000000Z"/>'
        assert first(read_planner(planner_task(1, inside))).constraint == constraint
    for time in ("", "20269999T000000Z", "2026"):
        inside = f'<constraint type="must-start-on" time="{time}"/>'
        assert kinds(read_planner(planner_task(1, inside))) == ["constraint"]
    group = planner_task(1, '<constraint type="must-start-on"/>' + planner_task(2))
    assert kinds(read_planner(group)) == ["constraint"]


def test_planner_links() -> None:
    """Links without sense are losses."""
    links = "".join(
        f"<predecessor {words}/>"
        for words in (
            'predecessor-id="1" type="SF" lag="-3600"',
            'predecessor-id="9"',
            'predecessor-id="1" type="XX"',
            'predecessor-id="1" lag="long"',
        )
    )
    tasks = planner_task(1) + planner_task(2, f"<predecessors>{links}</predecessors>")
    reading = read_planner(tasks)
    (found,) = reading.plan.links
    assert (found.kind, found.lag.minutes, found.lag.elapsed) == (
        LinkKind.START_FINISH,
        -60,
        True,
    )
    assert kinds(reading) == ["link"] * 3


CALENDARS = """<day-types/><calendar id="1" name="Base"><default-week mon="0" fri="1" sat="1"
sun="1"/><overridden-day-types><overridden-day-type id="0"><interval start="0700" end="1200"/>
<interval start="9999" end="x"/></overridden-day-type></overridden-day-types><days>
<day date="20260303" id="1"/><day date="soon" id="1"/></days>
<calendar id="2" name="Own"><default-week mon="1" tue="2"/><days><day date="20260303" id="2"/>
<day date="20260304" id="8"/></days></calendar></calendar>
<calendar id="3" name="Never"><default-week mon="1" tue="1" wed="1" thu="1" fri="1"/></calendar>"""


def test_planner_calendars() -> None:
    """Calendars build on those that hold them; a week without work is the standard one."""
    plan = read_planner(planner_task(1), calendars=CALENDARS).plan
    calendar = plan.calendar
    assert calendar.name == "Base" and calendar.day_minutes == 300
    assert calendar.week[0] == ((420, 720),) and calendar.week[4] == ()
    assert not calendar.is_working(date(2026, 3, 3))
    own = read_planner(planner_task(1), calendars=CALENDARS, calendar="own").plan.calendar
    assert own.week[0] == () and own.week[1] == ((420, 720),)
    never = read_planner(planner_task(1), calendars=CALENDARS, calendar="never").plan.calendar
    assert any(never.week)
    with pytest.raises(InputError, match="no calendar named"):
        read_planner(planner_task(1), calendars=CALENDARS, calendar="none")
    reading = read_planner(planner_task(1), calendars=CALENDARS)
    assert kinds(reading) == ["calendar"] * 3


def test_planner_dates() -> None:
    """Starts are mornings, finishes evenings; percent complete is all it says of progress."""
    words: dict[str, Any] = {
        "work_start": "20260306T170000Z",
        "end": "20260310T000000Z",
        "percent_complete": 30,
    }
    task = first(read_planner(planner_task(1, **words)))
    assert (task.listed_start, task.listed_finish) == (
        date(2026, 3, 9),
        date(2026, 3, 9),
    )
    assert task.progress.percent == 30
    moment = planner_task(1, type="milestone", start="20260306T170000Z", end="20260306T170000Z")
    assert first(read_planner(moment)).listed_start == date(2026, 3, 6)


def test_planner_without_a_plan() -> None:
    """Ids twice, no tasks, no first day."""
    with pytest.raises(InputError, match="is not unique"):
        read_planner(planner_task(1) + planner_task(1))
    with pytest.raises(InputError, match="no tasks"):
        read_planner("")
    data = b'<project project-start="soon" mrproject-version="2"><tasks/></project>'
    with pytest.raises(InputError, match="project-start 'soon' is no day"):
        gnome_planner.read(Source(Path("p.planner"), data), ReaderOptions())
