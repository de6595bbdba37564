"""A value that is there and cannot be read is a loss, in every format, and never just missing."""

from dataclasses import replace
from datetime import date
from decimal import Decimal
from pathlib import Path

import pytest

from pert_companion import readers
from pert_companion.model.plan import Task
from pert_companion.model.source import Source
from pert_companion.model.xmltree import decimal
from pert_companion.readers.base import ReaderOptions, Reading
from planner_files import gan_bytes, mspdi_bytes, pmxml_bytes, xer_bytes
from sample_plan import sample_plan

MSPDI = "http://schemas.microsoft.com/project"
DAY = "<Duration>PT8H0M0S</Duration>"
TWO_DAYS = "<Duration>PT16H0M0S</Duration>"


def read(text: str, name: str) -> Reading:
    """Reads a file by its content."""
    return readers.read(Source(Path(name), text.encode()), ReaderOptions())


def read_mspdi(*parts: str, head: str = "", rest: str = "") -> Reading:
    """Reads a file of MS Project with one task."""
    return read(
        f'<Project xmlns="{MSPDI}"><StartDate>2026-01-05T08:00:00</StartDate>{head}<Tasks><Task>'
        f"<UID>7</UID><ID>3</ID><Name>Dig</Name><OutlineLevel>1</OutlineLevel>{''.join(parts)}"
        f"</Task></Tasks>{rest}</Project>",
        "plan.xml",
    )


def shown(reading: Reading) -> list[tuple[str, str, str]]:
    """Returns the kind, field and text of each loss."""
    return [(loss.kind.value, loss.field, loss.text) for loss in reading.losses]


def only_task(reading: Reading) -> Task:
    """Returns the only task."""
    (task,) = reading.plan.tasks()
    return task


@pytest.mark.parametrize(
    ("part", "kind", "field", "text"),
    (
        ("<Cost>12,500</Cost>", "cost", "Cost", "12,500"),
        (
            "<Deadline>2026-1-9T17:00:00</Deadline>",
            "deadline",
            "Deadline",
            "2026-1-9T17:00:00",
        ),
        ("<Start>05.01.2026</Start>", "date", "Start", "05.01.2026"),
        (
            "<Finish>2026-02-30T17:00:00</Finish>",
            "date",
            "Finish",
            "2026-02-30T17:00:00",
        ),
        (
            "<PercentComplete>50 %</PercentComplete>",
            "progress",
            "PercentComplete",
            "50 %",
        ),
        (
            "<PercentComplete>150</PercentComplete>",
            "progress",
            "PercentComplete",
            "150",
        ),
        ("<PercentComplete>-1</PercentComplete>", "progress", "PercentComplete", "-1"),
        ("<ActualStart>soon</ActualStart>", "progress", "ActualStart", "soon"),
        (
            "<Baseline><Number>0</Number><Cost>abc</Cost></Baseline>",
            "baseline",
            "Baseline",
            "abc",
        ),
        (
            "<Baseline><Number>0</Number><Start>x</Start></Baseline>",
            "baseline",
            "Baseline",
            "x",
        ),
        ("<ConstraintType>9</ConstraintType>", "constraint", "ConstraintType", "9"),
        ("<CalendarUID>12</CalendarUID>", "calendar", "CalendarUID", "12"),
    ),
)
def test_fields_of_ms_project(part: str, kind: str, field: str, text: str) -> None:
    """The row, the task, the field and the text are named, and the task is still there."""
    reading = read_mspdi(DAY, part)
    assert shown(reading) == [(kind, field, text)]
    loss = reading.losses[0]
    assert (loss.where, loss.name) == ("row 3 (UID 7)", "Dig")
    assert only_task(reading).minutes == 480


@pytest.mark.parametrize("text", ("PT-8H0M0S", "8 hours", "-PT8H0M0S"))
def test_remaining_durations_of_ms_project(text: str) -> None:
    """A remaining duration that is none is no duration of 0."""
    begun = "<PercentComplete>50</PercentComplete><ActualStart>2026-01-05T08:00:00</ActualStart>"
    reading = read_mspdi(TWO_DAYS, begun, f"<RemainingDuration>{text}</RemainingDuration>")
    assert shown(reading) == [("progress", "RemainingDuration", text)]
    assert only_task(reading).progress.remaining is None


def test_values_that_say_nothing() -> None:
    """NA is how some programs write that there is nothing."""
    reading = read_mspdi(DAY, "<Deadline>NA</Deadline><Cost></Cost><Start>NA</Start>")
    assert reading.losses == () and only_task(reading).deadline is None


def test_dates_of_the_project_and_rates() -> None:
    """The status date and the rates of resources are read by the same reader."""
    reading = read_mspdi(
        DAY,
        head="<StatusDate>31/01/2026</StatusDate>",
        rest="<Resources><Resource><UID>1</UID><Name>Crew</Name><Type>1</Type>"
        "<StandardRate>40,5</StandardRate></Resource></Resources>",
    )
    assert sorted(shown(reading)) == [
        ("date", "StatusDate", "31/01/2026"),
        ("resource", "StandardRate", "40,5"),
    ]
    assert reading.plan.data_date is None


def test_slopes_that_are_no_amounts() -> None:
    """A slope that cannot be read is named, not the want of one."""
    fields = (
        "<ExtendedAttributes><ExtendedAttribute><FieldID>1</FieldID><FieldName>Duration1"
        "</FieldName><Alias>Crash</Alias></ExtendedAttribute><ExtendedAttribute><FieldID>2"
        "</FieldID><FieldName>Text1</FieldName><Alias>Slope</Alias></ExtendedAttribute>"
        "</ExtendedAttributes>"
    )
    own = (
        "<ExtendedAttribute><FieldID>1</FieldID><Value>PT8H0M0S</Value></ExtendedAttribute>"
        "<ExtendedAttribute><FieldID>2</FieldID><Value>12,5</Value></ExtendedAttribute>"
    )
    reading = read_mspdi(TWO_DAYS, own, head=fields)
    assert shown(reading) == [("crash", "slope", "12,5")]
    assert only_task(reading).crash is None


@pytest.mark.parametrize(
    ("attributes", "kind", "field"),
    (
        ('start="02.03.2026"', "date", "start"),
        ('start="2026-03-02" complete="50 %"', "progress", "complete"),
        ('start="2026-03-02" complete="150"', "progress", "complete"),
        (
            'start="2026-03-02" thirdDate="4 March" thirdDate-constraint="1"',
            "constraint",
            "thirdDate",
        ),
        (
            'start="2026-03-02" cost-calculated="false" cost-manual-value="1.000,00"',
            "cost",
            "cost-manual-value",
        ),
        ('start="2026-03-02" duration="2,5"', "task", "duration"),
    ),
)
def test_fields_of_gantt_project(attributes: str, kind: str, field: str) -> None:
    """Fields of tasks are attributes there."""
    given = attributes if "duration=" in attributes else f'{attributes} duration="2"'
    reading = read(
        '<project name="P" view-date="2026-03-02"><tasks><task id="0" name="First"'
        f' start="2026-03-02" duration="1"/><task id="1" name="Dig" {given}/></tasks></project>',
        "p.gan",
    )
    assert [(each[0], each[1]) for each in shown(reading)] == [(kind, field)]
    assert (reading.losses[0].where, reading.losses[0].name) == ("task id 1", "Dig")


def test_other_values_of_gantt_project() -> None:
    """Rates, slopes, saved baselines and holidays that are none."""
    reading = read(
        '<project name="P" view-date="2026-03-02"><calendars><date year="2026" month="13" date="1"'
        ' type="HOLIDAY"/></calendars><tasks><taskproperties><taskproperty id="a" name="Crash"'
        ' type="custom"/><taskproperty id="b" name="Slope" type="custom"/></taskproperties>'
        '<task id="1" name="Dig" start="2026-03-02" duration="2"><customproperty'
        ' taskproperty-id="a" value="1"/><customproperty taskproperty-id="b" value="12,5"/></task>'
        '</tasks><resources><resource id="5" name="Crew"><rate name="standard" value="1,000"/>'
        '</resource></resources><previous><previous-tasks><previous-task id="1" start="2026-3-2"'
        ' duration="5"/></previous-tasks></previous></project>',
        "p.gan",
    )
    assert sorted(shown(reading)) == [
        ("baseline", "previous-task", "2026-3-2"),
        ("calendar", "date", "2026-13-1"),
        ("crash", "slope", "12,5"),
        ("resource", "rate", "1,000"),
    ]


def xer_of(**changes: str) -> str:
    """Returns an XER file with one activity of two days."""
    task = {
        "task_id": "1",
        "proj_id": "1",
        "wbs_id": "10",
        "clndr_id": "7",
        "task_code": "A1",
        "task_name": "Dig",
        "task_type": "TT_Task",
        "status_code": "TK_NotStart",
        "target_drtn_hr_cnt": "16",
        **changes,
    }
    tables = {
        "CALENDAR": {"clndr_id": "7", "clndr_name": "Standard", "day_hr_cnt": "8"},
        "PROJECT": {
            "proj_id": "1",
            "proj_short_name": "P",
            "plan_start_date": "2026-03-02 08:00",
        },
        "PROJWBS": {
            "wbs_id": "10",
            "proj_id": "1",
            "wbs_short_name": "P",
            "wbs_name": "Plan",
        },
        "TASK": task,
    }
    lines = ["ERMHDR\t21.12"]
    for name, fields in tables.items():
        lines += [
            f"%T\t{name}",
            "%F\t" + "\t".join(fields),
            "%R\t" + "\t".join(fields.values()),
        ]
    return "\n".join([*lines, "%E"])


def test_negative_durations_of_primavera() -> None:
    """A duration of -8 hours is no duration: the activity is left out, as nothing of it is known.

    The same for what remains, which then is what percent complete leaves.
    """
    kept = xer_of() + "\n"
    assert read(kept, "p.xer").losses == ()
    both = kept.replace("%E", "%R\t2\t1\t10\t7\tA2\tPour\tTT_Task\tTK_NotStart\t-8\n%E")
    reading = read(both, "p.xer")
    assert shown(reading) == [("task", "target_drtn_hr_cnt", "-8")]
    assert [task.name for task in reading.plan.tasks()] == ["Dig"]
    begun = xer_of(
        status_code="TK_Active",
        act_start_date="2026-03-02 08:00",
        remain_drtn_hr_cnt="-8",
    )
    reading = read(begun, "p.xer")
    assert shown(reading) == [("progress", "remain_drtn_hr_cnt", "-8")]
    assert only_task(reading).progress.remaining is None


def test_negative_durations_of_pmxml() -> None:
    """The XML of P6 says the same."""
    text = pmxml_bytes(sample_plan(), codes=True).decode()
    start = text.index("<PlannedDuration>")
    end = text.index("</PlannedDuration>")
    changed = text[:start] + "<PlannedDuration>-8" + text[end:]
    assert [each[:2] for each in shown(read(changed, "p.xml"))][:1] == [
        ("task", "target_drtn_hr_cnt")
    ]


def test_items_and_calendars_that_are_not_there() -> None:
    """An activity of an item or a calendar that the file lacks is carried over, and said."""
    reading = read(xer_of(wbs_id="99", clndr_id="98"), "p.xer")
    assert shown(reading) == [("group", "wbs_id", "99"), ("calendar", "clndr_id", "98")]
    assert only_task(reading).parent is None


@pytest.mark.parametrize(
    ("changes", "kind"),
    (
        ({"early_start_date": "02-Mar-26 08:00"}, "date"),
        ({"cstr_type": "CS_MSO", "cstr_date": "Monday"}, "constraint"),
        ({"status_code": "TK_Active", "act_start_date": "2.3.2026"}, "progress"),
        (
            {
                "status_code": "TK_Active",
                "act_start_date": "2026-03-02 08:00",
                "complete_pct_type": "CP_Phys",
                "phys_complete_pct": "120",
            },
            "progress",
        ),
    ),
)
def test_fields_of_primavera(changes: dict[str, str], kind: str) -> None:
    """Dates, constraints and percentages of activities."""
    assert [each[0] for each in shown(read(xer_of(**changes), "p.xer"))] == [kind]


def test_noise_of_binary_fractions() -> None:
    """Programs that count in binary fractions write 4480.000000000001; that is 4480."""
    assert decimal("4480.000000000001") == 4480
    assert decimal("1249.9999999999998") == 1250
    assert decimal("0.125") == Decimal("0.125")
    reading = read_mspdi(DAY, "<Cost>448000.0000000001</Cost>")
    assert only_task(reading).cost == 4480 and reading.losses == ()


def test_whole_files_lose_nothing() -> None:
    """The reader that loses finds nothing to lose in files after the schemas."""
    plan = replace(sample_plan(), data_date=date(2026, 4, 10))
    for data in (
        mspdi_bytes(plan),
        gan_bytes(plan),
        xer_bytes(plan, codes=True),
        pmxml_bytes(plan, codes=True),
    ):
        assert readers.read(Source(Path("plan.file"), data), ReaderOptions()).losses == ()


def test_baselines_and_calendars_of_pmxml() -> None:
    """A baseline project and the calendars are read by the same reader."""
    text = (
        '<APIBusinessObjects xmlns="http://xmlns.oracle.com/Primavera/P6/V22.12/API'
        '/BusinessObjects">'
        "<Calendar><ObjectId>7</ObjectId><Name>Site</Name><HolidayOrExceptions>"
        "<HolidayOrException><Date>1 May</Date></HolidayOrException></HolidayOrExceptions>"
        "</Calendar><Project><ObjectId>1</ObjectId><Id>P</Id>"
        "<PlannedStartDate>2026-03-02T08:00:00</PlannedStartDate><Activity><ObjectId>1</ObjectId>"
        "<Id>A1</Id><Name>Dig</Name><Status>In Progress</Status><PlannedDuration>16"
        "</PlannedDuration><PercentCompleteType>Physical</PercentCompleteType>"
        "<PhysicalPercentComplete>half</PhysicalPercentComplete></Activity></Project>"
        "<BaselineProject><OriginalProjectObjectId>1</OriginalProjectObjectId><Activity><Id>A1</Id>"
        "<StartDate>soon</StartDate><PlannedDuration>-8</PlannedDuration>"
        "<PlannedLaborCost>1,000</PlannedLaborCost></Activity></BaselineProject>"
        "</APIBusinessObjects>"
    )
    assert sorted(shown(read(text, "p.xml"))) == [
        ("baseline", "PlannedDuration", "-8"),
        ("baseline", "PlannedLaborCost", "1,000"),
        ("baseline", "StartDate", "soon"),
        ("calendar", "Date", "1 May"),
        ("progress", "phys_complete_pct", "half"),
    ]


def test_working_times_of_ms_project() -> None:
    """A shift that has no begin or end is named; the others of its day stay."""
    times = "<WorkingTime><FromTime>{}</FromTime><ToTime>{}</ToTime></WorkingTime>"
    monday = times.format("08:00:00", "12:00:00") + times.format("1 pm", "17:00:00")
    head = (
        "<CalendarUID>1</CalendarUID><Calendars><Calendar><UID>1</UID><Name>Site</Name><WeekDays>"
        f"<WeekDay><DayType>2</DayType><DayWorking>1</DayWorking><WorkingTimes>{monday}"
        "</WorkingTimes></WeekDay></WeekDays></Calendar></Calendars>"
    )
    reading = read_mspdi(DAY, head=head)
    assert shown(reading) == [("calendar", "WorkingTime", "1 pm to 17:00:00")]
    assert reading.plan.calendar.week[0] == ((480, 720),)
