"""What Primavera's files say beyond what random plans have, case by case."""

from dataclasses import replace
from datetime import date
from decimal import Decimal
from pathlib import Path

import pytest

from pert_companion.model.errors import InputError
from pert_companion.model.plan import (
    Baseline,
    Constraint,
    ConstraintKind,
    Crash,
    LagCalendar,
    Task,
)
from pert_companion.model.source import Source
from pert_companion.readers import p6_calendars, pmxml, xer
from pert_companion.readers.base import ReaderOptions, Reading
from pert_companion.readers.p6_calendars import CalendarTextError, Lengths

PROJECT = {
    "proj_id": "1",
    "proj_short_name": "P1",
    "plan_start_date": "2026-03-02 08:00",
}
TASK = {"task_id": "1", "proj_id": "1", "task_code": "A1", "task_name": "Dig"}
TASK |= {"task_type": "TT_Task", "target_drtn_hr_cnt": "40", "remain_drtn_hr_cnt": "40"}


def file_of(*tables: tuple[str, dict[str, str]]) -> bytes:
    """Returns an XER file; each row is with its table."""
    lines = ["ERMHDR\t19.12"]
    for table, row in tables:
        lines += [
            f"%T\t{table}",
            "%F\t" + "\t".join(row),
            "%R\t" + "\t".join(row.values()),
        ]
    return ("\n".join(lines) + "\n%E\n").encode()


def read(*tables: tuple[str, dict[str, str]], **options: str) -> Reading:
    """Reads an XER file with a project and further rows."""
    data = file_of(("PROJECT", PROJECT), *tables)
    return xer.read(Source(Path("plan.xer"), data), replace(ReaderOptions(), **options))


def first(reading: Reading) -> Task:
    """Returns the first task."""
    return next(reading.plan.tasks())


def kinds(reading: Reading) -> list[str]:
    """Returns the kinds of the losses."""
    return [loss.kind.value for loss in reading.losses]


@pytest.mark.parametrize("kind", ("TT_LOE", "TT_WBS"))
def test_spans(kind: str) -> None:
    """Levels of effort and WBS summaries are named, and go with their links."""
    span = {**TASK, "task_id": "2", "task_type": kind}
    link = {"task_id": "2", "pred_task_id": "1", "proj_id": "1"}
    reading = read(("TASK", TASK), ("TASK", span), ("TASKPRED", link))
    assert kinds(reading) == ["loe"] and [task.uid for task in reading.plan.tasks()] == ["1"]


def test_constraints() -> None:
    """A second constraint to finish on or before is a deadline, another one a loss."""
    one = {"cstr_type": "CS_MSOA", "cstr_date": "2026-03-04 08:00"}
    two = {"cstr_type2": "CS_MEOB", "cstr_date2": "2026-05-01 17:00"}
    found = first(read(("TASK", {**TASK, **one, **two})))
    assert found.constraint == Constraint(ConstraintKind.START_NO_EARLIER, date(2026, 3, 4))
    assert found.deadline == date(2026, 5, 1)
    alone = first(read(("TASK", {**TASK, **two})))
    assert alone.constraint == Constraint(ConstraintKind.FINISH_NO_LATER, date(2026, 5, 1))
    other = {"cstr_type2": "CS_MSOB", "cstr_date2": "2026-05-01 17:00"}
    assert kinds(read(("TASK", {**TASK, **one, **other}))) == ["constraint"]
    for wrong in ({"cstr_type": "CS_NEVER"}, {"cstr_type": "CS_MSO"}):
        assert kinds(read(("TASK", {**TASK, **wrong}))) == ["constraint"]
    outside = {"external_early_start_date": "2026-03-04 08:00"}
    assert kinds(read(("TASK", {**TASK, **outside}))) == ["constraint"]


@pytest.mark.parametrize(
    ("fields", "percent"),
    (
        ({"complete_pct_type": "CP_Phys", "phys_complete_pct": "33"}, "33"),
        ({"complete_pct_type": "CP_Drtn", "remain_drtn_hr_cnt": "10"}, "75"),
        (
            {
                "complete_pct_type": "CP_Units",
                "act_work_qty": "1",
                "remain_work_qty": "3",
            },
            "25",
        ),
        ({"complete_pct_type": "CP_Units", "remain_drtn_hr_cnt": "10"}, "75"),
        ({"remain_drtn_hr_cnt": "60"}, "0"),
        ({"remain_drtn_hr_cnt": "x"}, "0"),
    ),
)
def test_percent_complete(fields: dict[str, str], percent: str) -> None:
    """Percent complete is by duration, by units or physical, as each activity says."""
    begun = {"status_code": "TK_Active", "act_start_date": "2026-03-02 08:00"}
    assert first(read(("TASK", {**TASK, **begun, **fields}))).progress.percent == Decimal(percent)


def test_suspended() -> None:
    """A suspended activity is named: it goes on in one piece."""
    begun = {"status_code": "TK_Active", "suspend_date": "2026-03-02 08:00"}
    assert kinds(read(("TASK", {**TASK, **begun}))) == ["pause"]


def test_data_date() -> None:
    """P6's data date is a morning, so it is the evening before; that of the first day is none."""
    for text, day in (
        ("2026-03-09 00:00", date(2026, 3, 6)),
        ("2026-03-09 08:00", date(2026, 3, 6)),
        ("2026-03-09", date(2026, 3, 6)),
        ("2026-03-09 17:00", date(2026, 3, 9)),
        ("2026-03-02 08:00", None),
    ):
        data = file_of(("PROJECT", {**PROJECT, "last_recalc_date": text}), ("TASK", TASK))
        plan = xer.read(Source(Path("plan.xer"), data), ReaderOptions()).plan
        assert plan.data_date == day


def test_costs() -> None:
    """Costs of resources and expenses add up; those without sense are losses."""
    work = {"task_id": "1", "rsrc_id": "5", "target_qty": "16", "target_cost": "100.5"}
    work |= {"act_reg_cost": "10", "act_ot_cost": "5", "remain_cost": "85"}
    expense = {
        "task_id": "1",
        "target_cost": "50",
        "act_cost": "1",
        "remain_cost": "49",
    }
    begun = {"status_code": "TK_Active", "act_start_date": "2026-03-02 08:00"}
    resource = {"rsrc_id": "5", "rsrc_name": "Crane", "rsrc_type": "RT_Equip"}
    rate = {"rsrc_id": "5", "cost_per_qty": "80", "start_date": "2026-01-01 00:00"}
    older = {**rate, "cost_per_qty": "70", "start_date": "2025-01-01 00:00"}
    reading = read(
        ("TASK", {**TASK, **begun}),
        ("TASKRSRC", work),
        ("PROJCOST", expense),
        ("RSRC", resource),
        ("RSRCRATE", rate),
        ("RSRCRATE", older),
        ("RSRCRATE", {**rate, "cost_per_qty": "x"}),
    )
    task = first(reading)
    assert (task.cost, task.progress.actual_cost) == (Decimal("150.5"), Decimal(16))
    assert task.progress.remaining_cost == Decimal(134) and kinds(reading) == ["resource"]
    assert reading.plan.resources[0].rate == Decimal(70)
    assert any("rates that change" in note for note in reading.plan.notes)
    (used,) = reading.plan.assignments
    assert used.quantity == 960
    wrong = {**work, "target_qty": "many", "target_cost": "much"}
    assert kinds(read(("TASK", TASK), ("TASKRSRC", wrong))) == ["cost", "resource"]


def test_roles() -> None:
    """A role that nobody fills yet is a resource."""
    role = {"role_id": "3", "role_name": "Mason"}
    work = {"task_id": "1", "role_id": "3", "target_qty": "8"}
    plan = read(("TASK", TASK), ("ROLES", role), ("TASKRSRC", work)).plan
    assert [resource.name for resource in plan.resources] == ["Mason"]
    assert plan.assignments[0].quantity == 480


def test_crash_durations() -> None:
    """User-defined fields by name; numbers are days, texts have units."""
    types = [
        {"udf_type_id": str(n), "table_name": "TASK", "udf_type_label": name}
        for n, name in enumerate(("Crash Duration", "Cost slope", "Other", "Most"))
    ]
    rows = [("UDFTYPE", each) for each in types]
    rows.append(("UDFTYPE", {**types[0], "udf_type_id": "9", "table_name": "PROJWBS"}))

    def crash_of(fields: dict[str, str], **options: str) -> tuple[Crash | None, list[str]]:
        values = [
            (
                "UDFVALUE",
                {"udf_type_id": n, "fk_id": "1", "udf_number": "", "udf_text": text},
            )
            for n, text in fields.items()
        ]
        reading = read(("TASK", TASK), *rows, *values, **options)
        return first(reading).crash, kinds(reading)

    assert crash_of({"0": "3", "1": "40"}) == (Crash(3 * 480, slope=Decimal(40)), [])
    assert crash_of({"0": "20 h", "1": "40"}) == (Crash(1200, slope=Decimal(40)), [])
    assert crash_of({"0": "3"}) == (None, ["crash"])
    assert crash_of({"9": "3", "1": "40"}) == (None, [])
    found = crash_of({"2": "3", "3": "900"}, crash_field="other", crash_cost_field="MOST")
    assert found == (Crash(3 * 480, cost=Decimal(900)), [])


def calendar(uid: str, name: str, hours: str = "8", text: str = "") -> tuple[str, dict[str, str]]:
    """Returns a calendar of a file."""
    row = {"clndr_id": uid, "clndr_name": name, "day_hr_cnt": hours, "clndr_data": text}
    return "CALENDAR", row


def test_calendars() -> None:
    """The calendar of most activities is the plan's; other activities have hours of their own."""
    tasks = [("TASK", {**TASK, "task_id": str(n), "clndr_id": "7"}) for n in (1, 2)]
    other = {**TASK, "task_id": "3", "clndr_id": "8", "target_drtn_hr_cnt": "20"}
    link = {"task_id": "1", "pred_task_id": "3", "proj_id": "1", "lag_hr_cnt": "10"}
    tables = [
        calendar("7", "Days"),
        calendar("8", "Long", "10"),
        *tasks,
        ("TASK", other),
    ]
    reading = read(*tables, ("TASKPRED", link))
    plan = reading.plan
    assert plan.calendar.name == "Days" and [t.calendar for t in plan.tasks()][2] == "Long"
    assert [task.minutes for task in plan.tasks()] == [2400, 2400, 1200]
    assert [(each.name, each.day_minutes) for each in plan.calendars] == [("Long", 600)]
    assert plan.links[0].lag.minutes == 600 and plan.lag_calendar is LagCalendar.PREDECESSOR
    assert read(*tables, calendar="long").plan.calendar.day_minutes == 600
    with pytest.raises(InputError, match="no calendar named 'none'"):
        read(*tables, calendar="none")
    note = "the file has no calendar: Monday to Friday is assumed"
    assert note in read(("TASK", TASK)).plan.notes
    broken = read(calendar("7", "Days", "8", "(0||CalendarData()("), ("TASK", TASK))
    assert kinds(broken) == ["calendar"]


def test_calendar_of_resources() -> None:
    """An activity that depends on its resource has the resource's calendar."""
    text = "(0||CalendarData()((0||DaysOfWeek()((0||2()((0||0(s|08:00|f|16:00)())))))))"
    task = {**TASK, "task_type": "TT_Rsrc", "clndr_id": "7"}
    tables = [calendar("7", "Days"), calendar("8", "Mondays", "8", text)]
    tables += [("TASK", {**TASK, "task_id": str(n), "clndr_id": "7"}) for n in (2, 3)]
    work = {"task_id": "1", "rsrc_id": "5"}
    resource = {"rsrc_id": "5", "rsrc_name": "Crane", "clndr_id": "8"}
    plan = read(*tables, ("TASK", task), ("TASKRSRC", work), ("RSRC", resource)).plan
    assert {task.uid: task.calendar for task in plan.tasks()}["1"] == "Mondays"
    plan = read(*tables, ("TASK", task)).plan
    assert {task.uid: task.calendar for task in plan.tasks()}["1"] is None


@pytest.mark.parametrize(
    "text",
    (
        "(",
        ")",
        "(0||A(",
        "(0||A()(",
        "(0||A()())",
        "(0||CalendarData()((0||DaysOfWeek()((0||2()((0||0(s|99:00|f|16:00)())))))))",
        "(0||CalendarData()((0||DaysOfWeek()())(0||Exceptions()((0||0(d|x)())))))",
        "(0||A()(" * 20 + "))" * 20,
        "(" * 100_000,
        "x" * (p6_calendars.MOST_CHARACTERS + 1),
    ),
)
def test_calendar_texts_that_are_none(text: str) -> None:
    """Brackets that do not match, times and days that are none, deep nesting, great length."""
    with pytest.raises(CalendarTextError):
        p6_calendars.calendar_of("C", text, Lengths())


def test_lengths_and_times() -> None:
    """Hours of days, weeks and months; times of day in 12 and 24 hours."""
    assert p6_calendars.lengths_of("7.5", "37.5", "150") == (
        Lengths(450, 2250, 20),
        True,
    )
    assert p6_calendars.lengths_of("", "", "") == (Lengths(), True)
    assert p6_calendars.lengths_of("30", "", "") == (Lengths(), False)
    times = ("08:00", "8:00 AM", "12:00 AM", "12:30 PM", "17:30:00", "24:00")
    minutes = [p6_calendars.minute_of_day(text) for text in times]
    assert minutes == [480, 480, 0, 750, 1050, 1440]
    assert [p6_calendars.minute_of_day(text) for text in ("8", "8:99", "x:00", "8:00 XM")] == [
        None
    ] * 4
    assert p6_calendars.calendar_of("C", "", Lengths(600)).week[0] == ((480, 1080),)
    assert p6_calendars.calendar_of("C", "", Lengths(1200)).week[0] == ((240, 1440),)


def test_several_projects() -> None:
    """One of several projects is chosen by its short name; links to the others are losses."""
    other = {**PROJECT, "proj_id": "2", "proj_short_name": "P2"}
    task = {**TASK, "proj_id": "2", "task_id": "2"}
    link = {"task_id": "1", "pred_task_id": "2", "proj_id": "1"}
    foreign = {"task_id": "2", "pred_task_id": "1", "proj_id": "2"}
    tables = [("PROJECT", other), ("TASK", TASK), ("TASK", task)]
    tables += [("TASKPRED", link), ("TASKPRED", foreign)]
    with pytest.raises(InputError, match="choose one with --name: P1, P2"):
        read(*tables)
    reading = read(*tables, name="p1")
    assert [each.uid for each in reading.plan.tasks()] == ["1"] and kinds(reading) == ["link"]
    with pytest.raises(InputError, match="several projects"):
        read(*tables, name="P3")


def test_links_without_sense() -> None:
    """A link of no known kind is a loss."""
    link = {"task_id": "1", "pred_task_id": "2", "proj_id": "1", "pred_type": "PR_XX"}
    two = {**TASK, "task_id": "2"}
    assert kinds(read(("TASK", TASK), ("TASK", two), ("TASKPRED", link))) == ["link"]


def test_outline_and_currency() -> None:
    """Items in their order, activities outside of them at the end, the base currency."""
    items = [
        (
            "PROJWBS",
            {
                "wbs_id": n,
                "proj_id": "1",
                "parent_wbs_id": above,
                "wbs_name": name,
                "wbs_short_name": name[0],
                "seq_num": seq,
            },
        )
        for n, above, name, seq in (
            ("1", "", "Plan", "1"),
            ("3", "1", "Roof", "2"),
            ("2", "1", "Base", "1"),
        )
    ]
    tasks = [
        ("TASK", {**TASK, "task_id": n, "wbs_id": wbs})
        for n, wbs in (("1", "3"), ("2", "2"), ("3", "99"))
    ]
    money = ("CURRTYPE", {"curr_id": "4", "curr_short_name": "CHF"})
    plan = read(*items, *tasks, money).plan
    assert [entry.uid for entry in plan.outline] == ["W2", "2", "W3", "1", "3"]
    assert (plan.name, plan.currency) == ("Plan", "CHF")
    two = [("PROJWBS", {**row, "parent_wbs_id": ""}) for _, row in items]
    assert read(*two, *tasks).plan.name == "P1"


def test_first_day() -> None:
    """Without a planned start it is the first start of an activity; else it has to be given."""
    project = {"proj_id": "1", "proj_short_name": "P1"}
    dated = {**TASK, "early_start_date": "2026-03-05 08:00"}
    data = file_of(("PROJECT", project), ("TASK", dated))
    assert xer.read(Source(Path("a"), data), ReaderOptions()).plan.start == date(2026, 3, 5)
    with pytest.raises(InputError, match="--start"):
        xer.read(Source(Path("a"), file_of(("TASK", TASK))), ReaderOptions())


@pytest.mark.parametrize(
    ("lines", "fault"),
    (
        ("%T\tTASK\n%F\ttask_id\n%R\t1\t2\n%E\n", "more cells than fields"),
        ("%T\tTASK\n%R\t1\n%E\n", "without a line of fields"),
        ("%E\n%T\tTASK\n", "more after %E"),
        ("%T\n%E\n", "no activities"),
        ("%T\tTASK\n%F\ttask_id\n%R\t1\n%R\t1\n%E\n", "two activities have this id 1"),
        ("%T\tTASK\n%F\ttask_name\n%R\tDig\n%E\n", "an activity without an id"),
    ),
)
def test_tables_without_sense(lines: str, fault: str) -> None:
    """Each fault is one line that says where."""
    data = f"ERMHDR\t19\n{lines}".encode()
    with pytest.raises(InputError, match=fault):
        xer.read(Source(Path("plan.xer"), data), ReaderOptions())


def test_tables_that_are_not_read() -> None:
    """They are noted; empty lines and blank ends are none."""
    reading = read(("TASK", TASK), ("MEMOTYPE", {"memo_type_id": "1"}))
    assert "tables that are not read: MEMOTYPE" in reading.plan.notes


def test_xml_of_p6() -> None:
    """Baselines, hours of calendars without sense, currency, shifts named by their last minute."""
    data = """<APIBusinessObjects><Currency><ObjectId>1</ObjectId><Id>EUR</Id></Currency>
    <UDFType><ObjectId>1</ObjectId><Title>Crash</Title><SubjectArea>WBS</SubjectArea></UDFType>
    <Calendar><ObjectId>7</ObjectId><Name>C</Name><HoursPerDay>99</HoursPerDay>
    <StandardWorkWeek><StandardWorkHours><DayOfWeek>Monday</DayOfWeek><WorkTime><Start>07:00:00
    </Start><Finish>10:59:00</Finish></WorkTime><WorkTime><Start>x</Start><Finish>y</Finish>
    </WorkTime></StandardWorkHours></StandardWorkWeek></Calendar>
    <Project><ObjectId>1</ObjectId><Id>P</Id><PlannedStartDate>2026-03-02T08:00:00
    </PlannedStartDate><Activity><ObjectId>1</ObjectId><Id>A</Id><Name>Dig</Name>
    <PlannedDuration>8</PlannedDuration><CalendarObjectId>7</CalendarObjectId></Activity></Project>
    <BaselineProject><OriginalProjectObjectId>1</OriginalProjectObjectId><Activity><Id>A</Id>
    <PlannedDuration>16</PlannedDuration><PlannedStartDate>2026-03-02T08:00:00</PlannedStartDate>
    <PlannedFinishDate>2026-03-03T17:00:00</PlannedFinishDate><PlannedLaborCost>5</PlannedLaborCost>
    </Activity></BaselineProject><BaselineProject><Activity><Id>A</Id></Activity></BaselineProject>
    </APIBusinessObjects>"""
    reading = pmxml.read(Source(Path("p.xml"), data.encode()), ReaderOptions())
    task = first(reading)
    assert task.baselines[0] == Baseline(0, date(2026, 3, 2), date(2026, 3, 3), 960, Decimal(5))
    assert kinds(reading) == ["calendar"] and reading.plan.currency == "EUR"
    assert reading.plan.calendar.week[0] == ((420, 660),)


def test_a_data_date_in_the_evening_of_the_first_day() -> None:
    """The first day counts: its progress is as of its own evening."""
    for text, day in (
        ("2026-03-02 17:00", date(2026, 3, 2)),
        ("2026-03-02 08:00", None),
    ):
        data = file_of(("PROJECT", {**PROJECT, "last_recalc_date": text}), ("TASK", TASK))
        assert xer.read(Source(Path("plan.xer"), data), ReaderOptions()).plan.data_date == day


def test_notes_of_several_lines() -> None:
    """A table that is not read may have line breaks in its texts; in others they are named."""
    memo = "%T\tTASKMEMO\n%F\tmemo_id\ttask_memo\n%R\t1\tFirst line\r\nsecond line\r\n\r\nthird\n"
    data = file_of(("PROJECT", PROJECT), ("TASK", TASK)).replace(b"%E", memo.encode() + b"%E")
    plan = xer.read(Source(Path("plan.xer"), data), ReaderOptions()).plan
    assert [task.name for task in plan.tasks()] == ["Dig"]
    broken = file_of(("PROJECT", PROJECT), ("TASK", {**TASK, "task_name": "Dig\nand drain"}))
    with pytest.raises(InputError, match="may have a line break"):
        xer.read(Source(Path("plan.xer"), broken), ReaderOptions())
