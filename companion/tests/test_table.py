"""Lists as text: exports of planners, everything that they may hold, and what is named."""

from dataclasses import replace
from datetime import date
from decimal import Decimal
from fractions import Fraction
from pathlib import Path

import pytest

from lists import comparable
from pert_companion.model.errors import InputError, UsageError
from pert_companion.model.losses import LossKind
from pert_companion.model.plan import (
    Baseline,
    Constraint,
    ConstraintKind,
    Crash,
    Estimates,
    Group,
    Lag,
    LinkKind,
    Plan,
    Progress,
    ResourceKind,
    Task,
)
from pert_companion.model.source import Source
from pert_companion.readers import table
from pert_companion.readers.base import ReaderOptions, Reading

HERE = Path(__file__).parent
DAY = 480
START = date(2026, 1, 5)


def read(text: str | bytes, **options: object) -> Reading:
    """Reads a list; the first day is given unless the test says otherwise."""
    data = text.encode() if isinstance(text, str) else text
    given = replace(ReaderOptions(start=START), **options)
    return table.read(Source(Path("list.csv"), data), given)


def read_file(name: str, **options: object) -> Reading:
    """Reads a file of the folders of the tests."""
    path = HERE / name
    given = replace(ReaderOptions(), **options)
    return table.read(Source(path, path.read_bytes()), given)


def tasks(reading: Reading) -> list[Task]:
    """Returns the tasks of a plan."""
    return list(reading.plan.tasks())


def lines(reading: Reading) -> list[str]:
    """Returns the losses as the user sees them."""
    return [loss.line("list.csv").removeprefix("list.csv: ") for loss in reading.losses]


def links(plan: Plan) -> list[tuple[str, str, str, Lag]]:
    """Returns the links in short."""
    return [(link.predecessor, link.successor, link.kind.value, link.lag) for link in plan.links]


# One plan as three programs export it


def without_ids(plan: Plan) -> Plan:
    """Returns a plan without what the three exports say in their own way."""
    outline = tuple(replace(entry, code="") for entry in plan.outline)
    return replace(comparable(plan), outline=outline)


def test_one_plan_in_three_exports() -> None:
    """MS Project in German (cp1252) and English, and Unicode text of Excel, give the same plan."""
    found = []
    for name in ("files/hall-de.csv", "files/hall-us.csv", "files/hall-utf16.txt"):
        reading = read_file(name, data_date=date(2026, 5, 7))
        assert reading.losses == ()
        found.append(without_ids(reading.plan))
    assert found[0] == found[1]
    named = [replace(resource, uid=resource.name) for resource in found[2].resources]
    assert replace(found[2], resources=tuple(named)) == found[0]
    plan = found[0]
    assert (plan.name, plan.start) == ("Village hall", date(2026, 3, 2))
    assert (len(list(plan.tasks())), len(list(plan.groups()))) == (40, 8)
    assert sum(task.cost or 0 for task in plan.tasks()) == 212800


def test_notes_of_the_exports() -> None:
    """What was assumed is said."""
    plan = read_file("files/hall-de.csv").plan
    assert plan.notes == (
        "the file is not UTF-8; it is read as cp1252",
        "the first day is 2026-03-02, the earliest start in the list; "
        "another one: --start YYYY-MM-DD",
    )
    assert plan.currency == "€"
    assert read_file("files/hall-us.csv").plan.currency == "$"


def test_list_with_codes() -> None:
    """A column of codes next to a column of titles, decimal commas, and links by code."""
    reading = read_file("files/flat.csv")
    assert reading.losses == ()
    windows = next(task for task in tasks(reading) if task.uid == "WINDOWS")
    assert (windows.code, windows.name) == ("WINDOWS", "Set the windows")
    assert windows.crash == Crash(2 * DAY, slope=Decimal(200))
    assert windows.estimates == Estimates(2 * DAY, 3 * DAY, 5 * DAY)
    assert ("ORDER-W", "WINDOWS", "FS", Lag()) in links(reading.plan)
    assert ("STEEL", "WINDOWS", "FS", Lag()) in links(reading.plan)


# The small files that went wrong


@pytest.mark.parametrize(
    ("name", "index", "wanted"),
    [
        (
            "fri",
            0,
            Progress(Decimal(100), date(2026, 9, 1), date(2026, 9, 4), None, Decimal(100)),
        ),
        ("late", 0, Progress(Decimal(10), date(2026, 9, 1))),
        ("ontime", 0, Progress(Decimal(75), date(2026, 9, 1))),
    ],
)
def test_progress_cases(name: str, index: int, wanted: Progress) -> None:
    """Percent complete and actual dates are as in the list; a finish is the day itself."""
    reading = read_file(f"cases/{name}.csv", start=date(2026, 9, 1))
    assert reading.losses == ()
    assert tasks(reading)[index].progress == wanted


def test_leads_of_a_case() -> None:
    """Leads are negative lags."""
    plan = read_file("cases/ontime.csv", start=date(2026, 9, 1)).plan
    assert [lag.minutes for _, _, _, lag in links(plan)] == [0, -2 * DAY, -4 * DAY]


def test_pause_case() -> None:
    """Links of other kinds, and shortest durations; one that is the normal one costs nothing."""
    reading = read_file("cases/pause.csv", start=date(2026, 9, 1))
    assert reading.losses == ()
    assert links(reading.plan) == [
        ("1", "3", "FS", Lag()),
        ("2", "3", "FF", Lag()),
        ("3", "4", "SS", Lag()),
    ]
    assert [task.crash for task in tasks(reading)] == [
        Crash(DAY, slope=Decimal(1)),
        None,
        Crash(9 * DAY, slope=Decimal(100)),
        None,
    ]


def test_listed_dates_of_a_case() -> None:
    """Start and Finish are kept, so that `carry` can compare them."""
    task = tasks(read_file("cases/manual.csv"))[1]
    assert (task.listed_start, task.listed_finish) == (
        date(2026, 11, 2),
        date(2026, 11, 2),
    )


def test_constraint_of_a_case() -> None:
    """Start no earlier than a date."""
    reading = read_file("cases/snet.csv")
    assert reading.losses == ()
    wanted = Constraint(ConstraintKind.START_NO_EARLIER, date(2026, 11, 2))
    assert [task.constraint for task in tasks(reading)] == [None, wanted, None]


def test_elapsed_lag_of_a_case() -> None:
    """14 elapsed days are 14 times 24 hours, whatever the calendar."""
    plan = read_file("cases/xmas.csv").plan
    assert links(plan) == [("1", "2", "FS", Lag(14 * 1440, elapsed=True))]


def test_ids_of_cases() -> None:
    """Ids are those of the list, and names do not make them."""
    for name, wanted in (("m1", ["1", "2"]), ("m2", ["1", "2", "3"])):
        reading = read_file(f"cases/{name}.csv", start=START)
        assert [task.uid for task in tasks(reading)] == wanted


def test_crash_case() -> None:
    """Each form in which people write shortest durations is taken or named."""
    reading = read_file("cases/crash.csv", start=START)
    assert [task.crash for task in tasks(reading)] == [
        None,
        None,
        None,
        Crash(8 * DAY, slope=Decimal("2.5")),
        Crash(3 * DAY, slope=Decimal(2)),
    ]
    assert lines(reading) == [
        "row 2, task 'A', Crash '6': no cost of each day less and no cost at it; "
        "the task is not shortened [crash]",
        "row 3, task 'B', Slope '50': there is no shortest duration; "
        "the task is not shortened [crash]",
        "row 4, task 'C', Crash '12': the shortest duration is above the normal one; "
        "the task is not shortened [crash]",
    ]
    assert reading.plan.notes == (
        "row 6, task 'E', Crash '30%': taken as 3 days, this share of the normal duration",
    )


# Rows


def test_rows_that_are_no_tasks() -> None:
    """Rows without a duration or a name, inactive ones, levels of effort; totals are only noted."""
    reading = read(
        "ID,Name,Duration,Active,Activity Type\n1,Dig,3 days,Yes,\n2,Remark: pipes,,Yes,\n"
        "3,Pump,2 days,No,\n4,,4 days,Yes,\n5,Manage,9 days,Yes,Level of Effort\n"
        "Total,Total,9 days,,\n,Notes: all in working days,,,\n"
    )
    assert [task.name for task in tasks(reading)] == ["Dig"]
    assert lines(reading) == [
        "row 3, task 'Remark: pipes', Duration '': this row has no duration and no rows below it "
        "[task]",
        "row 4, task 'Pump', Active 'No': the task is not active [task]",
        "row 5, Name '4 4 days Yes': this row has no name [task]",
        "row 6, task 'Manage', Activity Type 'Level of Effort': its duration follows from other "
        "activities [loe]",
    ]
    notes = reading.plan.notes
    assert "row 7, a row of totals, is not read" in notes
    assert "row 8 is not read: 'Notes: all in working days'" in notes


def test_rows_with_the_name_alone_are_groups() -> None:
    """A heading between the rows makes a group of what follows, up to the next one."""
    reading = read("Name,Duration\nSite,2\nShell,\nWalls,5\nRoof,3\nInside,\nPaint,2\nEmpty,\n")
    shown = [(entry.name, entry.parent) for entry in reading.plan.outline]
    assert shown == [
        ("Site", None),
        ("Shell", None),
        ("Walls", "row 3"),
        ("Roof", "row 3"),
        ("Inside", None),
        ("Paint", "row 6"),
    ]
    assert "row 8 is not read: 'Empty'" in reading.plan.notes


def test_rows_with_number_and_name_alone_are_groups() -> None:
    """So are those with a cost, with a note; other rows without a duration are losses."""
    reading = read(
        "ID,Name,Duration,Cost,Start\n1,Shell,,8,\n2,Walls,5,8,\n3,Roof,,,2026-03-02\n4,X,,,\n"
    )
    assert [(entry.name, entry.parent) for entry in reading.plan.outline] == [
        ("Shell", None),
        ("Walls", "1"),
    ]
    assert "row 2, 'Shell', has no duration and is taken for a heading" in reading.plan.notes
    assert [loss.where for loss in reading.losses] == ["row 4", "row 5"]


def test_a_column_of_groups() -> None:
    """Each group comes before its first task."""
    reading = read("Name,Duration,Phase\nDig,2,Ground\nWalls,5,Shell\nDrain,1,Ground\nParty,1,\n")
    shown = [(entry.name, entry.parent) for entry in reading.plan.outline]
    assert shown == [
        ("Ground", None),
        ("Dig", "Ground"),
        ("Shell", None),
        ("Walls", "Shell"),
        ("Drain", "Ground"),
        ("Party", None),
    ]


def test_levels_that_are_none() -> None:
    """A row without a level is on the level of the row above it; the group column is not read."""
    reading = read("Level,Name,Duration,Phase\n1,House,,A\n2,Walls,5,A\nx,Roof,3,A\n99,Attic,2,A\n")
    assert [entry.parent for entry in reading.plan.outline] == [
        None,
        "row 2",
        "row 2",
        "row 2",
    ]
    assert [loss.kind for loss in reading.losses] == [LossKind.GROUP] * 2
    assert "column 'Phase' is not read, since the list has an outline" in reading.plan.notes


def test_outline_codes() -> None:
    """Codes make groups, also those that no row has; a row without one is at the top."""
    reading = read(
        "WBS,Name,Duration,Cost\n1,House,,\n1.1,Walls,5,10\n2.1.1,Lawn,2,10\n,Party,1,10\n"
    )
    shown = [(entry.uid, entry.name, entry.parent) for entry in reading.plan.outline]
    assert shown == [
        ("row 2", "House", None),
        ("row 3", "Walls", "row 2"),
        ("2", "2", None),
        ("2.1", "2.1", "2"),
        ("row 4", "Lawn", "2.1"),
        ("row 5", "Party", None),
    ]
    assert [task.code for task in tasks(reading)] == ["1.1", "2.1.1", ""]
    assert [loss.where for loss in reading.losses] == ["row 5"]


def test_outline_codes_that_several_tasks_have() -> None:
    """They name the group of the tasks, as in P6, and are the codes of none of them."""
    reading = read(
        "WBS,Activity ID,Name,Duration\nA,,Ground,\nA,A10,Dig,2\nA,A20,Drain,1\nB,B10,Lawn,1\n"
    )
    shown = [(entry.uid, entry.parent) for entry in reading.plan.outline]
    assert shown == [
        ("row 2", None),
        ("A10", "row 2"),
        ("A20", "row 2"),
        ("B", None),
        ("B10", "B"),
    ]
    assert [task.code for task in tasks(reading)] == ["A10", "A20", "B10"]


def test_groups_without_tasks_are_named() -> None:
    """A summary row of a list with levels that has nothing below it."""
    reading = read("Level,Name,Duration,Summary\n1,House,,Yes\n2,Shell,,Yes\n1,Walls,5,No\n")
    assert [entry.name for entry in reading.plan.outline] == ["Walls"]
    assert [loss.kind for loss in reading.losses] == [LossKind.GROUP] * 2


def test_what_a_group_cannot_have() -> None:
    """Constraints, deadlines, resources and prices of groups, and costs above their tasks'."""
    reading = read(
        "Outline Level,Name,Duration,Constraint Type,Deadline,Resource Names,Cost,Slope\n"
        "1,House,,As Soon As Possible,,Foreman,500,0\n"
        "2,Walls,5 days,As Soon As Possible,NA,Masons[x],300,\n"
        "2,Roof,6 days,ASAP,2/28/2026,Roofers,100,\n"
        "1,Garden,,Start No Earlier Than,2/28/2026,,100,5\n2,Lawn,1,,,,100,\nSum,Sum,,,,,900,\n"
    )
    found = [(loss.where, loss.field, loss.kind) for loss in reading.losses]
    assert found == [
        ("row 2", "Resource Names", LossKind.RESOURCE),
        ("row 2", "Cost", LossKind.COST),
        ("row 3", "Resource Names", LossKind.RESOURCE),
        ("row 5", "Constraint Type", LossKind.CONSTRAINT),
        ("row 5", "Deadline", LossKind.DEADLINE),
        ("row 5", "Slope", LossKind.CRASH),
        ("row 7", "Cost", LossKind.COST),
    ]
    assert tasks(reading)[1].deadline == date(2026, 2, 28)


def test_totals_that_are_right_are_only_noted() -> None:
    """The total of all tasks, or of a group."""
    reading = read("Group,Name,Duration,Cost\nA,Dig,1,10\nA,Total,,10\nB,Lawn,1,5\n,Total,,15\n")
    assert reading.losses == ()
    assert sum("a row of totals" in note for note in reading.plan.notes) == 2


def test_repeated_ids() -> None:
    """An id that an earlier row has is named, and gets the row behind it."""
    reading = read("Code,Name,Duration\nA,Dig,3\nA,Plant,2\nA@3,Mow,1\n")
    assert [task.uid for task in tasks(reading)] == ["A", "A@3", "A@3@4"]
    assert [loss.kind for loss in reading.losses] == [LossKind.CODE] * 2


def test_ids_of_their_own_column() -> None:
    """A column Unique ID comes first, codes second, numbers third; people see the number."""
    reading = read("Unique ID,ID,Code,Name,Duration\n71,1,D,Dig,3\n,2,P,Plant,2\n,3,,Mow,1\n")
    shown = [(task.uid, task.code, task.row) for task in tasks(reading)]
    assert shown == [("71", "D", 1), ("P", "P", 2), ("3", "", 3)]


def test_columns_that_are_not_read() -> None:
    """Headings without a field are noted, cells without a heading are losses, one per column."""
    reading = read(
        "Plan of the garden\nCode,Name,Duration,Notes,\nA,Dig,3,with care,x\nB,Mow,2,,y\n"
    )
    assert reading.plan.notes[:3] == (
        "row 1 above the headings is not read: 'Plan of the garden'",
        "column 'Notes' is not read",
        "the list has no column of predecessors: no task waits for another one; "
        "name yours with --column pred=HEADING",
    )
    assert lines(reading) == [
        "row 3, 'x': column 5 has no heading; its 2 cells are not read [field]"
    ]


def test_repeated_headings() -> None:
    """Headings that are repeated on each page are passed over."""
    reading = read("Name,Duration\nDig,3\nName,Duration\nMow,2\n")
    assert len(tasks(reading)) == 2
    assert "row 3 repeats the headings and is not read" in reading.plan.notes


def test_labels_above_the_headings() -> None:
    """Name, first day and data date of the project, in English and German."""
    reading = read(
        "Project: Garden;;\nProjektstart;02.03.2026;\nStand: 07.05.2026;;\nBereich;;\n"
        "Name;Dauer;Anfang\nGraben;3;\n",
        start=None,
    )
    plan = reading.plan
    assert (plan.name, plan.start, plan.data_date) == (
        "Garden",
        date(2026, 3, 2),
        date(2026, 5, 7),
    )
    assert "row 4 above the headings is not read: 'Bereich'" in plan.notes


def test_labels_that_say_nothing() -> None:
    """A label without a value is a row like others, and one that is no date says nothing."""
    reading = read("Project:\nStand: soon\nName,Duration,Start\nDig,3,2026-03-02\n", start=None)
    assert (reading.plan.name, reading.plan.data_date) == ("list", None)


# Values


def test_durations_that_are_none() -> None:
    """Each is named; elapsed time goes by the clock, and is counted by the week elsewhere."""
    reading = read(
        "ID,Name,Duration,Pess\n1,A,3 days,\n2,B,soon,\n3,C,-3 days,\n4,D,5m,\n5,E,4 moons,\n"
        "7,G,2 edays,\n8,H,0.333 days,\n9,I,4 days,7 edays\n"
    )
    assert lines(reading) == [
        "row 3, task 'B', Duration 'soon': this is no duration [duration]",
        "row 4, task 'C', Duration '-3 days': a duration is not negative [duration]",
        "row 5, task 'D', Duration '5m': m may be minutes or months: write min or mon [duration]",
        "row 6, task 'E', Duration '4 moons': 'moons' is no unit of time [duration]",
        "row 8, task 'H', Duration '0.333 days': rounded to 160 minutes of work [fraction]",
        "row 9, task 'I', Pess '7 edays': elapsed time counts as 5 days of work [elapsed]",
    ]
    assert [task.minutes for task in tasks(reading)] == [3 * DAY, 2 * 1440, 160, 4 * DAY]


def test_units_of_headings() -> None:
    """Brackets, and `in weeks`; slopes per hour and per week; costs in thousands."""
    text = "Name,Duration (h),Crash in weeks,Cost per hour,Cost (k€)\nA,100,1,5,1.5\n"
    task = tasks(read(text))[0]
    assert (task.minutes, task.cost) == (6000, Decimal(1500))
    assert task.crash == Crash(5 * DAY, slope=Decimal(40))
    text = "Name,Duration,Crash,Slope (€/week)\nA,10,5,50\n"
    assert tasks(read(text))[0].crash == Crash(5 * DAY, slope=Decimal(10))


def test_milestones() -> None:
    """Rows without a duration that a column calls milestones, and those of length 0."""
    text = "Name,Duration,Milestone,Activity Type\nA,0,,\nB,,Yes,\nC,,No,Finish Milestone\n"
    assert [task.is_milestone for task in tasks(read(text))] == [True] * 3


def test_most_likely_durations_alone() -> None:
    """Without a column of durations the most likely one is the normal one."""
    reading = read("Name,Opt,Most Likely,Pess\nA,1,2,4\nB,,3,\n")
    assert [task.estimates for task in tasks(reading)] == [
        Estimates(DAY, 2 * DAY, 4 * DAY),
        None,
    ]


def test_estimates() -> None:
    """Missing ones are the likely one; those out of order are named."""
    reading = read("Name,Duration,Opt,Likely,Pess\nA,5,,,8\nB,5,3,,\nC,5,7,5,6\nD,5,,,4\nE,5,,x,\n")
    days = [Estimates(5 * DAY, 5 * DAY, 8 * DAY), Estimates(3 * DAY, 5 * DAY, 5 * DAY)]
    assert [task.estimates for task in tasks(reading)] == [*days, None, None, None]
    assert lines(reading) == [
        "row 4, task 'C', Opt '7 5 6': the estimates are not in order; "
        "the normal duration is taken three times [duration]",
        "row 5, task 'D', Pess '4': the estimates are not in order; "
        "the normal duration is taken three times [duration]",
        "row 6, task 'E', Likely 'x': this is no duration [duration]",
    ]


def test_shortest_durations() -> None:
    """With a slope, with a total cost, as a reduction; and each that is not taken is named."""
    reading = read(
        "ID,Name,Duration,Cost,Crash,Slope,Crash cost,Max reduction\n"
        "1,A,5,100,3,,200,\n2,B,5,100,,10,,2 days\n3,C,5,100,,10,,40%\n4,D,5,,3,,201,\n"
        "5,E,5,100,3,,50,\n6,F,5,100,,,200,\n7,G,5,100,x,10,,\n8,H,5,100,,10,,6 days\n"
        "9,I,5,100,120%,10,,\n10,J,5,100,33%,10,,\n11,K,5,100,5,,200,\n12,L,5,100,5,7,,\n"
        "13,M,5,100,0,0,,\n14,N,5,100,0,5,,\n15,O,5,100,,0,0,0\n"
    )
    found = {task.uid: task.crash for task in tasks(reading) if task.crash is not None}
    assert found == {
        "1": Crash(3 * DAY, cost=Decimal(200)),
        "2": Crash(3 * DAY, slope=Decimal(10)),
        "3": Crash(3 * DAY, slope=Decimal(10)),
        "10": Crash(792, slope=Decimal(10)),
        "12": Crash(5 * DAY, slope=Decimal(7)),
    }
    assert [(loss.where, loss.field) for loss in reading.losses] == [
        ("row 5", "Crash cost"),
        ("row 6", "Crash cost"),
        ("row 7", "Crash cost"),
        ("row 8", "Crash"),
        ("row 9", "Max reduction"),
        ("row 10", "Crash"),
        ("row 15", "Slope"),
    ]


def test_crash_fields_by_option() -> None:
    """MS Project's own fields hold shortest durations if the user says so; 0 is an empty one."""
    text = "Name,Duration,Duration1,Cost,Cost1\nA,5 days,3 days,100,200\nB,5 days,0 days,100,0\n"
    reading = read(text, crash_field="Duration1", crash_cost_field="Cost1")
    assert reading.losses == ()
    assert [task.crash for task in tasks(reading)] == [
        Crash(3 * DAY, cost=Decimal(200)),
        None,
    ]
    assert "column 'Duration1' is not read" in read(text).plan.notes


def test_amounts_that_are_none() -> None:
    """Negative ones and texts; dates and percentages likewise."""
    reading = read(
        "ID,Name,Duration,Cost,% Complete,Actual Start,Deadline,Constraint Type,Constraint Date\n"
        "1,A,5,-40,140%,5th of May,NA,,\n2,B,5,1E+05,x,,31.2.2026,Soon,\n"
        "3,C,5,5k,,,,Must Start On,\n4,D,5,,,,,,2026-03-02\n5,E,5,,,,,Must Start On,never\n"
    )
    assert [(loss.where, loss.field, loss.kind.value) for loss in reading.losses] == [
        ("row 2", "Cost", "cost"),
        ("row 2", "% Complete", "progress"),
        ("row 2", "Actual Start", "progress"),
        ("row 3", "Cost", "cost"),
        ("row 3", "% Complete", "progress"),
        ("row 3", "Deadline", "deadline"),
        ("row 3", "Constraint Type", "constraint"),
        ("row 4", "Cost", "cost"),
        ("row 4", "Constraint Type", "constraint"),
        ("row 5", "Constraint Date", "constraint"),
        ("row 6", "Constraint Date", "constraint"),
    ]


def test_constraints() -> None:
    """In English, German and short; as late as possible has no date."""
    text = (
        "Name;Dauer;Einschränkungsart;Einschränkungstermin\nA;5;Muss anfangen am;02.03.2026\n"
        "B;5;So spät wie möglich;\nC;5;FNLT;02.03.2026\nD;5;So früh wie möglich;NV\n"
    )
    day = date(2026, 3, 2)
    assert [task.constraint for task in tasks(read(text))] == [
        Constraint(ConstraintKind.MUST_START, day),
        Constraint(ConstraintKind.AS_LATE_AS_POSSIBLE, None),
        Constraint(ConstraintKind.FINISH_NO_LATER, day),
        None,
    ]


def test_everything_of_a_task() -> None:
    """Remaining durations, baselines, manual tasks, remaining costs."""
    text = (
        "Name,Duration,Task Mode,Remaining Duration,Remaining Cost,Actual Cost,% Complete,"
        "Baseline Start,Baseline Finish,Baseline Duration,Baseline Cost\n"
        "A,5 days,Manually Scheduled,3 days,60,40,0.4,2026-03-02,2026-03-06,5 days,100\n"
        "B,5 days,Auto Scheduled,,,,0,,,,\n"
    )
    reading = read(text)
    first, second = tasks(reading)
    assert first.manual and not second.manual
    assert first.progress == Progress(
        Decimal(40),
        remaining=3 * DAY,
        actual_cost=Decimal(40),
        remaining_cost=Decimal(60),
    )
    wanted = Baseline(0, date(2026, 3, 2), date(2026, 3, 6), 5 * DAY, Decimal(100))
    assert first.baselines == (wanted,)
    assert second.baselines == ()
    assert "column '% Complete' is read as shares of 1: 0.5 is 50 %" in reading.plan.notes


def test_second_meanings_of_headings() -> None:
    """`Geplanter Anfang` is a baseline next to a column `Anfang`, and else the start."""
    text = "Name;Dauer;Geplanter Anfang;Anfang\nA;5;02.03.2026;03.03.2026\n"
    task = tasks(read(text))[0]
    assert task.listed_start == date(2026, 3, 3)
    assert task.baselines == (Baseline(0, date(2026, 3, 2)),)
    text = "Name;Dauer;Geplanter Anfang\nA;5;02.03.2026\n"
    assert tasks(read(text))[0].listed_start == date(2026, 3, 2)


def test_working_time_of_options() -> None:
    """Hours of a day, days of a week and of a month are the user's."""
    text = "Name,Duration\nA,1 week\nB,1 month\n"
    reading = read(text, day_minutes=450, week_minutes=6 * 450, month_days=22)
    assert [task.minutes for task in tasks(reading)] == [2700, 9900]
    calendar = reading.plan.calendar
    assert calendar.working_minutes(date(2026, 3, 7)) == 450
    assert not calendar.is_working(date(2026, 3, 8))
    short = read(text, day_minutes=240).plan.calendar
    assert short.shifts_on(date(2026, 3, 2)) == ((480, 720),)
    long = read(text, day_minutes=1380).plan.calendar
    assert long.shifts_on(date(2026, 3, 2)) == ((60, 1440),)


# Links


def test_links() -> None:
    """All forms of links, by number, code, name and outline code."""
    reading = read(
        "ID;Code;Name;Dauer;Vorgänger\n1;A-1;Dig;5;\n2;B;Lead lining, 2 mm;5;1\n"
        "3;C;Walls;5;1EA+2 Tage;2AA-1 Tag\n"
    )
    assert links(reading.plan)[0] == ("A-1", "B", "FS", Lag())
    reading = read(
        'ID,Name,Duration,Predecessors\n1,Dig,5,\n2,"Pour, set",5,1\n3,Walls,5,"1FS+2 days,2SS"\n'
        '4,Roof,5,"Pour, set"\n5,Tiles,5,3FF+50%\n6,Wires,5,1: FF 2d\n7,Pipes,5,1 2\n'
        '8,Paint,5,3SF+14 edays\n9,Doors,5,1+2 days\n10,Party,5,Dig;2FS-4h\n11,Mow,5,"1,1"\n'
    )
    assert reading.losses == ()
    assert links(reading.plan) == [
        ("1", "2", "FS", Lag()),
        ("1", "3", "FS", Lag(2 * DAY)),
        ("2", "3", "SS", Lag()),
        ("2", "4", "FS", Lag()),
        ("3", "5", "FF", Lag(share=Fraction(1, 2))),
        ("1", "6", "FF", Lag(2 * DAY)),
        ("1", "7", "FS", Lag()),
        ("2", "7", "FS", Lag()),
        ("3", "8", "SF", Lag(14 * 1440, elapsed=True)),
        ("1", "9", "FS", Lag(2 * DAY)),
        ("1", "10", "FS", Lag()),
        ("2", "10", "FS", Lag(-240)),
        ("1", "11", "FS", Lag()),
    ]
    assert reading.plan.links[1].text == "1FS+2 days"
    assert reading.plan.links[1].where == "row 4"


def test_links_with_decimal_commas() -> None:
    """Where the comma is the decimal mark, 1,5 days is one lag."""
    reading = read('ID,Name,Dauer,Vorgänger\n1,A,"5,5",\n2,B,5,"1EA+1,5 Tage,1AA"\n', decimal=",")
    assert reading.losses == ()
    assert links(reading.plan) == [("1", "2", "FS", Lag(720)), ("1", "2", "SS", Lag())]


def test_successors() -> None:
    """A list may have successors instead; with both, the predecessors are read."""
    plan = read("ID,Name,Duration,Successors\n1,A,5,2FS+1d\n2,B,5,\n").plan
    assert links(plan) == [("1", "2", "FS", Lag(DAY))]
    plan = read("ID,Name,Duration,Predecessors,Successors\n1,A,5,,9\n2,B,5,1,\n").plan
    assert links(plan) == [("1", "2", "FS", Lag())]
    assert "column 'Successors' is not read" in plan.notes


def test_links_that_lead_nowhere() -> None:
    """Each is named, with the link alone."""
    reading = read(
        "ID,Outline Level,Name,Duration,Predecessors\n1,1,House,,\n2,2,Dig,5,99\n3,2,Twin,5,3\n"
        '4,2,Twin,5,1\n5,2,Roof,5,Twin\n6,1,Bare,,\n7,1,Mow,5,"6,2FS+x,2FS+2 moons,2FS+5e%"\n'
        "8,1,Lawn,5,2FS+0.3 min\n9,1,Seed,5,2-99\n10,1,Weed,5,2FSx\n"
    )
    found = [
        (loss.where, loss.text, loss.why) for loss in reading.losses if loss.field == "Predecessors"
    ]
    own = "it links a row with itself, or a group with what is inside it"
    nothing = "no row has this number, code or name"
    assert found == [
        ("row 3", "99", nothing),
        ("row 4", "3", own),
        ("row 5", "1", own),
        ("row 6", "Twin", "2 rows have this name"),
        ("row 8", "6", "one of the rows that it links is not carried over"),
        ("row 8", "2FS+x", "lag: this is no duration; the link is left out"),
        (
            "row 8",
            "2FS+2 moons",
            "lag: 'moons' is no unit of time; the link is left out",
        ),
        (
            "row 8",
            "2FS+5e%",
            "lag: a percentage of elapsed time depends on the dates; the link is left out",
        ),
        ("row 9", "2FS+0.3 min", "lag: a lag has whole minutes; the link is left out"),
        ("row 10", "2-99", nothing),
        ("row 11", "2FSx", nothing),
    ]


# Resources


def test_resources() -> None:
    """Shares of crews, materials with units, work, and names with commas."""
    reading = read(
        "Name;Dauer;Ressourcen;Arbeit\nGraben;4 Tage;Trupp[50%];\n"
        'Gießen;2 Tage;"Trupp[200%];Beton[12,5 m3]";\n'
        'Mauern;5 Tage;"Trupp, Nord;Trupp[50%]";60 Std.\n'
        "Fest;0 Tage;Trupp;\n"
    )
    plan = reading.plan
    assert [(r.name, r.kind, r.unit) for r in plan.resources] == [
        ("Trupp", ResourceKind.WORK, "h"),
        ("Beton", ResourceKind.MATERIAL, "m3"),
        ("Trupp, Nord", ResourceKind.WORK, "h"),
    ]
    assert [(a.task, a.resource, a.quantity) for a in plan.assignments] == [
        ("row 2", "Trupp", Decimal(16 * 60)),
        ("row 3", "Trupp", Decimal(32 * 60)),
        ("row 3", "Beton", Decimal("12.5")),
        ("row 4", "Trupp, Nord", Decimal(40 * 60)),
        ("row 4", "Trupp", Decimal(20 * 60)),
    ]
    assert lines(reading) == [
        "row 5, task 'Fest', Ressourcen 'Trupp': it works for no time here [resource]"
    ]


def test_resources_that_are_none() -> None:
    """Brackets without a quantity, amounts per day, work that is no time or that nobody does."""
    reading = read(
        'Name,Duration,Resources,Work\nA,4,"Crew[x],[5],Sand[2 t/day],Crew",\n'
        "B,4,,8h\nC,4,Crew,soon\n"
        'D,4,Crew,7 edays\nE,4,Sand[2 t],0\nF,4,Crew[3 t],\nG,4,"Crew,Crew",\n'
    )
    assert [(loss.where, loss.text) for loss in reading.losses] == [
        ("row 2", "Crew[x]"),
        ("row 2", "[5]"),
        ("row 2", "Sand[2 t/day]"),
        ("row 3", "8h"),
        ("row 4", "soon"),
        ("row 5", "7 edays"),
    ]
    assert [r.uid for r in reading.plan.resources] == ["Crew", "Sand", "Crew (t)"]
    assert reading.plan.assignments[-1].quantity == 2 * 4 * DAY


# Files


def test_separators() -> None:
    """Each separator, and the one that a line `sep=` names."""
    for mark in ";,\t|":
        reading = read(f"Name{mark}Duration{mark}Cost\nA{mark}5{mark}10\n")
        assert tasks(reading)[0].cost == 10
    for end in ("\n", "\r\n"):
        assert len(tasks(read(f"sep=#{end}Name#Duration{end}A#5{end}B#6{end}"))) == 2
    assert tasks(read("SEP=;\nName;Duration\nA;5\n"))[0].where == "row 2"


def test_decimal_marks() -> None:
    """Found in the numbers, or assumed by the separator, or asked for."""
    assert tasks(read('Name,Duration,Cost\nA,"2,5 days",10\n'))[0].minutes == 1200
    note = "the decimal mark is taken to be ."
    assert any(note in each for each in read('Name,Duration,Cost\nA,2,"1,500"\n').plan.notes)
    assert tasks(read("Name;Dauer;Kosten\nA;2;1.500\n"))[0].cost == 1500
    with pytest.raises(InputError, match="is this mark a decimal mark"):
        read("Name\tDuration\tCost\nA\t2\t1.500\n")
    with pytest.raises(InputError, match="two decimal marks: row 2, column 'Cost', '1.50' and"):
        read('Name,Duration,Cost\nA,"2,5 days",1.50\n')
    assert tasks(read("Name\tDuration\tCost\nA\t2\t1.500\n", decimal=","))[0].cost == 1500


def test_order_of_dates() -> None:
    """Days above 12 or weekdays show it; else the month is first, and a note says so."""
    assert tasks(read("Name,Duration,Start\nA,2,13/4/2026\nB,2,3/5/2026\n"))[
        1
    ].listed_start == date(2026, 5, 3)
    reading = read("Name,Duration,Start\nA,2,Fri 4/3/2026\n")
    assert tasks(reading)[0].listed_start == date(2026, 4, 3)
    assert not any("month first" in note for note in reading.plan.notes)
    reading = read("Name,Duration,Start\nA,2,3/4/2026\nB,2,3/3/2026\nC,2,99/99/2026\n")
    assert tasks(reading)[0].listed_start == date(2026, 3, 4)
    assert any("dates such as 3/4/2026 are read month first" in n for n in reading.plan.notes)
    with pytest.raises(InputError, match="in 13/4/2026 the day is first and in 4/13/2026"):
        read("Name,Duration,Start\nA,2,13/4/2026\nB,2,4/13/2026\n")
    assert tasks(read("Name,Duration,Start\nA,2,3/4/2026\n", day_first=True))[0].listed_start == (
        date(2026, 4, 3)
    )


def test_percent_columns() -> None:
    """Shares of 1 are found; with a sign, above 1 or as a text they are percentages."""
    head = "Name,Duration,% Complete\n"
    assert tasks(read(head + "A,2,1\nB,2,0\n"))[0].progress.percent == 100
    assert tasks(read(head + "A,2,1\nB,2,50\n"))[0].progress.percent == 1
    assert tasks(read(head + "A,2,1%\nB,2,0\n"))[0].progress.percent == 1
    assert tasks(read(head + "A,2,1\nB,2,x\n"))[0].progress.percent == 1


def test_chosen_columns() -> None:
    """The user names headings, passes columns over, and is told of wrong ones."""
    text = "Was,Wie lange,Stichtag\nA,5,2026-03-02\n"
    chosen = (("name", "Was"), ("duration", "Wie lange"), ("deadline", ""))
    reading = read(text, columns=chosen)
    assert tasks(reading)[0].deadline is None
    assert "column 'Stichtag' is not read" in reading.plan.notes
    with pytest.raises(InputError, match="no column has the heading 'Price'"):
        read("Name,Duration\nA,5\n", columns=(("cost", "Price"),))
    with pytest.raises(UsageError, match="--column colour: the names are uid, id"):
        read("Name,Duration\nA,5\n", columns=(("colour", "Red"),))
    assert tasks(read("Was,Dauer\nA,5\n", columns=(("task", "Was"),)))[0].name == "A"
    both = read("Name,Task,Code,Duration\nA,T,C,5\n")
    assert tasks(both)[0].code == "C" and "column 'Task' is not read" in both.plan.notes


def test_lists_that_are_none() -> None:
    """No headings, no task, no first day, no text: one line each."""
    with pytest.raises(InputError, match="list.csv: no row of headings"):
        read("")
    with pytest.raises(InputError, match="no row of headings"):
        read("Name,Cost\nA,5\n")
    with pytest.raises(InputError, match="list.csv: there is no task$"):
        read("Name,Duration\n")
    with pytest.raises(InputError, match="there is no task; row 2, task 'A', Duration 'soon'"):
        read("Name,Duration\nA,soon\n")
    with pytest.raises(InputError, match="say the first day with --start YYYY-MM-DD"):
        read("Name,Duration\nA,5\n", start=None)
    with pytest.raises(InputError, match="row 2: a quote is missing"):
        read('ID,Name,Duration\n1,"A,2\n2,B,3\n')
    with pytest.raises(InputError, match="row 1: a quote is missing"):
        read('"ID,Name')


def test_character_sets() -> None:
    """Marks at the top, UTF-16 without one, cp1252, and the user's; wrong ones are named."""
    text = "Name;Dauer\nÜbergabe;5\n"
    for encoding in (
        "utf-8-sig",
        "utf-16",
        "utf-16-le",
        "utf-16-be",
        "cp1252",
        "utf-32",
    ):
        assert tasks(read(text.encode(encoding)))[0].name == "Übergabe"
    assert tasks(read(text.encode("cp437"), encoding="cp437"))[0].name == "Übergabe"
    with pytest.raises(InputError, match="byte 11 is not utf-8: export in UTF-8, or name"):
        read(text.encode("latin-1"), encoding="utf-8")
    for wrong in ("klingon", "hex", "a\0b"):
        with pytest.raises(InputError, match="this is no character set"):
            read(text, encoding=wrong)
    with pytest.raises(InputError, match="byte 12 is not cp1252"):
        read(b"Name;Dauer\n\xff\x81;5\n")
    with pytest.raises(InputError, match="is not utf-16-le"):
        read(text.encode("utf-16")[:-1])


@pytest.mark.parametrize(
    ("data", "what"),
    [
        (b"PK\x03\x04", "a workbook or another archive"),
        (b"\xd0\xcf\x11\xe0", r"a binary file \(.xls, .mpp\)"),
        (b"%PDF-1.4", "a PDF"),
    ],
)
def test_other_files(data: bytes, what: str) -> None:
    """Files that are no texts are named, and do not match."""
    assert not table.matches(data)
    with pytest.raises(InputError, match=f"list.csv: this is {what}"):
        read(data)


def test_matches() -> None:
    """Lists match by their headings."""
    assert table.matches(b"Name;Dauer\nA;5\n")
    assert not table.matches(b"PROJECT,A,S,T,2024-01-01,1,,A shed\n")
    assert not table.matches(b"\xff\x81")
    assert not table.matches(b"")


def test_kinds_of_entries() -> None:
    """Groups and tasks have the numbers that people see."""
    outline = read("ID,Level,Name,Duration\n1,1,House,\n2,2,Dig,5\n").plan.outline
    assert isinstance(outline[0], Group) and outline[0].row == 1
    assert read("Level,Name,Duration\n1,House,\n2,Dig,5\n").plan.name == "House"
    assert LinkKind.FINISH_START.value == "FS"


def test_headings_with_currencies_and_units() -> None:
    """`Cost €`, `Budget CHF`, `Cost k€`, `Crash days` and `Duration h` mean their fields."""
    head = "Code,Name,Duration h,Crash days,Cost k€,Slope €,Depends on\n"
    text = f"{head}A,Dig,80,6,2,100,\nB,Pour,8,,,,A\n"
    plan = read_list_of(text)
    first, second = plan.tasks()
    assert (first.minutes, first.cost) == (10 * 480, Decimal(2000))
    assert first.crash == Crash(6 * 480, slope=Decimal(100))
    assert second.minutes == 480
    assert [(link.predecessor, link.successor) for link in plan.links] == [("A", "B")]
    for heading in ("Cost €", "Kosten EUR", "Budget CHF", "Cost $"):
        (task,) = read_list_of(f"Name,Duration,{heading}\nDig,1,250\n").tasks()
        assert task.cost == 250, heading


@pytest.mark.parametrize(
    ("ids", "uids"),
    (
        (("10", "20", "15"), ["10", "20", "15"]),
        (("T-7", "T-8", "T-9"), ["T-7", "T-8", "T-9"]),
        (("1", "2", "3"), ["A", "B", "C"]),
        (("7", "8", "9"), ["A", "B", "C"]),
        (("10", "10", "15"), ["A", "B", "C"]),
        (("10", "", "15"), ["A", "B", "C"]),
    ),
)
def test_ids_next_to_codes(ids: tuple[str, ...], uids: list[str]) -> None:
    """Numbers that do more than count the rows are what a task is known by next month."""
    lines = ["ID,Code,Name,Duration"]
    for number, code in zip(ids, "ABC"):
        lines.append(f"{number},{code},Task {code},1")
    plan = read_list_of("\n".join(lines) + "\n")
    assert [task.uid for task in plan.tasks()] == uids
    assert [task.code for task in plan.tasks()] == ["A", "B", "C"]


def read_list_of(text: str) -> Plan:
    """Returns the plan of a list that begins on 2 March 2026, of which nothing is lost."""
    options = ReaderOptions(start=date(2026, 3, 2))
    reading = table.read(Source(Path("list.csv"), text.encode()), options)
    assert reading.losses == ()
    return reading.plan
