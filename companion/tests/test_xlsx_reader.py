"""Workbooks as MS Project's wizard writes them, as LibreOffice does, and as people keep them."""

import io
import re
import zipfile
from collections.abc import Callable, Sequence
from dataclasses import replace
from datetime import date, datetime, time, timedelta
from decimal import Decimal
from pathlib import Path
from typing import Any

import pytest
from openpyxl import Workbook
from openpyxl.styles import Alignment, Font

from lists import comparable
from pert_companion.model.calendar import CalendarException
from pert_companion.model.errors import InputError
from pert_companion.model.losses import LossKind
from pert_companion.model.plan import Crash, Group, Lag, Progress, ResourceKind, Task
from pert_companion.model.source import Source
from pert_companion.readers import table, xlsx
from pert_companion.readers.base import ReaderOptions, Reading

HERE = Path(__file__).parent
DAY = 480
START = date(2026, 1, 5)
Change = Callable[[Any], None]
Rows = list[list[object]]


def saved(book: Workbook) -> bytes:
    """Returns the bytes of a workbook."""
    data = io.BytesIO()
    book.save(data)
    return data.getvalue()


def workbook(rows: Sequence[Sequence[object]], change: Change | None = None) -> Workbook:
    """Returns a workbook with one sheet of rows, after a change of that sheet."""
    book = Workbook()
    sheet = book.active
    for row in rows:
        sheet.append(list(row))
    if change is not None:
        change(sheet)
    return book


def read(book: Workbook | bytes, **options: object) -> Reading:
    """Reads a workbook; the first day is given unless the test says otherwise."""
    data = book if isinstance(book, bytes) else saved(book)
    given = replace(ReaderOptions(start=START), **options)
    return xlsx.read(Source(Path("plan.xlsx"), data), given)


def tasks(reading: Reading) -> list[Task]:
    """Returns the tasks of a plan."""
    return list(reading.plan.tasks())


def outline(reading: Reading) -> list[tuple[str, str | None]]:
    """Returns the names of the entries and of the groups that hold them."""
    names = {entry.uid: entry.name for entry in reading.plan.outline}
    return [
        (entry.name, names[entry.parent] if entry.parent else None)
        for entry in reading.plan.outline
    ]


def losses(reading: Reading) -> list[tuple[str, str]]:
    """Returns the places and kinds of the losses."""
    return [(loss.where, loss.kind.value) for loss in reading.losses]


# Real files


def test_libreoffice() -> None:
    """LibreOffice's own workbook, and its CSV in three locales, give one plan."""
    path = HERE / "files" / "lake-libreoffice.xlsx"
    reading = xlsx.read(Source(path, path.read_bytes()), ReaderOptions(name="Lake"))
    assert reading.losses == ()
    assert outline(reading) == [
        ("Shell", None),
        ("Foundation", "Shell"),
        ("Walls, north", "Shell"),
        ("Inside", None),
        ("Wires", "Inside"),
        ("Übergabe", "Inside"),
    ]
    walls = tasks(reading)[1]
    assert walls.minutes == 10 * DAY + 240
    assert walls.crash == Crash(7 * DAY, slope=Decimal("95.5"))
    assert walls.progress == Progress(Decimal(25))
    assert (walls.listed_start, walls.listed_finish) == (
        date(2026, 3, 10),
        date(2026, 3, 24),
    )
    for locale in ("en-US", "en-GB", "de-DE"):
        path = HERE / "files" / f"lake-{locale}.csv"
        text = table.read(Source(path, path.read_bytes()), ReaderOptions(name="Lake"))
        assert text.losses == ()
        assert comparable(text.plan) == comparable(reading.plan)


WIZARD_HEADINGS = (
    "ID",
    "Unique_ID",
    "Active",
    "Task_Mode",
    "Name",
    "Duration",
    "Start",
    "Finish",
    "Predecessors",
    "Outline_Level",
    "Resource_Names",
    "Percent_Complete",
    "Actual_Start",
    "Actual_Finish",
    "Cost",
    "Constraint_Type",
    "Constraint_Date",
    "Deadline",
    "Milestone",
    "Baseline_Duration",
    "Duration1",
)


def wizard() -> Workbook:
    """Returns a workbook as MS Project's export wizard writes one: three tables, dates as texts."""
    book = Workbook()
    sheet = book.active
    sheet.title = "Task_Table1"
    sheet.append(WIZARD_HEADINGS)
    day = "March {}, 2026 {}"
    rows: list[list[object]] = [
        [1, 11, "Yes", "Auto Scheduled", "House", "9 days?"] + [None] * 3 + [1] + [None] * 11,
        [2, 13, "Yes", "Auto Scheduled", "   Dig", "5 days", day.format(2, "8:00 AM")]
        + [
            day.format(6, "5:00 PM"),
            None,
            2,
            "Masons[200%]",
            0.5,
            day.format(2, "8:00 AM"),
            "NA",
        ]
        + [1200, "As Soon As Possible", "NA", "NA", "No", "5 days", "3 days"],
        [
            3,
            17,
            "Yes",
            "Manually Scheduled",
            "   Pour",
            "4 days?",
            day.format(9, "8:00 AM"),
        ]
        + [
            day.format(12, "5:00 PM"),
            "2FS+1 day",
            2,
            "Concrete[12 m3]",
            0,
            "NA",
            "NA",
            800,
        ]
        + [
            "Start No Earlier Than",
            day.format(9, "8:00 AM"),
            "March 20, 2026",
            "No",
            "0 days",
        ]
        + ["0 days"],
        [4, 19, "No", "Auto Scheduled", "   Party", "1 day"] + [None] * 3 + [2] + [None] * 11,
    ]
    for row in rows:
        sheet.append(row)
    resources = book.create_sheet("Resource_Table1")
    resources.append(["ID", "Name", "Type", "Material_Label", "Standard_Rate", "Overtime_Rate"])
    resources.append([1, "Masons", "Work", None, "$40.00/h", "$60.00/h"])
    resources.append([2, "Concrete", "Material", "m3", "$95.00", None])
    book.create_sheet("Assignment_Table1").append(["Task_Name", "Resource_Name", "Work"])
    return book


def test_wizard_of_ms_project() -> None:
    """Ids, links by row number, percent as shares, rates; unread columns and tables are noted."""
    reading = read(wizard(), start=None, crash_field="Duration1")
    plan = reading.plan
    assert (plan.name, plan.start) == ("House", date(2026, 3, 2))
    dig, pour = tasks(reading)
    assert (dig.uid, dig.row, dig.name, dig.minutes) == ("13", 2, "Dig", 5 * DAY)
    assert dig.progress == Progress(Decimal(50), date(2026, 3, 2))
    assert dig.listed_finish == date(2026, 3, 6)
    assert pour.manual and not dig.manual
    assert pour.deadline == date(2026, 3, 20)
    assert [(link.predecessor, link.lag) for link in plan.links] == [("13", Lag(DAY))]
    shown = [(r.name, r.kind, r.unit, r.rate, r.overtime_rate) for r in plan.resources]
    assert shown == [
        ("Masons", ResourceKind.WORK, "h", Decimal(40), Decimal(60)),
        ("Concrete", ResourceKind.MATERIAL, "m3", Decimal(95), None),
    ]
    assert [a.quantity for a in plan.assignments] == [Decimal(2 * 5 * DAY), Decimal(12)]
    assert losses(reading) == [("row 3", "crash"), ("row 5", "task")]
    assert "sheet 'Assignment_Table1' is not read" in plan.notes
    assert "column '% Complete'" not in " ".join(plan.notes)


# As people keep them


def test_titles_labels_totals_and_notes() -> None:
    """Merged titles, labels with real dates, a row of totals, remarks, empty rows and columns."""

    def change(sheet: Any) -> None:
        sheet.merge_cells("A1:D1")
        sheet.merge_cells("A9:D9")

    reading = read(
        workbook(
            [
                ["Refit of the shop", None, None, None],
                ["Stand", date(2026, 3, 20), None, "Projektstart:", date(2026, 3, 2)],
                [],
                ["Nr.", "Vorgang", "Dauer", "Kosten"],
                [1, "Strip out", 5, 1200],
                [2, "Joinery", 10, 800.5],
                [None, None, None, None],
                [None, "Summe", 15, 2000.5],
                ["All durations in working days", None, None, None],
            ],
            change,
        ),
        start=None,
    )
    plan = reading.plan
    assert (plan.start, plan.data_date) == (date(2026, 3, 2), date(2026, 3, 20))
    assert reading.losses == ()
    assert [(task.name, task.cost) for task in tasks(reading)] == [
        ("Strip out", Decimal(1200)),
        ("Joinery", Decimal("800.5")),
    ]
    assert plan.notes == (
        "row 1 above the headings is not read: 'Refit of the shop'",
        "the list has no column of predecessors: no task waits for another one; "
        "name yours with --column pred=HEADING",
        "row 8, a row of totals, is not read",
        "row 9 is not read: 'All durations in working days'",
    )


def test_groups_by_bold() -> None:
    """Bold rows hold the rows below them; one with a duration and nothing below is a task."""

    def change(sheet: Any) -> None:
        for row in (2, 5, 7):
            sheet.cell(row, 1).font = Font(bold=True)

    rows: Rows = [
        ["Task", "Duration"],
        ["Shell", 8],
        ["Walls", 5],
        ["Roof", 3],
        ["Inside", None],
    ]
    rows += [["Paint", 2], ["Handover", 0]]
    reading = read(workbook(rows, change))
    assert outline(reading) == [
        ("Shell", None),
        ("Walls", "Shell"),
        ("Roof", "Shell"),
        ("Inside", None),
        ("Paint", "Inside"),
        ("Handover", None),
    ]


def test_groups_by_indentation_of_cells() -> None:
    """Indented cells make levels, as leading blanks do."""

    def change(sheet: Any) -> None:
        for row, indent in ((3, 1), (4, 2), (5, 1)):
            sheet.cell(row, 1).alignment = Alignment(indent=indent)

    rows: Rows = [
        ["Task", "Duration"],
        ["House", None],
        ["Shell", None],
        ["Walls", 5],
        ["Paint", 2],
    ]
    assert outline(read(workbook(rows, change))) == [
        ("House", None),
        ("Shell", "House"),
        ("Walls", "Shell"),
        ("Paint", "House"),
    ]


def test_groups_by_merged_rows() -> None:
    """A row whose only text is merged over the columns is the heading of a group."""

    def change(sheet: Any) -> None:
        sheet.merge_cells("A2:C2")
        sheet.merge_cells("A5:C5")

    rows: Rows = [
        ["ID", "Task", "Duration"],
        ["1. Shell", None, None],
        [1, "Walls", 5],
        [2, "Roof", 3],
    ]
    rows += [["2. Inside", None, None], [3, "Paint", 2]]
    assert outline(read(workbook(rows, change))) == [
        ("1. Shell", None),
        ("Walls", "1. Shell"),
        ("Roof", "1. Shell"),
        ("2. Inside", None),
        ("Paint", "2. Inside"),
    ]


def test_groups_in_a_merged_column() -> None:
    """A phase that is merged over its rows holds them all; other merged columns are not copied."""

    def change(sheet: Any) -> None:
        sheet.merge_cells("A2:A3")
        sheet.merge_cells("D2:D3")

    rows: Rows = [["Phase", "Task", "Duration", "Cost"], ["Shell", "Walls", 5, 100]]
    rows += [[None, "Roof", 3, None], ["Inside", "Paint", 2, 10]]
    reading = read(workbook(rows, change))
    assert outline(reading) == [
        ("Shell", None),
        ("Walls", "Shell"),
        ("Roof", "Shell"),
        ("Inside", None),
        ("Paint", "Inside"),
    ]
    assert [task.cost for task in tasks(reading)] == [Decimal(100), None, Decimal(10)]


def test_cells_with_values_of_their_own() -> None:
    """Dates with times, percentages, units in formats, times, truth values, noise of floats."""

    def change(sheet: Any) -> None:
        sheet["B2"].number_format = '0.0 "Std."'
        sheet["B3"].number_format = "[h]:mm"
        sheet["C2"].number_format = "0%"
        sheet["F2"].number_format = "0.00%"

    rows: Rows = [
        [
            "Task",
            "Duration",
            "% Complete",
            "Start",
            "Milestone",
            "Crash",
            "Slope",
            "Work",
            "Resources",
        ],
        [
            "A",
            40,
            0.25,
            datetime(2026, 3, 2, 8),
            False,
            0.6,
            0.1 + 0.2,
            time(8, 30),
            "Crew",
        ],
        ["B", timedelta(hours=36), 0, date(2026, 3, 9), True, None, None, None, None],
        ["C", 1 / 3, None, None, None, None, None, None, None],
    ]
    reading = read(workbook(rows, change))
    first, second, third = tasks(reading)
    assert (first.minutes, second.minutes, third.minutes) == (2400, 2160, 160)
    assert first.progress.percent == 25
    assert first.listed_start == date(2026, 3, 2)
    assert first.crash == Crash(1440, slope=Decimal("0.3"))
    assert reading.plan.assignments[0].quantity == Decimal(510)
    assert losses(reading) == []


def test_links_that_the_workbook_changed() -> None:
    """`5,6` typed in German is a number, and `3.5` a date: both are named, and none is guessed."""
    rows: Rows = [
        ["ID", "Task", "Duration", "Predecessors"],
        [1, "A", 5, None],
        [2, "B", 5, 1],
    ]
    rows += [[3, "C", 5, 1.2], [4, "D", 5, date(2026, 5, 3)], [5, "E", 5, 9]]
    reading = read(workbook(rows))
    assert [(link.predecessor, link.successor) for link in reading.plan.links] == [("1", "2")]
    assert losses(reading) == [("row 4", "link"), ("row 5", "link"), ("row 6", "link")]
    assert "formatted as text" in reading.losses[0].why
    assert "format the column as text" in reading.losses[1].why


def test_outline_codes_as_numbers() -> None:
    """Codes such as 1.1 that the workbook holds as numbers name rows, too."""
    rows: Rows = [["WBS", "Task", "Duration", "Predecessors"], [1, "House", None, None]]
    rows += [[1.1, "Walls", 5, None], [1.2, "Roof", 3, 1.1]]
    reading = read(workbook(rows))
    assert outline(reading) == [("House", None), ("Walls", "House"), ("Roof", "House")]
    assert len(reading.plan.links) == 1


def test_formulas() -> None:
    """A formula without a value and one with an error are named, and read as empty."""
    book = workbook([["Task", "Duration", "Cost"], ["A", 5, "=B2*10"], ["B", "=1/0", 3]])
    data = changed_part(saved(book), "xl/worksheets/sheet1.xml", error_value)
    reading = read(data)
    assert losses(reading) == [
        ("cell B3", "field"),
        ("cell C2", "field"),
        ("row 3", "task"),
    ]
    assert tasks(reading)[0].cost is None


def error_value(xml: bytes) -> bytes:
    """Gives the formula of B3 the error that a spreadsheet computes."""
    return re.sub(
        rb'<c r="B3"><f>1/0</f><v></v></c>',
        b'<c r="B3" t="e"><f>1/0</f><v>#DIV/0!</v></c>',
        xml,
    )


def changed_part(data: bytes, name: str, change: Callable[[bytes], bytes]) -> bytes:
    """Returns a workbook in which one part is changed."""
    result = io.BytesIO()
    with zipfile.ZipFile(io.BytesIO(data)) as source:
        with zipfile.ZipFile(result, "w", zipfile.ZIP_DEFLATED) as target:
            for info in source.infolist():
                part = source.read(info)
                if info.filename == name:
                    new = change(part)
                    assert new != part
                    part = new
                target.writestr(info.filename, part)
    return result.getvalue()


def test_hidden_rows_and_sheets() -> None:
    """Hidden rows are read, hidden sheets are not, and both are said."""

    def change(sheet: Any) -> None:
        sheet.row_dimensions[3].hidden = True

    book = workbook([["Task", "Duration"], ["A", 5], ["B", 3]], change)
    hidden = book.create_sheet("Old plan")
    hidden.append(["Task", "Duration"])
    hidden.sheet_state = "hidden"
    book.create_sheet("Remarks").append(["Mind the pipes"])
    reading = read(book)
    assert len(tasks(reading)) == 2
    assert reading.plan.notes[:3] == (
        "sheet 'Remarks' is not read",
        "sheet 'Old plan' is hidden and is not read",
        "1 hidden rows of sheet 'Sheet' are read too",
    )


# Sheets


def test_choice_of_sheets() -> None:
    """The only list, the one with a usual name, or the one that the user names."""
    book = workbook([["Task", "Duration"], ["A", 5]])
    book.active.title = "May"
    june = book.create_sheet("June")
    june.append(["Task", "Duration"])
    june.append(["B", 5])
    with pytest.raises(InputError, match="several sheets hold a list: 'May', 'June'; say which"):
        read(book)
    assert tasks(read(book, sheet="june"))[0].name == "B"
    with pytest.raises(InputError, match="no sheet has the name 'July'; there are: 'May', 'June'"):
        read(book, sheet="July")
    june.title = "Tasks"
    reading = read(book)
    assert tasks(reading)[0].name == "B"
    assert "sheet 'May' is not read" in reading.plan.notes
    with pytest.raises(InputError, match="no sheet has a row of headings"):
        read(workbook([["Mind the pipes"]]))


def test_holidays() -> None:
    """Real dates and texts, single days and stretches, with and without names."""
    book = workbook([["Task", "Duration"], ["A", 5]])
    free = book.create_sheet("Holidays")
    rows: list[list[object]] = [
        ["Free days of 2026", None, None],
        ["First", "Last", "Name"],
        [date(2026, 5, 1), None, "Labour  Day"],
        ["24.12.2026", "31.12.2026", "Christmas"],
        [date(2026, 8, 3), date(2026, 8, 14), None],
        [None, None, "Easter"],
        [date(2026, 5, 9), date(2026, 5, 8), "Wrong"],
        ["32.12.2026", None, "Never"],
    ]
    for row in rows:
        free.append(row)
    reading = read(book)
    assert reading.plan.calendar.exceptions == (
        CalendarException(date(2026, 5, 1), date(2026, 5, 1), "Labour Day"),
        CalendarException(date(2026, 12, 24), date(2026, 12, 31), "Christmas"),
        CalendarException(date(2026, 8, 3), date(2026, 8, 14), ""),
    )
    assert losses(reading) == [
        (f"sheet 'Holidays', row {row}", LossKind.CALENDAR.value) for row in (6, 7, 8)
    ]


def test_rates() -> None:
    """Rates per hour and day, of materials, and those that are none."""
    book = workbook(
        [
            ["Task", "Duration", "Resources"],
            ["A", 5, "Crew;Masons;Sand[3];Paint[4 l];X"],
        ]
    )
    sheet = book.create_sheet("Ressourcen")
    sheet.append(["Name", "Art", "Stundensatz", "Überstundensatz", "Einheit"])
    sheet.append(["Crew", "Arbeit", "400 €/Tag", 75, None])
    sheet.append(["Masons", None, "10/moon", "x", None])
    sheet.append(["Sand", "Material", 30, None, None])
    sheet.append(["Paint", "Material", 9.5, None, "l"])
    sheet.append([None, "Material", 30, None, None])
    reading = read(book)
    shown = [(r.name, r.unit, r.rate, r.overtime_rate) for r in reading.plan.resources]
    assert shown == [
        ("Crew", "h", Decimal(50), Decimal(75)),
        ("Masons", "h", None, None),
        ("Sand", "units", Decimal(30), None),
        ("Paint", "l", Decimal("9.5"), None),
        ("X", "h", None, None),
    ]
    assert losses(reading) == [("sheet 'Ressourcen', row 3", "resource")] * 2
    for headings in ([], ["Rate", "Type"]):
        book = workbook([["Task", "Duration"], ["A", 5]])
        book.create_sheet("Resources").append(headings)
        assert read(book).losses == ()


def test_matches() -> None:
    """Workbooks match by their parts; other archives and texts do not."""
    assert xlsx.matches(saved(workbook([])))
    other = io.BytesIO()
    with zipfile.ZipFile(other, "w") as archive:
        archive.writestr("mimetype", "application/vnd.oasis.opendocument.spreadsheet")
    assert not xlsx.matches(other.getvalue())
    assert not xlsx.matches(b"PK\x03\x04")
    assert not xlsx.matches(b"Name,Duration\n")
    with pytest.raises(InputError, match="this archive is no workbook"):
        read(other.getvalue())


def test_kinds_of_entries() -> None:
    """A group of a workbook has its row."""
    rows: Rows = [
        ["ID", "Outline Level", "Task", "Duration"],
        [7, 1, "House", None],
        [8, 2, "Dig", 5],
    ]
    entry = read(workbook(rows)).plan.outline[0]
    assert isinstance(entry, Group) and entry.row == 7 and entry.where == "row 2"
