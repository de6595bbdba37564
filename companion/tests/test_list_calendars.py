"""Calendars of the tasks of a list, by words and by a sheet, and durations by the clock."""

import io
from collections.abc import Sequence
from dataclasses import replace
from datetime import date
from pathlib import Path

import pytest
from hourly import Hours
from openpyxl import Workbook
from planner_files import gan_bytes, mspdi_bytes
from test_passes import NIGHTS, OFFICE, SITE, START, calendar_of
from test_table import lines, read, tasks
from test_two_calendars import LINKS, WORK, site_plan

from pert_companion import readers
from pert_companion.importing.conversion import carried_by_dates
from pert_companion.model.calendar import Calendar, free_days
from pert_companion.model.errors import UsageError
from pert_companion.model.logic import CLOCK_NAME
from pert_companion.model.source import Source
from pert_companion.readers.base import ReaderOptions, Reading
from pert_companion.readers.values import Unreadable
from pert_companion.readers.working_times import week_in

H = 60
Rows = list[list[object]]
SHEET_OF_SITE = (
    ("Name", "Weekdays", "Hours", "Free days"),
    ("Site", "mon-sat", "06:00-16:00", "no"),
    ("Nights", "mon-sun", "22:00-24:00", "no"),
    ("Nights", "mon-sun", "0-6", "no"),
)


@pytest.mark.parametrize(
    "words, days, shifts",
    [
        ("mon-sat", range(6), ((8 * H, 16 * H),)),
        ("Mo-Fr 06:00-14:00", range(5), ((6 * H, 14 * H),)),
        ("sun-thu,sat 7-11, 12:30-16", (0, 1, 2, 3, 5, 6), ((7 * H, 11 * H), (750, 16 * H))),
        ("fri-mon 6 h", (0, 4, 5, 6), ((8 * H, 12 * H), (13 * H, 15 * H))),
        ("mon - sun 24", range(7), ((0, 24 * H),)),
        ("24 Hours", range(7), ((0, 24 * H),)),
        ("Samstag 7,5 Std.", (5,), ((8 * H, 12 * H), (13 * H, 990))),
        ("mon-fri 22:00-24:00 und 0:00-6:00", range(5), ((0, 6 * H), (22 * H, 24 * H))),
    ],
)
def test_words(words: str, days: Sequence[int], shifts: tuple[tuple[int, int], ...]) -> None:
    """Weekdays in two languages, with hours or the usual ones."""
    week = week_in(words, ((8 * H, 16 * H),))
    assert [number for number, found in enumerate(week) if found] == list(days)
    assert {found for found in week if found} == {shifts}


@pytest.mark.parametrize(
    "words",
    ("Crew", "mon-fry", "mon 25 h", "mon 14:00-06:00", "mon 6:75-9", "mon 6:00", "7-15", "mon 0 h"),
)
def test_words_that_say_no_working_time(words: str) -> None:
    """Each is refused."""
    with pytest.raises(Unreadable):
        week_in(words, ((0, 60),))


def list_rows() -> Rows:
    """Returns the rows of the plan of the tests with several calendars, as a list has it."""
    rows: Rows = [["Code", "Name", "Duration", "Predecessors", "Cost", "Calendar"]]
    for uid, (hours, calendar) in WORK.items():
        links = [
            f"T{before}{kind}" + (f"+{lag}h" if lag else "")
            for before, after, kind, lag in LINKS
            if after == uid
        ]
        name = "None" if calendar == "Office" else calendar
        row = [f"T{uid}", f"Task {uid}", f"{hours}h", ",".join(links), 1000 * int(uid), name]
        rows.append(list(row))
    return rows


def workbook_bytes(**sheets: Sequence[Sequence[object]]) -> bytes:
    """Returns a workbook with these sheets."""
    book = Workbook()
    book.remove(book.active)
    for name, rows in sheets.items():
        sheet = book.create_sheet(name)
        for row in rows:
            sheet.append(list(row))
    data = io.BytesIO()
    book.save(data)
    return data.getvalue()


def read_book(data: bytes, **options: object) -> Reading:
    """Reads a workbook as the plan of the tests with several calendars."""
    given = replace(ReaderOptions(name="Quay", start=START), **options)
    return readers.read(Source(Path("quay.xlsx"), data), given)


def test_a_workbook_becomes_the_deck_of_the_planners_file() -> None:
    """A list with a sheet of calendars and MS Project's file of the same plan give one deck."""
    holidays: Rows = [["Day", "Name"], [date(2026, 3, 9), "Fair"], [date(2026, 3, 18), "Fair"]]
    book = workbook_bytes(Plan=list_rows(), Calendars=SHEET_OF_SITE, Holidays=holidays)
    reading = read_book(book)
    assert reading.losses == ()
    calendars = {calendar.name: calendar for calendar in reading.plan.calendars}
    assert calendars["Site"].week == calendar_of("Site", SITE).week
    assert calendars["Nights"].week == calendar_of("Nights", NIGHTS).week
    assert all(not calendar.exceptions for calendar in calendars.values())
    wanted = readers.read(Source(Path("quay.xml"), mspdi_bytes(site_plan())), ReaderOptions())
    assert carried_by_dates(reading.plan).data == carried_by_dates(wanted.plan).data


def test_calendars_of_a_text() -> None:
    """Words of cells are calendars, with the free days of the plan; unknown ones are named."""
    text = (
        "Name,Duration,Calendar\nA,3,mon-sat\nB,2,Crew 7\nC,1,\nD,1,None\nE,2,mon-sat\n"
        "F,1,24 Hours\nG,1,standard\nH,1,mon-fri\n"
    )
    free = free_days([date(2026, 1, 6)], "Epiphany")
    reading = read(text, holidays=free)
    assert lines(reading) == [
        "row 3, task 'B', Calendar 'Crew 7': 'crew' is no weekday such as mon, no range such as"
        " mon-fri, and no sheet of calendars has it; the plan's is used [calendar]"
    ]
    names = [task.calendar for task in tasks(reading)]
    assert names == ["mon-sat", None, None, None, "mon-sat", "24 Hours", None, None]
    assert [calendar.exceptions for calendar in reading.plan.calendars] == [free, free]


def test_the_calendar_of_most_tasks_is_the_plans() -> None:
    """Planners write the name of a calendar at each task: one is the plan's, others are named."""
    text = "Name,Duration,Calendar\nA,3,Crew 7\nB,2,Crew 7\nC,1,Crew 8\n"
    reading = read(text)
    assert [task.calendar for task in tasks(reading)] == [None] * 3
    assert [line.partition(":")[0] for line in lines(reading)] == [
        "row 4, task 'C', Calendar 'Crew 8'"
    ]
    assert (
        "the calendar 'Crew 7' of most tasks is taken for the plan's, 'Standard'"
        in reading.plan.notes
    )


def test_another_calendar_for_the_plan() -> None:
    """A calendar of the sheet can be the plan's; one that no sheet has is no word for it."""
    rows: Rows = [["Name", "Duration", "Calendar"], ["A", 3, "Site"], ["B", 2, "Nights"]]
    book = workbook_bytes(Plan=rows, Kalender=SHEET_OF_SITE)
    plan = read_book(book, calendar="site").plan
    assert (plan.calendar.name, plan.calendar.week) == ("Site", calendar_of("Site", SITE).week)
    assert [task.calendar for task in plan.tasks()] == [None, "Nights"]
    with pytest.raises(UsageError, match="no sheet of calendars has it"):
        read_book(book, calendar="Office")


def test_rows_of_calendars_that_are_none() -> None:
    """Each is named; a sheet without the headings of one is not read."""
    rows: Rows = [["Name", "Duration"], ["A", 3]]
    wrong = (("Name", "Weekdays", "Hours"), ("Site", "mon-sat", "late"), ("", "mon", ""), ("", ""))
    reading = read_book(workbook_bytes(Plan=rows, Calendars=wrong))
    assert [(loss.where, loss.why) for loss in reading.losses] == [
        ("sheet 'Calendars', row 2", "'late' is no working time such as 06:00-14:00"),
        ("sheet 'Calendars', row 3", "this calendar has no name"),
    ]
    other = (("Crew", "Shift"), ("A", "early"))
    reading = read_book(workbook_bytes(Plan=rows, Calendars=other))
    assert reading.losses == () and "sheet 'Calendars' is not read" in reading.plan.notes


def test_durations_by_the_clock() -> None:
    """From Wednesday evening seven elapsed days end on the Wednesday after: five working days."""
    reading = read(
        "ID,Name,Duration,Predecessors,Crash,Slope\n1,A,3 days,,,\n2,B,7 edays,1,5 days,90\n"
        "3,C,1 day,2,,\n"
    )
    assert reading.losses == ()
    dry = tasks(reading)[1]
    assert (dry.calendar, dry.minutes) == (CLOCK_NAME, 7 * 24 * H)
    assert dry.crash is not None and dry.crash.minutes == 5 * 24 * H
    deck = carried_by_dates(reading.plan).deck
    assert [(card.normal, card.crash) for card in deck.tasks] == [(3, 3), (5, 3), (1, 1)]


def test_a_custom_column_of_ganttproject() -> None:
    """A column called Calendar is read like that of a list."""
    plan = replace(site_plan(), calendars=())
    outline = tuple(replace(task, calendar=None, minutes=480) for task in plan.tasks())
    data = gan_bytes(replace(plan, outline=outline, links=())).decode()
    column = '<taskproperty id="tpc9" name="Calendar" type="custom" valuetype="text"/>'
    data = data.replace("</taskproperties>", f"{column}</taskproperties>")
    for uid, words in (("1", "mon-sat"), ("3", "soon")):
        before, mark, after = data.partition(f'<task id="{uid}"')
        opening, end, rest = after.partition(">")
        value = f'<customproperty taskproperty-id="tpc9" value="{words}"/>'
        data = f"{before}{mark}{opening}{end}{value}{rest}"
    reading = readers.read(Source(Path("quay.gan"), data.encode()), ReaderOptions())
    assert [task.calendar for task in reading.plan.tasks()][:3] == ["mon-sat", None, None]
    assert [loss.text for loss in reading.losses] == ["soon"]
    week = Hours(frozenset(range(6)), OFFICE.hours)
    own: Calendar = reading.plan.calendars[0]
    assert own.week == calendar_of("mon-sat", week).week
