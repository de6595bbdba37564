"""`pert-days`: counted decks, reports with real days, and side files for decks written by hand."""

from datetime import date
from pathlib import Path

import pytest
from openpyxl import Workbook

from running import opened
from pert_companion.cli import days, importing
from pert_companion.cli.common import run_command
from pert_companion.model import deck as decks, fitting
from pert_companion.model.calendar import CalendarException
from pert_companion.model.errors import InputError, UsageError
from pert_companion.programs.client import Programs
from pert_companion.readers.calendar_files import calendar_of, holidays_of
from test_importing import CASES, Outcome

PROGRAMS = Programs()
HOUSE = """PROJECT,H1,10,30,2026-09-01,1,,House
ASOF,2026-09-12
WBS,1,,House
WBS,1.1,1,2026-01-01
EVENT,10,Begin
EVENT,20,Site ready
EVENT,30,Done
ACT,SITE,10,20,1.1,3,4,5,4,3,400,120,Clear
ACT,FOUND,20,30,1.1,5,6,13,7,5,900,200,Dig
ACCT,A,1.1,1300,
CHARGE,A,2026-09-12,500
STATUS,SITE,S,2026-09-01
STATUS,SITE,F,2026-09-05
END
"""


def pert_days(capture: pytest.CaptureFixture[bytes], *words: object) -> Outcome:
    """Runs the command in this process."""
    capture.readouterr()
    status = run_command(days.NAME, days.parser(), days.run, [str(word) for word in words])
    captured = capture.readouterr()
    return Outcome(status, captured.out, captured.err.decode().split("\n")[:-1])


@pytest.fixture(name="house")
def _house(tmp_path: Path) -> Path:
    path = tmp_path / "house.csv"
    path.write_text(HOUSE)
    return path


def test_dates_become_counts(house: Path, capfdbinary: pytest.CaptureFixture[bytes]) -> None:
    """A deck written by hand has five working days a week, and other days by the words."""
    done = pert_days(capfdbinary, house)
    counted = decks.parse_deck(done.output, "counted")
    assert counted.as_of == date(2026, 9, 10)
    assert [card.day for card in counted.statuses] == [date(2026, 9, 1), date(2026, 9, 5)]
    done = pert_days(capfdbinary, house, "--weekdays", "mon-sat")
    assert decks.parse_deck(done.output, "counted").as_of == date(2026, 9, 11)
    done = pert_days(capfdbinary, house, "--count", "2026-09-12")
    assert done.output == b"9\n"
    target = house.with_name("counted.csv")
    assert pert_days(capfdbinary, house, "-o", target).status == 0
    assert target.read_bytes() == counted.to_bytes()


def test_a_deck_on_standard_input(
    house: Path, capfdbinary: pytest.CaptureFixture[bytes], monkeypatch: pytest.MonkeyPatch
) -> None:
    """It is counted without a side file."""
    expected = pert_days(capfdbinary, house).output
    monkeypatch.setattr("sys.stdin", house.open())
    assert pert_days(capfdbinary, "-").output == expected
    assert pert_days(capfdbinary, "-", "--back").status == 2
    monkeypatch.setattr("pert_companion.model.deck.MOST_BYTES", 100)
    monkeypatch.setattr("sys.stdin", house.open())
    done = pert_days(capfdbinary, "-")
    assert done.status == 1 and done.has("standard input: more than 100 bytes")


def test_reports_get_real_days(
    house: Path, capfdbinary: pytest.CaptureFixture[bytes], monkeypatch: pytest.MonkeyPatch
) -> None:
    """Dates of events, periods and the as-of date are days of the calendar again."""
    counted = pert_days(capfdbinary, house).output
    report = house.with_name("report.txt")

    def back(*words: str) -> list[str]:
        report.write_bytes(PROGRAMS.pert(counted, *words))
        monkeypatch.setattr("sys.stdin", report.open())
        done = pert_days(capfdbinary, house, "--back")
        assert done.status == 0, done.lines
        return done.output.decode().split("\n")

    value = back("value")
    assert value[0] == "VALUE H1 2026-09-12"
    assert value[3].split() == ["20", "24", "0", "2026-09-07"]
    assert back("times")[4].split() == ["30", "66", "66", "0", "2026-09-16"]
    load = back("load", "5")
    assert load[1].split() == ["PERIOD", "0", "2026-09-01"]
    assert load[2].split() == ["PERIOD", "1", "2026-09-08"]
    assert any(line.endswith(" 2026-01-01") for line in back("summary"))


@pytest.mark.parametrize(
    "text, line",
    [
        (HOUSE, "this is a deck and no report"),
        ("30 66 0 0 2026-09-16\n", "line 1: '30 66 0 0 2026-09-16' is no part of a report"),
        ("VALUE H1 2026-02-30\n", "2026-02-30 is no day of the calendar"),
        ("\udcff", "not in UTF-8 at byte 1"),
    ],
)
def test_what_is_no_report_is_one_line(
    text: str,
    line: str,
    house: Path,
    capfdbinary: pytest.CaptureFixture[bytes],
    monkeypatch: pytest.MonkeyPatch,
) -> None:
    """Nothing is guessed of lines outside of a report."""
    report = house.with_name("report.txt")
    report.write_bytes(text.encode(errors="surrogateescape"))
    monkeypatch.setattr("sys.stdin", report.open())
    done = pert_days(capfdbinary, house, "--back")
    assert done.status == 1 and done.output == b"" and done.has(line)


def test_faults_and_far_days_of_reports(
    house: Path, capfdbinary: pytest.CaptureFixture[bytes], monkeypatch: pytest.MonkeyPatch
) -> None:
    """A fault line's date is real, days before the start stay, and days after 9999 are hyphens."""
    report = house.with_name("report.txt")
    report.write_text(
        "F31 record 9: second TOGO of A on 2026-09-08\nLOAD H1 5\n"
        "PERIOD 0 9999-12-31\nPERIOD 1 2026-08-30\n"
    )
    monkeypatch.setattr("sys.stdin", report.open())
    assert pert_days(capfdbinary, house, "--back").output.decode().split("\n") == [
        "F31 record 9: second TOGO of A on 2026-09-10",
        "LOAD H1 5",
        "PERIOD 0 ----------",
        "PERIOD 1 2026-08-30",
        "",
    ]


def test_another_as_of_day(house: Path, capfdbinary: pytest.CaptureFixture[bytes]) -> None:
    """Later statuses are left out; the side file of an imported deck goes with it."""
    done = pert_days(capfdbinary, house, "--as-of", "2026-09-03")
    read = decks.parse_deck(done.output, "deck")
    assert read.as_of == date(2026, 9, 3) and len(read.statuses) == 1
    assert pert_days(capfdbinary, house, "--as-of", "2026-08-03").status == 1
    deck = house.with_name("fri.csv")
    words = [str(CASES / "fri.csv"), "-o", str(deck), "--as-of", "2026-09-04"]
    assert run_command(importing.NAME, importing.parser(), importing.run, words) == 0
    later = house.with_name("later.csv")
    done = pert_days(capfdbinary, deck, "--as-of", "2026-09-08", "-o", later)
    assert done.status == 0
    plan = opened(later)
    assert plan.has_side_file and plan.side.data_date == date(2026, 9, 7)
    assert plan.side.deck_name == "later.csv" and plan.deck.as_of == date(2026, 9, 8)
    assert plan.side.tasks[0].actual_finish == date(2026, 9, 4)
    done = pert_days(capfdbinary, deck, "--as-of", "2026-09-03", "-o", later)
    survey = opened(later).side.tasks[0]
    assert (survey.actual_start, survey.actual_finish) == (date(2026, 9, 1), None)
    assert (survey.percent, survey.remaining) == (None, None)
    done = pert_days(capfdbinary, deck, "--weekdays", "mon-sat")
    assert done.status == 2 and done.has("fri.json has the calendar")
    done = pert_days(capfdbinary, deck, "--calendar")
    assert done.status == 1 and done.has("pert-import wrote it")


def test_a_side_file_for_a_deck_written_by_hand(
    house: Path, capfdbinary: pytest.CaptureFixture[bytes]
) -> None:
    """`--calendar` writes the calendar with its holidays, and all commands use it then."""
    holidays = house.with_name("days.txt")
    holidays.write_text("\ufeff# closed\n2026-09-03..2026-09-04 Fair\r\n2026-09-07; Day off\n\n")
    done = pert_days(capfdbinary, house, "--calendar", "--holidays", holidays)
    assert done.status == 0 and done.has("house.json: Standard, 2 exceptions, 2 tasks")
    side = fitting.find(house, decks.read_deck(house), house.read_bytes())
    assert side is not None
    assert side.calendar.exceptions == (
        CalendarException(date(2026, 9, 3), date(2026, 9, 4), "Fair"),
        CalendarException(date(2026, 9, 7), date(2026, 9, 7), "Day off"),
    )
    assert [task.minutes for task in side.tasks] == [4 * 480, 7 * 480]
    assert pert_days(capfdbinary, house, "--count", "2026-09-12").output == b"6\n"
    done = pert_days(capfdbinary, house, "--calendar", "--unit", "hours", "--weekdays", "sun-thu")
    assert done.status == 0 and done.has("sun-thu, 0 exceptions")
    assert pert_days(capfdbinary, house, "--count", "2026-09-02").output == b"8\n"
    assert pert_days(capfdbinary, house, "--count", "2026-08-02").status == 1
    house.write_text(HOUSE.replace("3,4,5,4,3", "3,4,6,4,3"))
    done = pert_days(capfdbinary, house, "--count", "2026-09-02")
    assert done.status == 1 and done.has("does not fit house.csv: ACT SITE was changed; make it")
    assert done.has("(pert-days house.csv --calendar)")
    assert pert_days(capfdbinary, house, "--calendar").status == 0
    assert pert_days(capfdbinary, house, "--count", "2026-09-02").output == b"1\n"


def test_decks_in_weeks(house: Path, capfdbinary: pytest.CaptureFixture[bytes]) -> None:
    """A unit of five days is a working week; one of seven counts days of the calendar."""
    house.write_text(HOUSE.replace("2026-09-01,1,", "2026-09-01,5,"))
    assert pert_days(capfdbinary, house, "--count", "2026-09-12").output == b"1\n"
    house.write_text(HOUSE.replace("2026-09-01,1,", "2026-09-01,7,"))
    done = pert_days(capfdbinary, house)
    assert done.status == 1 and done.has("so this deck counts days of the calendar")


def test_weekdays_and_holidays_are_read_strictly(tmp_path: Path) -> None:
    """Words that are no weekdays and lines that are no holidays are one line."""
    assert [bool(shifts) for shifts in calendar_of("fri-mon,wed", None).week] == [
        True,
        False,
        True,
        False,
        True,
        True,
        True,
    ]
    for word in ("", "mon-", "moonday", "mon,,tue"):
        with pytest.raises(UsageError, match="is no weekday such as mon"):
            calendar_of(word, None)
    path = tmp_path / "days.txt"
    for line in ("2026-02-30", "2026-09-04..2026-09-03", "2026-09-04x", "31/31/2026"):
        path.write_text(f"\n{line}\n")
        with pytest.raises(InputError, match="days.txt: line 2: "):
            holidays_of(path)
    path.write_text("2026-12-25 Christmas\nand so on\n")
    with pytest.raises(InputError, match="line 2: 'and so on': there is no date in this row"):
        holidays_of(path)
    for data in (b"soon", b"\xff", b"Date;Name\n"):
        path.write_bytes(data)
        with pytest.raises(InputError, match="there is no date such as 2024-12-25"):
            holidays_of(path)
    path.write_text("13/04/2026\n04/13/2026\n")
    with pytest.raises(InputError, match="the day is first and in 04/13/2026 the month"):
        holidays_of(path)
    path.write_bytes(b"#" * (1024 * 1024 + 1))
    with pytest.raises(InputError, match="no list of holidays"):
        holidays_of(path)


CHRISTMAS = CalendarException(date(2026, 12, 24), date(2026, 12, 31), "Christmas")
LABOUR_DAY = CalendarException(date(2026, 5, 1), date(2026, 5, 1), "Labour Day")
FREE_DAYS = (LABOUR_DAY, CHRISTMAS)


@pytest.mark.parametrize(
    "text",
    (
        "2026-05-01 Labour Day\n2026-12-24..2026-12-31 Christmas # the office is closed\n",
        "Date,Name\n2026-05-01,Labour Day\n2026-12-24 - 2026-12-31,Christmas\n",
        "Feiertag;Von;Bis\r\nLabour Day;01.05.2026;01.05.2026\r\nChristmas;24.12.26;31.12.26\r\n",
        "Free days of the office\n\n01.05.2026\tLabour Day\n24.12.2026 – 31.12.2026\tChristmas\n",
        "5/1/2026 Labour Day\n12/24/2026 to 12/31/2026 Christmas\n",
        "1/5/2026 Labour Day\n24/12/2026 bis 31/12/2026 Christmas\n",
        "Fri 1 May 2026, Labour Day\nDec 24, 2026 - Dec 31, 2026; Christmas\n",
    ),
)
def test_holidays_as_people_have_them(tmp_path: Path, text: str) -> None:
    """Headings, names before or after, local dates and ranges, with any separator."""
    path = tmp_path / "free.txt"
    for encoding in ("utf-8-sig", "cp1252"):
        path.write_bytes(text.encode(encoding))
        assert holidays_of(path) == FREE_DAYS


def test_holidays_in_a_workbook(tmp_path: Path) -> None:
    """The sheet of holidays is read, or the first one if none is called so."""
    book = Workbook()
    other = book.active
    sheet = book.create_sheet("Feiertage")
    for row in (
        ("Name", "From", "To"),
        ("Labour Day", date(2026, 5, 1), None),
        ("Christmas", date(2026, 12, 24), date(2026, 12, 31)),
    ):
        sheet.append(row)
    other.append(("nothing", "here"))
    path = tmp_path / "free.xlsx"
    book.save(path)
    assert holidays_of(path) == FREE_DAYS
    book.remove(other)
    sheet.title = "2026"
    book.save(path)
    assert holidays_of(path) == FREE_DAYS
