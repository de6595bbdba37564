"""`pert-import`: from a file to a deck and its side file, whole or not at all."""

import json
import stat
from dataclasses import dataclass
from datetime import date, datetime
from pathlib import Path

import pytest


from running import opened
from pert_companion.cli import importing
from pert_companion.cli.common import run_command
from pert_companion.importing.pauses import check_curve
from pert_companion.model import deck as decks, fitting
from pert_companion.model.days import counted
from pert_companion.model.sidefile import SideFile
from pert_companion.programs.client import Programs
from pert_companion.state.project import ProjectState
from pert_companion.analysis.scheduling import normal_schedule

CASES = Path(__file__).resolve().parent / "cases"
PROGRAMS = Programs()


@dataclass(frozen=True)
class Outcome:
    """What a command did: its status, its output and its lines on standard error."""

    status: int
    output: bytes
    lines: list[str]

    def has(self, text: str) -> bool:
        """Says whether some line has a text."""
        return any(text in line for line in self.lines)


def pert_import(capture: pytest.CaptureFixture[bytes], *words: object) -> Outcome:
    """Runs the command in this process."""
    capture.readouterr()
    parser = importing.parser()
    status = run_command(importing.NAME, parser, importing.run, [str(word) for word in words])
    captured = capture.readouterr()
    lines = captured.err.decode().split("\n")[:-1]
    assert all(line.startswith("pert-import: ") for line in lines), lines
    return Outcome(status, captured.out, lines)


def side_of(deck: Path) -> SideFile:
    """Returns the side file of a deck, which fits it."""
    side = fitting.find(deck, decks.read_deck(deck), deck.read_bytes())
    assert side is not None
    return side


def forecast_days(deck: Path) -> int:
    """Returns the forecast end of a deck by `pert value`, in units."""
    plan = opened(deck)
    network = PROGRAMS.network(counted(plan.deck, plan.side))
    return PROGRAMS.value(network).events[network.project.end].time // 6


def test_a_listed_start_that_no_link_explains_is_named(
    tmp_path: Path, capfdbinary: pytest.CaptureFixture[bytes]
) -> None:
    """The dates of the file are compared, and `--strict` makes a difference status 1."""
    deck = tmp_path / "wing.csv"
    done = pert_import(capfdbinary, CASES / "manual.csv", "-o", deck)
    assert done.status == 0
    assert done.has(
        "1 of 3 tasks have your planner's dates; 2 differ, first: row 2 Delivery (fixed date),"
        " 2026-11-02 in the file, 2026-09-01 by its links"
    )
    assert not done.has("difference:")
    done = pert_import(capfdbinary, CASES / "manual.csv", "-o", deck, "--strict", "--differences")
    assert done.status == 1
    assert done.has("difference: row 3 Install, 2026-11-03 in the file, 2026-09-08 by its links")


def test_start_no_earlier_than_is_a_waiting_task(
    tmp_path: Path, capfdbinary: pytest.CaptureFixture[bytes]
) -> None:
    """A constraint gets a card that waits from the first day, and all dates are the planner's."""
    deck = tmp_path / "wing.csv"
    done = pert_import(capfdbinary, CASES / "snet.csv", "-o", deck, "--strict")
    assert done.status == 0
    assert done.has("all 3 tasks have your planner's dates")
    wait = decks.read_deck(deck).tasks[1]
    assert (wait.code, wait.normal, wait.crash, wait.cost) == ("D2026-11-02", 44, 44, 0)
    side = side_of(deck)
    assert side.waits == ("D2026-11-02",)
    assert [task.code for task in side.tasks] == ["A", "Delivery", "Install"]


def test_codes_are_the_same_next_month(
    tmp_path: Path, capfdbinary: pytest.CaptureFixture[bytes]
) -> None:
    """A row that is added takes no code of another task."""
    codes = []
    for month in ("m1", "m2"):
        deck = tmp_path / f"{month}.csv"
        done = pert_import(capfdbinary, CASES / f"{month}.csv", "-o", deck, "--start", "2026-09-01")
        assert done.status == 0
        codes.append({task.name: task.code for task in side_of(deck).tasks})
    assert codes[1]["Install"] not in codes[0].values()
    assert codes[0].items() <= codes[1].items()


def test_the_data_date_is_an_evening(
    tmp_path: Path, capfdbinary: pytest.CaptureFixture[bytes]
) -> None:
    """A Friday as data date has the Friday's finishes; the day before names the date to give."""
    deck = tmp_path / "fri.csv"
    done = pert_import(capfdbinary, CASES / "fri.csv", "-o", deck, "--as-of", "2026-09-04")
    assert done.status == 0 and done.has("1 begun by the evening of 2026-09-04")
    read = decks.read_deck(deck)
    assert read.as_of == date(2026, 9, 5)
    assert [(card.letter, card.day) for card in read.statuses] == [
        ("S", date(2026, 9, 1)),
        ("F", date(2026, 9, 5)),
    ]
    assert side_of(deck).data_date == date(2026, 9, 4)
    assert forecast_days(deck) == 9
    before = deck.read_bytes()
    done = pert_import(capfdbinary, CASES / "fri.csv", "-o", deck, "--as-of", "2026-09-03")
    assert done.status == 1
    assert done.has("row 2, task 'Survey', finish '2026-09-04'")
    assert done.has("say --as-of 2026-09-04 [progress]")
    assert done.has("1 progress; change the file, or say --accept progress; no deck is written")
    assert deck.read_bytes() == before
    done = pert_import(capfdbinary, CASES / "fri.csv", "-o", deck)
    assert done.status == 1 and done.has("task 'Survey' has progress: say the data date")


def test_elapsed_lags_are_by_the_calendar(
    tmp_path: Path, capfdbinary: pytest.CaptureFixture[bytes]
) -> None:
    """Fourteen elapsed days over Christmas end when the planner says, and that is noted."""
    deck = tmp_path / "xmas.csv"
    done = pert_import(capfdbinary, CASES / "xmas.csv", "-o", deck, "--strict")
    assert done.status == 0
    assert done.has("note: 1 elapsed lag is counted in the working time of its normal dates")
    assert done.has("all 2 tasks have your planner's dates")


def test_holidays_of_the_user_are_free_days(
    capfdbinary: pytest.CaptureFixture[bytes], tmp_path: Path
) -> None:
    """A list as text cannot hold holidays: 5 days from 2026-12-21 end after the free ones."""
    plan = tmp_path / "plan.csv"
    plan.write_text("ID,Name,Duration,Start,Finish\n1,Screed,5 days,2026-12-21,2026-12-29\n")
    free = tmp_path / "free.txt"
    free.write_text("2026-12-24..2026-12-25 Christmas\n")
    deck = tmp_path / "deck.csv"
    done = pert_import(capfdbinary, plan, "--holidays", free, "-o", deck, "--strict")
    assert done.status == 0, done.lines
    assert [each.name for each in side_of(deck).calendar.exceptions] == ["Christmas"]
    without = pert_import(capfdbinary, plan, "-o", deck, "--strict")
    assert without.status == 1


def test_done_days_use_up_the_parts_of_a_task(
    tmp_path: Path, capfdbinary: pytest.CaptureFixture[bytes]
) -> None:
    """A task that is split for leads and on time is on time in the forecast."""
    deck = tmp_path / "ontime.csv"
    words = (CASES / "ontime.csv", "-o", deck, "--as-of", "2026-09-08")
    assert pert_import(capfdbinary, *words).status == 0
    statuses = decks.read_deck(deck).statuses
    assert [(card.activity, card.letter, card.day.day) for card in statuses] == [
        ("Demolish", "S", 1),
        ("Demolish", "F", 5),
        ("Demolish.2", "S", 5),
        ("Demolish.2", "F", 9),
        ("Demolish.3", "S", 9),
    ]
    assert forecast_days(deck) == 13


def test_remaining_durations_are_kept_and_named(
    tmp_path: Path, capfdbinary: pytest.CaptureFixture[bytes]
) -> None:
    """A task that is late has its remaining duration in the side file, and a note says so."""
    deck = tmp_path / "late.csv"
    done = pert_import(capfdbinary, CASES / "late.csv", "-o", deck, "--as-of", "2026-10-13")
    assert done.status == 0
    assert side_of(deck).tasks[0].remaining == 36 * 480
    assert done.has("1 task is ahead of or behind the normal duration, first: row 2 Fabricate, 36")


def test_no_length_of_the_curve_needs_a_pause(
    tmp_path: Path, capfdbinary: pytest.CaptureFixture[bytes]
) -> None:
    """The curve of tasks in one piece ends at 24, where no task pauses."""
    deck = tmp_path / "pause.csv"
    done = pert_import(capfdbinary, CASES / "pause.csv", "-o", deck, "--start", "2026-09-01")
    assert done.status == 0 and not done.has("least length in one piece")
    plan = opened(deck)
    curve = PROGRAMS.curve(PROGRAMS.network(plan.deck))
    assert [point.length for point in curve] == [24]
    assert check_curve(plan.plan).least == 24


def test_hours_have_the_dates_of_days(
    tmp_path: Path, capfdbinary: pytest.CaptureFixture[bytes]
) -> None:
    """A deck in hours has the same dates of the calendar, and counts eight units a day."""
    found = []
    for unit in ("days", "hours"):
        deck = tmp_path / f"{unit}.csv"
        words = (
            CASES / "ontime.csv",
            "-o",
            deck,
            "--as-of",
            "2026-09-08",
            "--unit",
            unit,
        )
        assert pert_import(capfdbinary, *words).status == 0
        plan = opened(deck)
        tasks = normal_schedule(ProjectState(PROGRAMS, plan.deck, plan.side).plan).tasks
        found.append([(task.name, task.start, task.finish) for task in tasks])
    assert found[0] == found[1]
    assert found[0][0][1:] == (datetime(2026, 9, 1, 8), datetime(2026, 9, 10, 17))
    assert forecast_days(tmp_path / "hours.csv") == 13 * 8


def test_losses_are_accepted_by_kind(
    tmp_path: Path, capfdbinary: pytest.CaptureFixture[bytes]
) -> None:
    """Each kind is accepted alone; what is accepted is counted, and nothing else is written."""
    plan = tmp_path / "plan.csv"
    plan.write_text(
        "ID,Name,Duration,Predecessors,Slope,Start\n"
        "1,Survey,2 days,,50,2026-09-01\n2,Dig,1 day,9,,2026-09-01\n"
    )
    deck = tmp_path / "wing.csv"
    done = pert_import(capfdbinary, plan, "-o", deck, "--accept", "link")
    assert done.status == 1 and not deck.exists()
    assert done.has("not carried over, as accepted: 1 link")
    assert done.has("task 'Survey'") and done.has("[crash]") and not done.has("[link]")
    done = pert_import(capfdbinary, plan, "-o", deck, "--accept", "link", "--accept", "crash,loe")
    assert done.status == 0 and deck.exists()
    done = pert_import(capfdbinary, plan, "-o", deck, "--accept", "nonsense")
    assert done.status == 2 and done.has("'nonsense' is none of task, link, ")


def test_without_a_name_the_deck_goes_to_standard_output(
    tmp_path: Path,
    capfdbinary: pytest.CaptureFixture[bytes],
    monkeypatch: pytest.MonkeyPatch,
) -> None:
    """What only a side file keeps is lost then, so it has to be accepted."""
    text = b"ID,Name,Duration,Deadline,Start\n1,Survey,2 days,2026-10-01,2026-09-01\n"
    plan = tmp_path / "plan.csv"
    plan.write_bytes(text)
    done = pert_import(capfdbinary, plan)
    assert done.status == 1 and done.output == b"" and done.has("[deadline]")
    done = pert_import(capfdbinary, plan, "--accept", "deadline")
    assert done.status == 0 and done.output.startswith(b"PROJECT,plan,start,end,2026-09-01,")
    monkeypatch.setattr("sys.stdin", plan.open("r"))
    again = pert_import(capfdbinary, "-", "--accept", "deadline", "--name", "plan")
    assert again.output == done.output
    deck = tmp_path / "wing.csv"
    assert pert_import(capfdbinary, plan, "-o", deck).status == 0
    assert side_of(deck).tasks[0].deadline == date(2026, 10, 1)


def test_deck_and_side_file_are_written_together(
    tmp_path: Path, capfdbinary: pytest.CaptureFixture[bytes]
) -> None:
    """If the side file cannot be written, the old deck stays."""
    deck = tmp_path / "wing.csv"
    deck.write_bytes(b"PROJECT,old\n")
    (tmp_path / "wing.json").mkdir()
    done = pert_import(capfdbinary, CASES / "snet.csv", "-o", deck)
    assert done.status == 1 and deck.read_bytes() == b"PROJECT,old\n"
    (tmp_path / "wing.json").rmdir()
    folder = tmp_path / "closed"
    folder.mkdir()
    (folder / "wing.csv").mkdir()
    done = pert_import(capfdbinary, CASES / "snet.csv", "-o", folder / "wing.csv")
    assert done.status == 1 and not (folder / "wing.json").exists()
    assert stat.S_ISDIR((folder / "wing.csv").stat().st_mode)


@pytest.mark.parametrize(
    "words, status, line",
    [
        (["no-such.csv"], 1, "no-such.csv: No such file or directory"),
        (["{plan}", "-o", "wing.json"], 2, "this is the name of a side file"),
        (
            ["{plan}", "-o", "{plan}"],
            2,
            "this is read by the same command; see --overwrite",
        ),
        (
            ["{plan}", "--unit", "fortnights"],
            2,
            "--unit fortnights: say auto, days, hours",
        ),
        (
            ["{plan}", "--start", "1.9.2026"],
            2,
            "'1.9.2026' is no date such as 2026-09-01",
        ),
        (["{plan}", "--column", "duration"], 2, "'duration' is not FIELD=HEADING"),
        (
            ["{plan}", "--day-hours", "0"],
            2,
            "'0' is no number of hours such as 8 or 7.5",
        ),
        (["{plan}", "--day-hours", "7.123"], 2, "'7.123' is no number of hours"),
        (
            ["{plan}", "--start", "1850-01-01"],
            2,
            "is no date from 1900-01-01 to 2199-12-31",
        ),
        (
            ["{plan}", "--bin", "/nonexistent", "--strict"],
            2,
            "no program pert in /nonexistent",
        ),
        ([], 2, "the following arguments are required: file"),
    ],
)
def test_wrong_words_are_one_line(
    words: list[str],
    status: int,
    line: str,
    capfdbinary: pytest.CaptureFixture[bytes],
) -> None:
    """Each mistake is one line with its status."""
    plan = str(CASES / "snet.csv")
    done = pert_import(capfdbinary, *[word.replace("{plan}", plan) for word in words])
    assert done.status == status
    assert done.has(line), done.lines


def test_without_pert_dates_are_not_compared(
    tmp_path: Path, capfdbinary: pytest.CaptureFixture[bytes]
) -> None:
    """The deck is written all the same, and the line says what was not done."""
    deck = tmp_path / "wing.csv"
    done = pert_import(
        capfdbinary,
        CASES / "snet.csv",
        "-o",
        deck,
        "--bin",
        "/nonexistent",
        "--day-hours",
        "7.5",
    )
    assert done.status == 0 and deck.exists()
    assert done.has("dates are not compared with those of the file: no program pert")
    assert json.loads((tmp_path / "wing.json").read_bytes())["calendar"]["day_minutes"] == 450


@pytest.mark.parametrize(
    "name, data, line",
    [
        ("empty.csv", b" \n\0", "the file is empty"),
        ("plan.mpp", b"\xd0\xcf\x11\xe0\xa1\xb1", "save it as XML or as .xlsx"),
        ("plan.pdf", b"%PDF-1.7", "export the plan from the program that made it"),
        ("plan.zip", b"PK\x03\x04rest", "no workbook (.xlsx)"),
        (
            "plan.txt",
            b"nothing\nof interest\n",
            "no plan: no file of a planner, and no list",
        ),
    ],
)
def test_a_file_of_no_known_format_is_one_line(
    name: str,
    data: bytes,
    line: str,
    tmp_path: Path,
    capfdbinary: pytest.CaptureFixture[bytes],
) -> None:
    """The line names the file and what to do."""
    plan = tmp_path / name
    plan.write_bytes(data)
    done = pert_import(capfdbinary, plan, "-o", tmp_path / "wing.csv")
    assert done.status == 1 and len(done.lines) == 1
    assert done.has(f"{plan}: ") and done.has(line)
    assert not (tmp_path / "wing.csv").exists()
