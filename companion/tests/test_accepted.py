"""What an import let go stays visible, and the next import knows it."""

import io
import json
from pathlib import Path

import pytest
from openpyxl import load_workbook

from running import PROGRAMS
from test_importing import Outcome, pert_import
from pert_companion.cli import exporting, report
from pert_companion.cli.common import run_command
from pert_companion.model.errors import InputError
from pert_companion.model.losses import (
    MEANINGS,
    NAMED,
    Acceptance,
    Loss,
    LossKind,
    accepted_text,
)
from pert_companion.model.sidefile import from_json, side_path
from pert_companion.portfolio.job import Job
from pert_companion.portfolio.row import row_of

Capture = pytest.CaptureFixture[bytes]
PLAN = """\
ID,Name,Duration,Predecessors,Cost
1,Dig,10 days,,1000
2,Build,5 days,1,2000
3,Paint,soon,,
"""
SAID = "not carried over, as accepted: 1 \u00d7 unread duration"


def imported(capture: Capture, folder: Path, text: str, name: str, *words: object) -> Outcome:
    """Imports a plan as a deck of a name in the folder."""
    source = folder / "plan.csv"
    source.write_text(text)
    start = ("--start", "2026-09-01")
    return pert_import(capture, source, *start, "-o", folder / name, *words)


def accepted(deck: Path) -> list[tuple[LossKind, str, str]]:
    """Returns kind, task and text of each loss that the side file of a deck has."""
    side = from_json(side_path(deck).read_bytes(), "side file")
    return [(loss.kind, loss.name, loss.text) for loss in side.accepted]


def test_accepted_losses_are_kept(tmp_path: Path, capfdbinary: Capture) -> None:
    """They are in the side file, each with its place; without any there is no list."""
    done = imported(capfdbinary, tmp_path, PLAN, "april.csv", "--accept", "duration")
    assert done.status == 0
    assert accepted(tmp_path / "april.csv") == [(LossKind.DURATION, "Paint", "soon")]
    whole = PLAN.replace("soon", "2 days")
    assert imported(capfdbinary, tmp_path, whole, "may.csv").status == 0
    assert "accepted" not in json.loads(side_path(tmp_path / "may.csv").read_text())


def test_the_next_import_accepts_the_same(tmp_path: Path, capfdbinary: Capture) -> None:
    """A row that has moved is the same loss; one with another text, or a new one, is not."""
    first = tmp_path / "april.csv"
    assert imported(capfdbinary, tmp_path, PLAN, "april.csv", "--accept", "duration").status == 0
    again = ("--with", first, "--accept", "same")
    moved = PLAN.replace("1,Dig", "7,Clear,1 day,,5\n1,Dig")
    done = imported(capfdbinary, tmp_path, moved, "may.csv", *again)
    assert done.status == 0 and done.has("not carried over, as accepted: 1 duration")
    assert accepted(tmp_path / "may.csv") == accepted(first)
    other = PLAN.replace("soon", "later")
    done = imported(capfdbinary, tmp_path, other, "june.csv", *again)
    assert done.status == 1 and done.has("Duration 'later'")
    assert done.has("say --accept same,duration; no deck is written")
    more = PLAN + "4,Clean,never,,\n"
    done = imported(capfdbinary, tmp_path, more, "june.csv", *again)
    assert done.status == 1 and not (tmp_path / "june.csv").exists()
    assert done.has("Clean") and not done.has("task 'Paint'")
    words = ("--with", first, "--accept", "same,duration")
    assert imported(capfdbinary, tmp_path, more, "june.csv", *words).status == 0
    assert [name for _, name, _ in accepted(tmp_path / "june.csv")] == ["Paint", "Clean"]


@pytest.mark.parametrize("word", ["duration", "all"])
def test_three_months(word: str, tmp_path: Path, capfdbinary: Capture) -> None:
    """What April accepted, by kind or as all, May takes over; June names what is new, and it alone.

    With the new one accepted, July takes both over.
    """
    assert imported(capfdbinary, tmp_path, PLAN, "april.csv", "--accept", word).status == 0
    april = ("--with", tmp_path / "april.csv", "--accept")
    may = imported(capfdbinary, tmp_path, f"{PLAN}4,Sweep,1 day,2,\n", "may.csv", *april, "same")
    assert may.status == 0 and may.has("not carried over, as accepted: 1 duration")
    assert not may.has("'Paint'")
    june = f"{PLAN}4,Sweep,1 day,2,\n5,Clean,never,,\n"
    after_may = ("--with", tmp_path / "may.csv", "--accept")
    done = imported(capfdbinary, tmp_path, june, "june.csv", *after_may, "same")
    assert done.status == 1 and not (tmp_path / "june.csv").exists()
    named = [line for line in done.lines if "[duration]" in line]
    assert len(named) == 1 and "row 6, task 'Clean', Duration 'never'" in named[0]
    assert done.has("not carried over: 1 duration; change the file, or say --accept same,duration")
    again = imported(capfdbinary, tmp_path, june, "june.csv", *after_may, "same,duration")
    assert again.status == 0
    assert [name for _, name, _ in accepted(tmp_path / "june.csv")] == ["Paint", "Clean"]
    after_june = ("--with", tmp_path / "june.csv", "--accept", "same")
    assert imported(capfdbinary, tmp_path, june, "july.csv", *after_june).status == 0
    assert accepted(tmp_path / "july.csv") == accepted(tmp_path / "june.csv")


def test_a_new_loss_like_an_accepted_one_is_new(tmp_path: Path, capfdbinary: Capture) -> None:
    """A second task of the same name and text is one more; the known one is at its place."""
    assert imported(capfdbinary, tmp_path, PLAN, "april.csv", "--accept", "duration").status == 0
    more = PLAN + "4,Paint,soon,,\n"
    again = ("--with", tmp_path / "april.csv", "--accept", "same")
    done = imported(capfdbinary, tmp_path, more, "may.csv", *again)
    assert done.status == 1 and done.has("row 5, task 'Paint'") and not done.has("row 4, task")
    assert done.has("not carried over, as accepted: 1 duration")


@pytest.mark.parametrize(
    ("april", "may"),
    [
        ("table CALENDAR, line 12", "table CALENDAR, line 40"),
        ("row 12", "row 1"),
        ("cell C12", "cell C9"),
        ("sheet 'Resources', row 4", "sheet 'Resources', row 5"),
    ],
)
def test_places_move(april: str, may: str) -> None:
    """A loss without a task is the same one further down, and not on another sheet or in another
    column."""
    old = Loss(LossKind.CALENDAR, april, "", "day_hr_cnt", "x", "")
    new = Loss(LossKind.CALENDAR, may, "", "day_hr_cnt", "x", "")
    assert Acceptance(earlier=(old,)).divided([new]) == ([new], [])
    assert Acceptance(earlier=(old,)).divided([new, old]) == ([old], [new])
    assert Acceptance(earlier=(old, old)).divided([new, old, new]) == ([new, old], [new])
    other = Loss(LossKind.CALENDAR, f"other {may}", "", "day_hr_cnt", "x", "")
    assert Acceptance(earlier=(old,)).divided([other]) == ([], [other])


def test_the_last_import_alone_accepts_nothing(tmp_path: Path, capfdbinary: Capture) -> None:
    """`--with` has to be asked for its losses, and `same` has to have it."""
    first = tmp_path / "april.csv"
    assert imported(capfdbinary, tmp_path, PLAN, "april.csv", "--accept", "all").status == 0
    assert imported(capfdbinary, tmp_path, PLAN, "may.csv", "--with", first).status == 1
    done = imported(capfdbinary, tmp_path, PLAN, "may.csv", "--accept", "same")
    assert done.status == 2 and done.has("--accept same needs the deck of the last import")


def test_page_portfolio_and_workbook_say_what_was_accepted(
    tmp_path: Path, capfdbinary: Capture
) -> None:
    """The first screen and the row count by kind; the workbook has a sheet with each."""
    deck = tmp_path / "april.csv"
    assert imported(capfdbinary, tmp_path, PLAN, "april.csv", "--accept", "duration").status == 0
    page, book = tmp_path / "april.html", tmp_path / "april.xlsx"
    words = [str(deck), "-o", str(page)]
    assert run_command(report.NAME, report.parser(), report.run, words) == 0
    text = page.read_text()
    assert (
        "Not carried over from <bdi>plan.csv</bdi>, as accepted: 1 \u00d7 unread duration" in text
    )
    assert row_of(PROGRAMS, Job(deck, None, "april.csv")).note == SAID
    words = [str(deck), "-o", str(book)]
    assert run_command(exporting.NAME, exporting.parser(), exporting.run, words) == 0
    sheet = load_workbook(io.BytesIO(book.read_bytes()))["Not carried over"]
    rows = list(sheet.iter_rows(values_only=True))[1:]
    assert [row[:5] for row in rows] == [("duration", "row 4", "Paint", "Duration", "soon")]


def test_each_kind_has_a_name() -> None:
    """A count of losses names its kind."""
    assert NAMED.keys() == MEANINGS.keys() == set(LossKind)
    losses = [Loss(LossKind.CALENDAR, f"row {row}", "", "", "", "") for row in range(6)]
    assert accepted_text(losses) == "6 \u00d7 calendar that is not followed"


@pytest.mark.parametrize(
    ("entry", "fault"),
    [
        ({"kind": "storm"}, r"accepted\[0\]: unknown kind of loss 'storm'"),
        ({"where": 4}, r"accepted\[0\].where: it is no text"),
        ({"colour": "red"}, r"accepted\[0\]: unknown key 'colour'"),
    ],
)
def test_losses_of_a_side_file_are_checked(
    tmp_path: Path, capfdbinary: Capture, entry: dict[str, object], fault: str
) -> None:
    """Each value has its type, and no key is unknown."""
    assert imported(capfdbinary, tmp_path, PLAN, "april.csv", "--accept", "duration").status == 0
    held = json.loads(side_path(tmp_path / "april.csv").read_text())
    held["accepted"][0].update(entry)
    with pytest.raises(InputError, match=fault):
        from_json(json.dumps(held).encode(), "april.json")
