"""`pert-import` with shortest durations from a filled sheet and from overtime."""

from pathlib import Path

import pytest
from openpyxl import load_workbook

from pert_companion.importing.crash_sheet import HEADINGS
from pert_companion.model import deck as decks
from test_importing import pert_import

LIST = """\
ID,Name,Duration,Predecessors,Resource Names,Cost,Start
1,Dig,4 days,,,100,2026-03-02
2,Walls,10 days,1,Masons[200%],1000,
3,Paths,6 days,1,,300,
4,Handover,0 days,"2,3",,,
"""


def written_list(folder: Path) -> Path:
    """Writes the list and returns its path."""
    path = folder / "plan.csv"
    path.write_text(LIST, encoding="utf-8")
    return path


def crashes(deck: Path) -> dict[str, tuple[int, int, int]]:
    """Returns normal and shortest duration and slope of the tasks of a deck."""
    cards = decks.parse_deck(deck.read_bytes(), str(deck)).tasks
    return {card.title: (card.normal, card.crash, card.slope) for card in cards}


def test_a_sheet_asks_for_nothing_to_be_accepted(
    tmp_path: Path, capfdbinary: pytest.CaptureFixture[bytes]
) -> None:
    """What a deck cannot say is no matter as long as no deck is written."""
    plan = written_list(tmp_path)
    plan.write_text(LIST.replace("4 days", "4.5 days"), encoding="utf-8")
    words = [plan, "--unit", "days", "--crash-sheet", tmp_path / "ask.xlsx"]
    assert pert_import(capfdbinary, *words).status == 0
    deck = tmp_path / "wing.csv"
    assert pert_import(capfdbinary, *words, "-o", deck, "--overwrite").status == 1
    done = pert_import(capfdbinary, *words, "-o", deck, "--overwrite", "--accept", "all")
    assert done.status == 0 and deck.exists()
    assert done.has("rounded up to 5 days [fraction]")


def test_sheet_there_and_back(tmp_path: Path, capfdbinary: pytest.CaptureFixture[bytes]) -> None:
    """The sheet lists the two critical tasks; what is filled in is in the deck."""
    plan = written_list(tmp_path)
    sheet = tmp_path / "ask.xlsx"
    done = pert_import(capfdbinary, plan, "--crash-sheet", sheet)
    assert (done.status, done.output) == (0, b"")
    assert done.has("ask.xlsx: 2 tasks to fill in")
    book = load_workbook(sheet)
    rows = list(book["Tasks"].iter_rows(min_row=2))
    bring = HEADINGS.index("Brings at most (days)")
    assert [(row[3].value, row[bring].value) for row in rows] == [
        ("Dig", 4),
        ("Walls", 4),
    ]
    rows[0][HEADINGS.index("Shortest duration (days)")].value = 3
    rows[0][HEADINGS.index("Cost per day")].value = 40
    rows[1][HEADINGS.index("Shortest duration (days)")].value = 8
    book.save(sheet)
    deck = tmp_path / "wing.csv"
    done = pert_import(capfdbinary, plan, "--with-crash", sheet, "-o", deck)
    assert done.status == 1
    assert done.has(
        f"plan.csv: {sheet}, row 3, task 'Walls', Shortest duration (days) '8': no cost"
    )
    words = ("--with-crash", sheet, "--accept", "crash", "-o", deck)
    assert pert_import(capfdbinary, plan, *words).status == 0
    assert crashes(deck)["Dig"] == (4, 3, 40)
    assert crashes(deck)["Walls"] == (10, 10, 0)


def test_sheet_with_a_deck(tmp_path: Path, capfdbinary: pytest.CaptureFixture[bytes]) -> None:
    """With -o both are written."""
    plan = written_list(tmp_path)
    sheet, deck = tmp_path / "ask.xlsx", tmp_path / "wing.csv"
    assert pert_import(capfdbinary, plan, "--crash-sheet", sheet, "-o", deck).status == 0
    assert sheet.exists() and deck.exists()


def test_overtime(tmp_path: Path, capfdbinary: pytest.CaptureFixture[bytes]) -> None:
    """Without rates nothing is proposed, and the lines say so."""
    plan = written_list(tmp_path)
    deck = tmp_path / "wing.csv"
    done = pert_import(capfdbinary, plan, "--overtime", "2h@50%", "-o", deck)
    assert done.status == 0
    assert done.has("note: no proposal for 1 task, since a resource has no rate: 'Walls'")
    assert done.has("note: no proposal for 2 tasks, since no resource works on it: 'Dig', 'Paths'")
    done = pert_import(capfdbinary, plan, "--overtime", "2h", "-o", deck)
    assert done.status == 2
    assert done.has("'2h': write it as 2h@50%")
