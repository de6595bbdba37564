"""Files that a command does not read name the command that does."""

from pathlib import Path

import pytest

from pert_companion.model.deck import parse_deck
from pert_companion.model.errors import InputError
from pert_companion.model.source import Source
from pert_companion.readers import detect

from running import EXAMPLES, HOUSE

FILES = Path(__file__).resolve().parent / "files"
HINT = "pert-import makes a deck of a planner's file or a list"


@pytest.mark.parametrize(
    "path, what",
    [
        (EXAMPLES / "garden.xml", "record 1: first card is not PROJECT"),
        (EXAMPLES / "sheet.csv", "record 1: first card is not PROJECT"),
        (FILES / "hall-utf16.txt", "no deck, and not UTF-8 at byte 0"),
        (FILES / "lake-libreoffice.xlsx", "no deck, and not UTF-8 at byte "),
    ],
)
def test_what_is_no_deck_names_the_command_that_makes_one(path: Path, what: str) -> None:
    """Whatever the kind of the file, the line says how to get a deck of it."""
    with pytest.raises(InputError) as refused:
        parse_deck(path.read_bytes(), "plan")
    line = str(refused.value)
    assert line.startswith(f"plan: {what}") and line.endswith(f"; {HINT}")


def test_a_deck_that_is_not_utf_8_is_still_a_deck() -> None:
    """The line says what to do with it, and nothing of planners' files."""
    data = HOUSE.read_bytes()
    at = data.index(b"two floors")
    with pytest.raises(InputError) as refused:
        parse_deck(data[:at] + b"\xff" + data[at:], "house.csv")
    assert str(refused.value) == f"house.csv: not UTF-8 at byte {at}; export it in UTF-8"


def test_a_deck_needs_no_import() -> None:
    """Its line names commands that read decks."""
    with pytest.raises(InputError, match="a deck already, which pert-schedule, pert-report and"):
        detect(Source(HOUSE, HOUSE.read_bytes()))
