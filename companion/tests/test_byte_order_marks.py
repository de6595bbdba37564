"""Decks with byte order marks are read as `pert` reads them: up to two in front are dropped."""

import subprocess
import sys
from pathlib import Path

import pytest

from pert_companion.model.deck import parse_deck
from pert_companion.model.errors import InputError

from running import CASES, EXAMPLES, HOUSE

MARK = b"\xef\xbb\xbf"
CHECKED = CASES / "check-py"
"""A deck with two marks, and its certificate."""


@pytest.mark.parametrize("marks, is_read", [(0, True), (1, True), (2, True), (3, False)])
def test_marks_of_a_deck(tmp_path: Path, marks: int, is_read: bool) -> None:
    """The third is part of the first card, whose kind is unknown then."""
    data = (CHECKED / "deck.csv").read_bytes().replace(MARK, b"")
    deck = tmp_path / "deck.csv"
    deck.write_bytes(MARK * marks + data)
    with (CHECKED / "cert").open("rb") as certificate:
        words = [sys.executable, str(EXAMPLES / "check.py"), str(deck)]
        done = subprocess.run(words, stdin=certificate, capture_output=True, text=True, check=False)
    assert (done.returncode, done.stdout) == ((0, "certified 1\n") if is_read else (1, ""))
    house = MARK * marks + HOUSE.read_bytes()
    if is_read:
        assert parse_deck(house, "house.csv") == parse_deck(HOUSE.read_bytes(), "house.csv")
    else:
        with pytest.raises(InputError, match="record 1: first card is not PROJECT"):
            parse_deck(house, "house.csv")
