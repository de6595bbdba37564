"""What tests of running projects share: plans of cases and examples, and how commands are run."""

from collections.abc import Callable, Sequence
from dataclasses import dataclass
from pathlib import Path

import pytest

from pert_companion.cli import importing
from pert_companion.cli.common import CommandParser, run_command
from pert_companion.model.deck import Deck, parse_deck
from pert_companion.programs.client import Programs
from pert_companion.state.project import ProjectState, open_state, state_of

HERE = Path(__file__).resolve().parent
CASES = HERE / "cases"
EXAMPLES = HERE.parents[1] / "examples"
HOUSE = EXAMPLES / "house.csv"
MONTHS = EXAMPLES / "months"
PROGRAMS = Programs()
WITH_INTERRUPTS = ("env", "--default-signal=INT,HUP")
"""Runs a command that Ctrl-C and HUP end, also where the tests ignore them (in the background)."""


@dataclass(frozen=True)
class Outcome:
    """What a command did: its status, its output and its lines on standard error."""

    status: int
    output: str
    errors: str


def run_words(
    capture: pytest.CaptureFixture[bytes],
    name: str,
    command: tuple[Callable[[], CommandParser], Callable[..., int]],
    words: Sequence[object],
) -> Outcome:
    """Runs a command in this process."""
    capture.readouterr()
    parser, run = command
    status = run_command(name, parser(), run, [str(word) for word in words])
    captured = capture.readouterr()
    return Outcome(status, captured.out.decode(), captured.err.decode())


def opened(path: Path) -> ProjectState:
    """Returns the state of a deck's file."""
    return open_state(path, PROGRAMS)


def imported(folder: Path, case: str, *words: str) -> ProjectState:
    """Returns the state of a list of the cases, imported into a folder."""
    deck = folder / case
    given = [str(CASES / case), "-o", str(deck), *words]
    assert run_command(importing.NAME, importing.parser(), importing.run, given) == 0
    return opened(deck)


def plan_of(text: str) -> ProjectState:
    """Returns the state of a deck that is given as a text."""
    return state_of(parse_deck(text.encode(), "deck.csv"), PROGRAMS)


def deck_of(text: str) -> Deck:
    """Returns the deck that is given as a text."""
    return parse_deck(text.encode(), "deck.csv")
