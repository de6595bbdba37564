"""How often commands call the programs: each question once, and no more questions than needed."""

from collections.abc import Callable, Iterator, Sequence
from importlib import import_module
from pathlib import Path

import pytest

from pert_companion.cli import compare, exporting, importing, report
from pert_companion.cli.common import CommandParser, run_command
from pert_companion.programs.client import Programs
from running import CASES, EXAMPLES, HOUSE, MONTHS

Question = tuple[str, tuple[str, ...], bytes]
Command = tuple[Callable[[], CommandParser], Callable[..., int]]


@pytest.fixture(name="questions")
def recorded(monkeypatch: pytest.MonkeyPatch) -> list[Question]:
    """Returns what the programs are asked from now on: program, words and input."""
    asked: list[Question] = []
    run, certify, check = Programs.run, Programs.certify, Programs.check

    def running(self: Programs, name: str, words: Sequence[str], data: bytes) -> bytes:
        asked.append((name, tuple(words), data))
        return run(self, name, words, data)

    def certifying(self: Programs, deck: bytes) -> Iterator[bytes]:
        asked.append(("pert", ("certify",), deck))
        return certify(self, deck)

    def checking(self: Programs, deck: bytes, certificate: Iterator[bytes]) -> str:
        asked.append(("pert_check", (), deck))
        return check(self, deck, certificate)

    monkeypatch.setattr(Programs, "run", running)
    monkeypatch.setattr(Programs, "certify", certifying)
    monkeypatch.setattr(Programs, "check", checking)
    return asked


def run(command: Command, words: Sequence[object]) -> None:
    """Runs a command that has to succeed."""
    parser, function = command
    assert run_command("test", parser(), function, [str(word) for word in words]) == 0


def count(asked: list[Question]) -> int:
    """Returns how many questions there were, none of them twice."""
    assert len(set(asked)) == len(asked)
    return len(asked)


def test_a_page_asks_fifteen_questions(tmp_path: Path, questions: list[Question]) -> None:
    """A running project with accounts, and the cheapest length chosen."""
    deck = tmp_path / "house.csv"
    terms = b"\nTERMS,100,30,50,200\nWBS,1,,"
    deck.write_bytes(HOUSE.read_bytes().replace(b"\nWBS,1,,", terms, 1))
    run((report.parser, report.run), [deck, "-o", tmp_path / "page.html"])
    assert count(questions) <= 15


@pytest.mark.parametrize(
    "folder, months",
    [(MONTHS, ("plan", "march", "april")), (EXAMPLES / "pump", ("plan", "april", "may"))],
)
def test_a_page_with_a_baseline_and_the_report_before(
    tmp_path: Path, questions: list[Question], folder: Path, months: Sequence[str]
) -> None:
    """Three states, and the three steps between two ends, of which some may be no steps."""
    plan, before, now = (folder / f"{month}.csv" for month in months)
    page = tmp_path / "page.html"
    run((report.parser, report.run), [now, "--baseline", plan, "--previous", before, "-o", page])
    assert count(questions) <= 32


@pytest.mark.parametrize("folder, states", [(MONTHS, 4), (EXAMPLES / "pump", 6)])
def test_a_comparison_asks_seven_questions_a_state(
    questions: list[Question], folder: Path, states: int
) -> None:
    """The months of a project."""
    assert len(list(folder.glob("*.json"))) == states
    run((compare.parser, compare.run), [folder])
    assert count(questions) <= 7 * states


@pytest.mark.parametrize(
    "words",
    [
        ["compare", MONTHS, "--money"],
        ["compare", MONTHS, "--earned"],
        ["compare", EXAMPLES / "pump", "--earned", "--lines", "months"],
        ["schedule", MONTHS / "april.csv", "--forecast", "--baseline", MONTHS / "plan.csv"],
        ["schedule", MONTHS / "april.csv", "--chance"],
        ["schedule", HOUSE, "--length", "20"],
        ["check_status", EXAMPLES / "pump"],
        ["remaining", MONTHS / "april.csv"],
    ],
)
def test_no_question_is_asked_twice(questions: list[Question], words: list[object]) -> None:
    """By the other commands that read states."""
    command = import_module(f"pert_companion.cli.{words[0]}")
    run((command.parser, command.run), words[1:])
    assert count(questions) <= 8


@pytest.mark.parametrize("case", [EXAMPLES / "garden.xml", CASES / "pause.csv"])
def test_an_import_asks_six_questions(
    tmp_path: Path, questions: list[Question], case: Path
) -> None:
    """Dates are compared, and pauses found along the curve."""
    words = [case, "-o", tmp_path / "deck.csv", "--start", "2026-09-01"]
    run((importing.parser, importing.run), words)
    assert count(questions) <= 6


@pytest.mark.parametrize("ending", ["csv", "xml", "ics", "xlsx"])
def test_an_export_asks_six_questions(
    tmp_path: Path, questions: list[Question], ending: str
) -> None:
    """A workbook has every report, and so one question more."""
    words = [HOUSE, "--length", "20", "-o", tmp_path / f"house.{ending}"]
    run((exporting.parser, exporting.run), words)
    assert count(questions) <= (8 if ending == "xlsx" else 6)
