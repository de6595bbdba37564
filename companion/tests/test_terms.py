"""What time costs is said when a plan is imported, kept, and taken by the next import."""

import json
from datetime import date
from decimal import Decimal
from pathlib import Path

import pytest

from running import opened
from test_importing import Outcome, pert_import
from pert_companion.analysis.contract import CONTRACT_DATE, contract_of
from pert_companion.model import deck as decks
from pert_companion.model.cards import TermsCard
from pert_companion.model.errors import InputError
from pert_companion.model.sidefile import from_json, side_path
from pert_companion.model.terms import Terms

Capture = pytest.CaptureFixture[bytes]
PLAN = """\
ID,Name,Duration,Predecessors,Cost,Crash,Slope
1,Dig,10 days,,1000,6 days,100
2,Build,5 days,1,2000,,
"""
TERMS = ("--overhead", "4000/day", "--contract", "2026-09-18", "--bonus", "50", "--penalty", "900")


def plan(folder: Path, text: str = PLAN) -> Path:
    """Returns a plan of three weeks from Tuesday, 1 September 2026."""
    path = folder / "plan.csv"
    path.write_text(text)
    return path


def imported(capture: Capture, folder: Path, name: str, *words: object) -> Outcome:
    """Imports the plan as a deck of a name in the folder."""
    start = ("--start", "2026-09-01")
    return pert_import(capture, folder / "plan.csv", *start, "-o", folder / name, *words)


def test_terms_are_a_card_and_the_contract_is_the_directed_end(
    tmp_path: Path, capfdbinary: Capture
) -> None:
    """Fourteen days lead to the evening of 18 September; prices are those of a day."""
    plan(tmp_path)
    assert imported(capfdbinary, tmp_path, "april.csv", *TERMS).status == 0
    deck = decks.read_deck(tmp_path / "april.csv")
    assert deck.terms == TermsCard(overhead=4000, target=14, bonus=50, penalty=900)
    assert deck.project.directed == 14
    contract = contract_of(opened(tmp_path / "april.csv"), None)
    assert contract is not None
    assert (contract.day, contract.name) == (date(2026, 9, 18), CONTRACT_DATE)


def test_a_contract_that_the_links_break_is_noted(tmp_path: Path, capfdbinary: Capture) -> None:
    """The plan ends on 21 September."""
    plan(tmp_path)
    done = imported(capfdbinary, tmp_path, "april.csv", *TERMS)
    assert done.has("note: the plan must finish by 2026-09-18: by its links it ends on 2026-09-21")


def test_prices_are_those_of_the_unit_and_rounded_up_as_a_loss(
    tmp_path: Path, capfdbinary: Capture
) -> None:
    """A plan in half days pays half of a day's price; what is not whole has to be accepted."""
    plan(tmp_path, PLAN.replace("5 days", "4.5 days"))
    assert imported(capfdbinary, tmp_path, "april.csv", "--overhead", "4000/day").status == 0
    terms = decks.read_deck(tmp_path / "april.csv").terms
    assert terms == TermsCard(overhead=2000)
    done = imported(capfdbinary, tmp_path, "may.csv", "--overhead", "4001")
    assert done.status == 1
    assert done.has("TERMS, overhead '4001': 2000.5 for a unit of the deck is rounded up to 2001")
    done = imported(capfdbinary, tmp_path, "may.csv", "--overhead", "4001", "--cents")
    assert done.status == 0
    assert decks.read_deck(tmp_path / "may.csv").terms == TermsCard(overhead=200_050)


def test_the_next_import_takes_the_terms_of_the_last_one(
    tmp_path: Path, capfdbinary: Capture
) -> None:
    """`--with` has all of them; words change one, and the side file keeps the result."""
    plan(tmp_path)
    assert imported(capfdbinary, tmp_path, "april.csv", *TERMS).status == 0
    done = imported(
        capfdbinary, tmp_path, "may.csv", "--with", tmp_path / "april.csv", "--overhead", "4500"
    )
    assert done.status == 0
    assert done.has("april.csv was told overhead 4000/day, bonus 50/day, penalty 900/day")
    card = TermsCard(overhead=4500, target=14, bonus=50, penalty=900)
    assert decks.read_deck(tmp_path / "may.csv").terms == card
    side = from_json(side_path(tmp_path / "may.csv").read_bytes(), "may.json")
    kept = Terms(Decimal(4500), Decimal(50), Decimal(900), date(2026, 9, 18))
    assert side.terms == kept
    edited = tmp_path / "may.csv"
    edited.write_bytes(edited.read_bytes().replace(b"TERMS,4500,", b"TERMS,1,"))
    last = ("--with", edited)
    assert imported(capfdbinary, tmp_path, "june.csv", *last).status == 0
    assert decks.read_deck(tmp_path / "june.csv").terms == card


def test_a_deck_of_the_last_import_needs_its_side_file(
    tmp_path: Path, capfdbinary: Capture
) -> None:
    """Without one nobody knows the terms."""
    plan(tmp_path)
    assert imported(capfdbinary, tmp_path, "april.csv").status == 0
    side_path(tmp_path / "april.csv").unlink()
    done = imported(capfdbinary, tmp_path, "may.csv", "--with", tmp_path / "april.csv")
    assert done.status == 1
    assert done.has("april.csv: there is no ")
    assert not (tmp_path / "may.csv").exists()


@pytest.mark.parametrize(
    ("words", "line"),
    [
        (("--bonus", "5", "--penalty", "9"), "--bonus and --penalty need the contract's date"),
        ((*TERMS[:4], "--bonus", "5"), "--bonus 5 is above --penalty 0"),
        (("--overhead", "4000/week"), "'4000/week' is no amount for a working day"),
        (("--overhead", "-4"), "'-4' is no amount for a working day"),
        (("--overhead", "4."), "'4.' is no amount for a working day"),
        (("--overhead", "1000000001"), "a deck has prices of time from 0 to 1000000000"),
    ],
)
def test_terms_that_make_no_sense_are_wrong_words(
    tmp_path: Path, capfdbinary: Capture, words: tuple[str, ...], line: str
) -> None:
    """Each has its line, and no deck is written."""
    plan(tmp_path)
    done = imported(capfdbinary, tmp_path, "april.csv", *words)
    assert done.status == 2
    assert done.has(line), done.lines
    assert not (tmp_path / "april.csv").exists()


@pytest.mark.parametrize(
    ("terms", "fault"),
    [
        ({"overhead": "-1"}, "terms.overhead: -1 is below zero"),
        ({"overhead": 4000}, "terms.overhead: it is no text"),
        ({"contract": "soon"}, "terms.contract: 'soon' is no date"),
        ({"target": 14}, "terms: unknown key 'target'"),
        ([], "terms is no object"),
    ],
)
def test_terms_of_a_side_file_are_checked(
    tmp_path: Path, capfdbinary: Capture, terms: object, fault: str
) -> None:
    """Each value has its type and bounds, and no key is unknown."""
    plan(tmp_path)
    assert imported(capfdbinary, tmp_path, "april.csv", *TERMS).status == 0
    held = json.loads(side_path(tmp_path / "april.csv").read_text())
    with pytest.raises(InputError, match=fault):
        from_json(json.dumps({**held, "terms": terms}).encode(), "april.json")
