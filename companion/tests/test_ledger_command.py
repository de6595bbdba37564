"""`pert-ledger` from files to files."""

from pathlib import Path

import pytest
from running import EXAMPLES, Outcome, run_words

from pert_companion.cli import compare, importing, ledger
from pert_companion.model.ledger import find_ledger

LISTS = EXAMPLES / "pump" / "lists"
PLAN = ("--name", "Pump station", "--start", "2026-01-05", "--cents")
Capture = pytest.CaptureFixture[bytes]


def book(capture: Capture, *words: object) -> Outcome:
    """Runs pert-ledger."""
    return run_words(capture, ledger.NAME, (ledger.parser, ledger.run), words)


def plan(capture: Capture, deck: Path, name: str = "plan.csv", *words: str) -> None:
    """Imports a list of the pump station."""
    command = (importing.parser, importing.run)
    given = [LISTS / name, *PLAN, "-o", deck, *words]
    assert run_words(capture, importing.NAME, command, given).status == 0


def test_a_month_in_either_order(tmp_path: Path, capfdbinary: Capture) -> None:
    """Vouchers and then the plan of the month, or the plan and then its vouchers: one state."""
    decks = [tmp_path / name for name in ("one.csv", "other.csv")]
    later = "--accept", "later", "--overwrite"
    month = ("--as-of", "2026-01-31")
    vouchers = LISTS / "january-vouchers.csv"
    plan(capfdbinary, decks[0])
    assert book(capfdbinary, decks[0], vouchers, "-o", decks[0], *later).status == 1
    assert find_ledger(decks[0]) is None
    accepted = "--accept", "account,later", "--overwrite"
    assert book(capfdbinary, decks[0], vouchers, "-o", decks[0], *accepted).status == 0
    plan(capfdbinary, decks[0], "plan.csv", *month)
    plan(capfdbinary, decks[1], "plan.csv", *month)
    again = "--accept", "account", "--overwrite"
    assert book(capfdbinary, decks[1], vouchers, "-o", decks[1], *again).status == 0
    assert decks[0].read_bytes() == decks[1].read_bytes()
    assert find_ledger(decks[0]) == find_ledger(decks[1])


def test_what_is_odd_is_named_and_nothing_is_written(tmp_path: Path, capfdbinary: Capture) -> None:
    """Supervision is no account of a deck without packages.csv; later vouchers are later."""
    deck = tmp_path / "pump.csv"
    plan(capfdbinary, deck)
    before = deck.read_bytes()
    found = book(capfdbinary, deck, LISTS / "january-vouchers.csv", "-o", deck, "--overwrite")
    assert found.status == 1 and deck.read_bytes() == before
    lines = found.errors.splitlines()
    assert len(lines) == 6 and lines[-1].endswith("nothing is written")
    assert "row 5: the deck has no account 'Super'; in the ledger alone [account]" in found.errors
    tried = book(
        capfdbinary,
        deck,
        LISTS / "january-vouchers.csv",
        "--accept",
        "account",
        "--as-of",
        "2026-01-31",
    )
    assert tried.status == 0 and "nothing is written; say -o DECK" in tried.errors
    assert "ledger 89250.50 = deck 80050.50 + accounts not in the deck 9200" in tried.errors


def test_a_deck_is_not_written_over_by_accident(tmp_path: Path, capfdbinary: Capture) -> None:
    """The deck that is read, and a list in the place of the ledger."""
    deck = tmp_path / "pump.csv"
    plan(capfdbinary, deck)
    vouchers = LISTS / "january-vouchers.csv"
    assert book(capfdbinary, deck, vouchers, "-o", deck).status == 2
    (tmp_path / "new.ledger.csv").write_bytes(vouchers.read_bytes())
    found = book(capfdbinary, deck, vouchers, "-o", tmp_path / "new.csv")
    assert found.status == 2 and "there is a file that is not a ledger" in found.errors
    wrong = book(capfdbinary, deck, vouchers, "--accept", "everything")
    assert wrong.status == 2 and "'everything' is none of row, account" in wrong.errors


def test_headings_are_named_once(tmp_path: Path, capfdbinary: Capture) -> None:
    """Those of vouchers and of amounts to go are known next month, in another order."""
    deck, january, february = (tmp_path / name for name in ("pump.csv", "jan.csv", "feb.csv"))
    vouchers, to_go = tmp_path / "v.csv", tmp_path / "t.csv"
    plan(capfdbinary, deck)
    vouchers.write_text("Wann;Wohin;Konto;Betrag\n16.01.2026;Ground;4711;100,50\n")
    to_go.write_text("Wohin;Rest\nGround;50000\n")
    lists = (vouchers, "--to-go", to_go)
    unnamed = book(capfdbinary, deck, *lists, "--as-of", "2026-01-31", "-o", january)
    assert unnamed.status == 1 and "no column 'date'; name yours" in unnamed.errors
    names = ("date=Wann", "account=Wohin", "to-go=Rest")
    columns = [word for name in names for word in ("--column", name)]
    words = [deck, *lists, *columns, "--as-of", "2026-01-31", "-o", january]
    assert book(capfdbinary, *words).status == 0
    vouchers.write_text("Betrag;Konto;Wohin;Wann\n7,25;4711;Shaft;16.02.2026\n")
    to_go.write_text("Rest;Wohin\n7000;Shaft\n")
    found = book(capfdbinary, january, *lists, "--as-of", "2026-02-28", "-o", february)
    assert found.status == 0, found.errors
    ledger = find_ledger(february)
    assert ledger is not None and ledger.vouchers[-1].account == "Shaft"
    assert [each.account for each in ledger.to_go] == ["Ground", "Shaft"]
    wrong = book(capfdbinary, deck, vouchers, "--column", "what=Wann")
    assert wrong.status == 2 and "'what' is none of date, account" in wrong.errors


HAND = """PROJECT,P,s,e,2026-03-02,1,,Plan,2
WBS,W,,Work
WBS,A,W,Ground
TASK,DIG,A,40,40,40,40,40,1000,0,Dig
ACCT,FND,A,1000,Ground
END
"""


def test_a_deck_by_hand_with_a_ledger_is_known_by_its_closes(
    tmp_path: Path, capfdbinary: Capture
) -> None:
    """At the close of 31 March 600 are spent in every table; the 50,000 of 1 April are later."""
    deck, march = tmp_path / "plan.csv", tmp_path / "march.csv"
    deck.write_text(HAND)
    vouchers, done = tmp_path / "v.csv", tmp_path / "done.csv"
    vouchers.write_text("Date,Account,Amount\n2026-03-31,FND,600\n2026-04-01,FND,50000\n")
    done.write_text("Task,Actual start\nDIG,2026-03-02\n")
    words = [deck, vouchers, "--progress", done, "--as-of", "2026-03-31", "--accept", "later"]
    booked = book(capfdbinary, *words, "-o", march)
    assert booked.status == 0 and "at the close of 2026-03-31" in booked.errors
    command = (compare.parser, compare.run)
    for more in ((), ("--earned",)):
        table = run_words(capfdbinary, compare.NAME, command, [deck, march, *more]).output
        assert "2026-03-31" in table and "2026-04-01" not in table
    money = run_words(capfdbinary, compare.NAME, command, [deck, march, "--money", "--csv"]).output
    days = {row.split(",")[0]: row.split(",")[2] for row in money.splitlines()}
    assert days["2026-03-31"] == "600" and days["2026-04-01"] == ""
    months = [deck, march, "--earned", "--lines", "months", "--csv"]
    rows = run_words(capfdbinary, compare.NAME, command, months).output.splitlines()
    assert rows[1] == "FND,2026-03-31,750,750,600,,"  # 30 of 40 days
