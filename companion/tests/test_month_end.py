"""A month's end: lists of vouchers, amounts to go and progress become one state."""

from dataclasses import replace
from datetime import date
from decimal import Decimal
from pathlib import Path

import pytest
from hypothesis import given
from hypothesis import strategies as st
from running import deck_of
from test_ledger import ACCOUNTS, AMOUNTS, CENTS, DECK, vouchers_of

from pert_companion.importing.month_end import Books, Lists, close_month
from pert_companion.model.bookings import BookingKind
from pert_companion.model.deck import Deck
from pert_companion.model.errors import InputError
from pert_companion.model.ledger import Ledger, Voucher
from pert_companion.model.source import Source
from pert_companion.readers.base import ReaderOptions
from pert_companion.readers.estimates import (
    EstimateList,
    ProgressList,
    read_progress,
    read_to_go,
)
from pert_companion.readers.vouchers import VoucherList, read_vouchers
from pert_companion.state.implied import implied_side_file

MARCH = date(2026, 3, 31)
HEAD = "number,date,account,amount\n"


def books(text: str = DECK, ledger: Ledger | None = None) -> Books:
    """Returns a deck as if it had a side file in days, with a ledger or none."""
    deck = deck_of(text)
    side = implied_side_file(deck)
    return Books(deck, side, True, ledger or Ledger(), ledger is not None)


def vouchers(rows: str, name: str = "april.csv") -> VoucherList:
    """Returns a list of vouchers with the usual headings."""
    return read_vouchers(Source(Path(name), (HEAD + rows).encode()), ReaderOptions())


def to_go(rows: str) -> EstimateList:
    """Returns a list of amounts to go."""
    data = ("account,to go,date\n" + rows).encode()
    return read_to_go(Source(Path("togo.csv"), data), ReaderOptions(), MARCH)


def progress(rows: str) -> ProgressList:
    """Returns a list of progress."""
    data = ("task,percent,remaining,actual start,actual finish\n" + rows).encode()
    return read_progress(Source(Path("done.csv"), data), ReaderOptions())


def kinds(books_of: Books, lists: Lists, close: date | None = None) -> list[str]:
    """Returns the kinds of what is found."""
    return [finding.kind.value for finding in close_month(books_of, lists, close).findings]


def test_what_a_voucher_may_be_is_named_by_row() -> None:
    """An unknown account, a later day, a number used twice, a balance below zero, a broken row."""
    rows = """1,2026-03-10,FND,500
2,2026-03-11,FOO,7
3,2026-04-01,FND,50000
1,2026-03-12,WAL,60
4,2026-03-13,SUP,-5
5,2026-03-32,SUP,1
"""
    month = close_month(books(), Lists((vouchers(rows),)))
    found = [(finding.kind.value, finding.place) for finding in month.findings]
    assert found == [
        ("row", "april.csv: row 7"),
        ("number", "april.csv: row 5"),
        ("account", "april.csv: row 3"),
        ("later", "april.csv: row 4"),
        ("balance", "account SUP on 2026-03-13"),
    ]
    assert month.findings[1].why == "number '1' is in april.csv: row 2 too, with 500 on FND"
    line = month.sums.line("EUR")
    assert line == (
        "reconciled EUR: lists 50563 = new 50562 + known 0 + left out 1; ledger 50562 = deck 560"
        " + later 50000 + accounts not in the deck 7 + below zero -5"
    )


def test_a_closed_package_is_named() -> None:
    """DIG was finished on 5 March and needs nothing more; WAL has no amount to go."""
    closed = DECK.replace(
        "END",
        "STATUS,DIG,S,2026-03-02\nSTATUS,DIG,F,2026-03-06\nTOGO,FND,2026-03-31,0\nEND",
    )
    rows = "1,2026-03-05,FND,5\n2,2026-03-06,FND,5\n3,2026-03-06,WAL,5\n"
    month = close_month(books(closed), Lists((vouchers(rows),)))
    assert [(f.kind, f.place) for f in month.findings] == [(BookingKind.CLOSED, "april.csv: row 3")]
    assert "finished on 2026-03-05" in month.findings[0].why


def test_charges_of_no_ledger_are_named() -> None:
    """A deck with charges of its own keeps them only if they are those of its ledger."""
    own = DECK.replace("END", "CHARGE,FND,2026-03-15,600\nEND")
    month = close_month(books(own), Lists((vouchers("1,2026-03-10,FND,500\n"),)))
    assert [f.line() for f in month.findings] == [
        "the deck: its charges, 600, are in no ledger; replaced by the ledger's [charge]"
    ]
    again = replace(month.books, deck=month.books.deck)
    assert not kinds(again, Lists((vouchers("2,2026-03-11,FND,5\n"),)))
    edited = replace(again, deck=replace(again.deck, charges=again.deck.charges * 2))
    assert kinds(edited, Lists()) == ["charge"]


def test_two_currencies_in_two_lists() -> None:
    """A list in dollars after one in euros is refused in one line."""
    first = read_vouchers(
        Source(Path("a.csv"), b"date,account,amount\n2026-03-10,FND,5 EUR\n"),
        ReaderOptions(),
    )
    second = read_vouchers(
        Source(Path("b.csv"), b"date,account,amount\n2026-03-10,FND,5 USD\n"),
        ReaderOptions(),
    )
    with pytest.raises(InputError, match="b.csv: two currencies: USD, and EUR before it"):
        close_month(books(), Lists((first, second)))


def test_what_was_accepted_is_not_named_again() -> None:
    """FND was below zero on the 10th until the 20th; the next list brings nothing of that."""
    first = vouchers("1,2026-03-10,FND,-5\n2,2026-03-20,FND,30\n")
    month = close_month(books(), Lists((first,)))
    assert [finding.kind for finding in month.findings] == [BookingKind.BALANCE]
    again = vouchers("3,2026-03-25,FND,1\n")
    assert not close_month(month.books, Lists((again,))).findings
    deeper = vouchers("3,2026-03-09,FND,-1\n")
    found = close_month(month.books, Lists((deeper,))).findings
    assert [finding.place for finding in found] == ["account FND on 2026-03-09"]


@given(vouchers_of(CENTS), st.sampled_from((1, 100)))
def test_the_sums_add_up(listed: list[Voucher], scale: int) -> None:
    """Every voucher is in the deck, later, in no account, below zero, or in the rounding."""
    start = books()
    start = replace(start, side=replace(start.side, money_scale=scale))
    total = sum((voucher.amount for voucher in listed), Decimal(0))
    brought = VoucherList(tuple(listed), (), total, "", ())
    sums = close_month(start, Lists((brought,))).sums
    assert sums.listed == sums.ledger == total and sums.left_out == 0
    if scale == 100:
        assert sums.rounding == 0
    else:
        assert abs(sums.rounding) <= Decimal(len(ACCOUNTS)) / 2


@given(vouchers_of(AMOUNTS), vouchers_of(AMOUNTS), st.booleans())
def test_the_next_file_and_the_ledger_in_either_order(
    first: list[Voucher], second: list[Voucher], has_ledger: bool
) -> None:
    """Whether next month's deck comes before its vouchers or after them, the state is the same."""
    march = books(ledger=Ledger(tuple(first)) if has_ledger else None)
    april = deck_of(DECK.replace("ASOF,2026-04-01", "ASOF,2026-05-01").replace("2000", "2500"))
    numbered = [replace(voucher, number=f"N{at}") for at, voucher in enumerate(second)]
    brought = Lists((VoucherList(tuple(numbered), (), Decimal(0), "", ()),))
    vouchers_first = close_month(march, brought).books
    one = close_month(replace(vouchers_first, deck=april), Lists()).books
    file_first = close_month(replace(march, deck=april), Lists()).books
    other = close_month(file_first, brought).books
    assert one.deck == other.deck and one.ledger == other.ledger


def test_one_call_has_schedule_status_and_money() -> None:
    """Progress, amounts to go and vouchers as of 31 March."""
    lists = Lists(
        (vouchers("1,2026-03-30,FND,900\n2,2026-03-31,WAL,300\n"),),
        (to_go("FND,0,\nWAL,1600,2026-03-31\n"),),
        (progress("DIG,100,,2026-03-02,2026-03-05\nWALL,20,7 days,2026-03-27,\n"),),
    )
    early = DECK.replace("ASOF,2026-04-01\n", "")
    month = close_month(books(early), lists, MARCH)
    deck, side = month.books.deck, month.books.side
    assert not month.findings
    assert deck.as_of == date(2026, 4, 1) and side.data_date == MARCH
    assert statuses(deck) == {
        ("DIG", "S"): date(2026, 3, 2),
        ("DIG", "F"): date(2026, 3, 6),
        ("WALL", "S"): date(2026, 3, 27),
    }
    assert [(card.account, card.amount) for card in deck.to_go] == [
        ("FND", 0),
        ("WAL", 1600),
    ]
    wall = side.tasks[1]
    assert wall.percent == 20 and wall.remaining == 7 * 480
    assert month.sums.line("") == (
        "reconciled: lists 1200 = new 1200 + known 0; ledger 1200 = deck 1200"
    )


def statuses(deck: Deck) -> dict[tuple[str, str], date]:
    """Returns the dates of the STATUS cards."""
    return {(card.activity, card.letter): card.day for card in deck.statuses}


@pytest.mark.parametrize(
    ("row", "why"),
    (
        ("DIG,100,,2026-03-02,", "100 % without the day on which it finished"),
        ("DIG,50,,,", "no day on which it started"),
        ("DIG,50,,2026-03-02,2026-03-05", "finished on 2026-03-05 and 50 % complete"),
        ("DIG,,,2026-03-02,2026-04-01", "its finish, 2026-04-01, is not between"),
        ("DIG,,,2026-03-01,", "its start, 2026-03-01, is not between"),
        ("DIG,,,2026-03-05,2026-03-04", "before it started on 2026-03-05"),
    ),
)
def test_progress_that_makes_no_sense_is_left_out(row: str, why: str) -> None:
    """The row is named and the task stays as it was; the last day of March is so far."""
    month = close_month(books(), Lists(progress=(progress(row + "\n"),)))
    assert [finding.kind for finding in month.findings] == [BookingKind.PROGRESS]
    assert why in month.findings[0].why
    assert not month.books.deck.statuses


def test_the_evening_of_31_march_is_in_its_report() -> None:
    """Work finished on 31 March is finished at its close; work of 1 April is not."""
    done = progress("DIG,100,,2026-03-28,2026-03-31\n")
    month = close_month(books(), Lists(progress=(done,)))
    assert not month.findings
    assert statuses(month.books.deck)["DIG", "F"] == month.books.deck.as_of == date(2026, 4, 1)
    assert kinds(books(), Lists(progress=(progress("DIG,,,2026-03-28,2026-04-01\n"),))) == [
        "progress"
    ]


def test_unknown_tasks_and_accounts_of_lists_are_named() -> None:
    """A list may name a task twice, one that is not there, and an account that is not there."""
    lists = Lists(
        (),
        (to_go("FOO,5,\nFND,-5,\nFND,7,2026-04-01\n"),),
        (progress("DIG,,,2026-03-02,\nDIG,,,2026-03-03,\nGONE,,,2026-03-03,\n,5,,,\n"),),
    )
    assert kinds(books(), lists) == ["row", "task", "row", "task", "account", "later"]


def test_a_deck_by_hand_keeps_starts_and_finishes_alone() -> None:
    """Without a side file nothing keeps a percent of unfinished work."""
    own = replace(books(), has_side_file=False)
    found = close_month(own, Lists(progress=(progress("DIG,50,,2026-03-02,\n"),)))
    assert "only a side file keeps percent" in found.findings[0].why
    assert not kinds(own, Lists(progress=(progress("DIG,,,2026-03-02,\n"),)))


def test_tasks_under_way_without_a_row_are_counted() -> None:
    """DIG is under way and not in the list."""
    begun = books(DECK.replace("END", "STATUS,DIG,S,2026-03-02\nEND"))
    month = close_month(begun, Lists(progress=(progress("WALL,,,2026-03-03,\n"),)))
    assert month.notes == ("1 task that is under way and not in the list of progress: as before",)
    assert statuses(month.books.deck)["DIG", "S"] == date(2026, 3, 2)
