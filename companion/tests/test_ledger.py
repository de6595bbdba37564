"""Ledgers and the charges made of them, against sums worked out one by one."""

from dataclasses import replace
from datetime import date, timedelta
from decimal import Decimal
from fractions import Fraction
from pathlib import Path

import pytest
from hypothesis import given
from hypothesis import strategies as st
from running import deck_of

from pert_companion.carry.charges import Credit, close_of, with_ledger
from pert_companion.model.bookings import BookingKind
from pert_companion.model.deck import Deck
from pert_companion.model.errors import InputError
from pert_companion.model.ledger import (
    Ledger,
    ToGo,
    Voucher,
    find_ledger,
    ledger_path,
    parse_ledger,
    to_bytes,
)

ACCOUNTS = ("FND", "WAL", "SUP")
DECK = """PROJECT,P,s,e,2026-03-02,1,,Plan,2
ASOF,2026-04-01
WBS,W,,Work
WBS,A,W,Ground
WBS,B,W,Walls
WBS,C,W,Supervision
TASK,DIG,A,4,4,4,4,4,1000,0,Dig
TASK,WALL,B,9,9,9,9,9,2000,0,Walls
AFTER,WALL,DIG
ACCT,FND,A,1000,
ACCT,WAL,B,2000,
ACCT,SUP,C,500,
END
"""
DAYS = st.dates(date(2026, 3, 1), date(2026, 4, 10))
AMOUNTS = st.integers(-500, 900).map(lambda units: Decimal(units))
CENTS = st.integers(-50_000, 90_000).map(lambda cents: Decimal(cents) / 100)


def vouchers_of(
    amounts: st.SearchStrategy[Decimal],
) -> st.SearchStrategy[list[Voucher]]:
    """Returns lists of vouchers on the accounts of the deck and on one that it does not have."""
    accounts = st.sampled_from((*ACCOUNTS, "OTHER"))
    return st.lists(st.builds(Voucher, DAYS, accounts, amounts), max_size=12)


def deck() -> Deck:
    """Returns the deck of the tests."""
    return deck_of(DECK)


def balance(vouchers: list[Voucher], account: str, close: date) -> Decimal:
    """Returns the balance of an account, voucher by voucher."""
    total = Decimal(0)
    for voucher in vouchers:
        if voucher.account == account and voucher.day <= close:
            total += voucher.amount
    return total


def charged(booked: Deck, account: str, morning: date) -> int:
    """Returns what a deck has charged to an account by a morning."""
    return sum(c.amount for c in booked.charges if c.account == account and c.day <= morning)


@given(vouchers_of(AMOUNTS))
def test_a_deck_has_the_balances_of_its_ledger(vouchers: list[Voucher]) -> None:
    """At the data date each account has its balance, or 0 and a line that says it is below zero."""
    booked = with_ledger(deck(), Ledger(tuple(vouchers)), 1)
    named = [f.place for f in booked.findings if f.kind is BookingKind.BALANCE]
    for account in ACCOUNTS:
        exact = balance(vouchers, account, date(2026, 3, 31))
        assert charged(booked.deck, account, date(2026, 4, 1)) == max(Decimal(0), exact)
        if exact < 0:
            assert any(place.startswith(f"account {account} on ") for place in named)
    assert all(card.day <= date(2026, 4, 1) and card.amount > 0 for card in booked.deck.charges)


@given(vouchers_of(AMOUNTS))
def test_every_earlier_day_has_the_least_later_balance(vouchers: list[Voucher]) -> None:
    """A later credit takes from the past; without one each day has its own balance."""
    close = date(2026, 3, 31)
    booked = with_ledger(deck(), Ledger(tuple(vouchers)), 1)
    for account in ACCOUNTS:
        for back in range(31):
            day = close - timedelta(days=back)
            later = [balance(vouchers, account, day + timedelta(n)) for n in range(back + 1)]
            least = max(Decimal(0), min(later))
            assert charged(booked.deck, account, day + timedelta(days=1)) == least


@given(vouchers_of(CENTS))
def test_cents_are_kept_or_named(vouchers: list[Voucher]) -> None:
    """A deck in cents has each balance exactly; one in whole units rounds it and says so."""
    ledger = Ledger(tuple(vouchers))
    exact, rounded = with_ledger(deck(), ledger, 100), with_ledger(deck(), ledger, 1)
    named = {f.place.split()[1] for f in rounded.findings if f.kind is BookingKind.FRACTION}
    assert not [f for f in exact.findings if f.kind is BookingKind.FRACTION]
    for account in ACCOUNTS:
        held = max(Decimal(0), balance(vouchers, account, date(2026, 3, 31)))
        assert charged(exact.deck, account, date(2026, 4, 1)) == held * 100
        assert charged(rounded.deck, account, date(2026, 4, 1)) == round(Fraction(held))
        assert account in named or held == round(held)


@given(vouchers_of(AMOUNTS), st.lists(DAYS, min_size=3, max_size=3))
def test_booking_again_changes_nothing(vouchers: list[Voucher], days: list[date]) -> None:
    """The deck depends on the ledger and the data date alone, not on what it had before."""
    ledger = Ledger(tuple(vouchers), tuple(ToGo(day, "FND", Decimal(7)) for day in days))
    once = with_ledger(deck(), ledger, 1).deck
    assert with_ledger(once, ledger, 1).deck == once
    part = Ledger(tuple(vouchers[::2]), ledger.to_go[:1])
    assert with_ledger(with_ledger(deck(), part, 1).deck, ledger, 1).deck == once


def test_the_end_of_march_is_a_close_of_business() -> None:
    """Vouchers up to 31 March are in the report of 31 March, those of 1 April are not."""
    ledger = Ledger(
        (
            Voucher(date(2026, 3, 31), "FND", Decimal(600)),
            Voucher(date(2026, 4, 1), "FND", Decimal(50_000)),
        ),
        (
            ToGo(date(2026, 3, 31), "FND", Decimal(400)),
            ToGo(date(2026, 4, 1), "FND", Decimal(9)),
        ),
    )
    booked = with_ledger(deck(), ledger, 1).deck
    assert close_of(booked) == date(2026, 3, 31)
    assert [(card.day, card.amount) for card in booked.charges] == [(date(2026, 4, 1), 600)]
    assert [(card.day, card.amount) for card in booked.to_go] == [(date(2026, 4, 1), 400)]
    next_day = with_ledger(replace(booked, as_of=date(2026, 4, 2)), ledger, 1).deck
    assert charged(next_day, "FND", next_day.as_of_day) == 50_600


def test_a_credit_reduces_the_latest_charges_before_it() -> None:
    """700 of a credit are the 500 of the 20th and 200 of the 600 of the 10th."""
    ledger = Ledger(
        (
            Voucher(date(2026, 3, 10), "FND", Decimal(600)),
            Voucher(date(2026, 3, 20), "FND", Decimal(500)),
            Voucher(date(2026, 3, 25), "FND", Decimal(-700)),
        )
    )
    booked = with_ledger(deck(), ledger, 1)
    assert [(card.day, card.amount) for card in booked.deck.charges] == [(date(2026, 3, 11), 400)]
    taken = ((date(2026, 3, 20), 500), (date(2026, 3, 10), 200))
    assert booked.credits == (Credit("FND", date(2026, 3, 25), 700, taken),)


def test_accruals_net_with_their_reversals() -> None:
    """An accrual of 1000 that is reversed when the invoice of 940 comes leaves 940."""
    ledger = Ledger(
        (
            Voucher(date(2026, 2, 28), "WAL", Decimal(1000), "A1", "Accrual"),
            Voucher(date(2026, 3, 1), "WAL", Decimal(-1000), "A2", "Reversal"),
            Voucher(date(2026, 3, 4), "WAL", Decimal(940), "I7", "Invoice"),
        )
    )
    booked = with_ledger(deck(), ledger, 1)
    assert not booked.findings
    assert [(card.day, card.amount) for card in booked.deck.charges] == [(date(2026, 3, 5), 940)]


TEXTS = st.text(
    st.characters(blacklist_categories=("Cs",), blacklist_characters="\r\n\0"),
    max_size=8,
)
OTHERS = st.dictionaries(TEXTS.filter(bool), TEXTS.filter(bool), max_size=2)


@given(
    st.lists(
        st.builds(
            Voucher,
            DAYS,
            TEXTS,
            CENTS,
            TEXTS,
            TEXTS,
            TEXTS,
            st.integers(0, 9),
            OTHERS.map(lambda cells: tuple(sorted(cells.items()))),
        ),
        max_size=5,
    ),
    st.lists(st.builds(ToGo, DAYS, TEXTS, CENTS, TEXTS, st.integers(0, 9)), max_size=3),
)
def test_a_ledger_is_read_as_it_was_written(vouchers: list[Voucher], to_go: list[ToGo]) -> None:
    """Every row and cell comes back, also those that a spreadsheet would take for formulas."""
    ledger = Ledger(tuple(vouchers), tuple(to_go), (("account", "=Konto"),), "EUR")
    again = parse_ledger(to_bytes(ledger), "wing.ledger.csv")
    found = [replace(voucher, others=tuple(sorted(voucher.others))) for voucher in again.vouchers]
    assert found == vouchers
    assert again.to_go == tuple(to_go) and again.headings == ledger.headings
    assert again.currency == ("EUR" if vouchers or to_go else "")
    assert not any(
        line.startswith(("=", "+", "@")) for line in to_bytes(ledger).decode().split(",")
    )


@given(vouchers_of(AMOUNTS), vouchers_of(AMOUNTS))
def test_a_list_that_was_brought_is_known(first: list[Voucher], second: list[Voucher]) -> None:
    """Bringing a list again adds nothing, and lists in either order give the same balances."""
    one = Ledger().with_vouchers(first).ledger
    again = one.with_vouchers(first)
    assert again.ledger == one and not again.new and len(again.known) == len(first)
    numbered = [replace(voucher, number=f"N{at}") for at, voucher in enumerate(second)]
    either = one.with_vouchers(numbered).ledger
    other = Ledger().with_vouchers(numbered).ledger.with_vouchers(first).ledger
    assert with_ledger(deck(), either, 1).deck == with_ledger(deck(), other, 1).deck


def test_a_voucher_of_a_renamed_account_is_known() -> None:
    """The list of all vouchers calls January's by the account's code of today."""
    one = Voucher(date(2026, 1, 10), "FND", Decimal(600), "4711")
    today = replace(one, account="GROUND")
    brought = Ledger((one,)).with_vouchers([today], {"FND": "GROUND", "GROUND": "GROUND"})
    assert brought.known == (today,) and not brought.new and not brought.again
    assert Ledger((one,)).with_vouchers([today]).again == ((today, one),)


def test_a_number_that_is_used_twice_is_found() -> None:
    """The same number with another amount is another voucher."""
    one = Voucher(date(2026, 3, 10), "FND", Decimal(600), "4711")
    other = replace(one, amount=Decimal(60))
    brought = Ledger((one,)).with_vouchers([one, other])
    assert brought.known == (one,)
    assert brought.again == ((other, one),)


@pytest.mark.parametrize(
    ("data", "why"),
    (
        (b"", "its headings are not"),
        (b"a,b\n", "its headings are not"),
        (b"\xff\xfe", "no ledger"),
        (b'kind,"', "no ledger"),
    ),
)
def test_what_is_no_ledger_is_refused(data: bytes, why: str) -> None:
    """One line that names the file."""
    with pytest.raises(InputError, match=why):
        parse_ledger(data, "wing.ledger.csv")


@pytest.mark.parametrize(
    "row",
    (
        "voucher,2026-3-1,FND,1,,,,1,",
        "voucher,2026-03-01,FND,1e5,,,,1,",
        "payment,2026-03-01,FND,1,,,,1,",
        "voucher,2026-03-01,FND,1,,,1,",
    ),
)
def test_a_wrong_row_is_named(row: str) -> None:
    """The second row of the file is the first below the headings."""
    head = to_bytes(Ledger()).decode()
    with pytest.raises(InputError, match="wing.ledger.csv: row 2"):
        parse_ledger((head + row + "\n").encode(), "wing.ledger.csv")


def test_two_currencies_are_refused() -> None:
    """A ledger has one."""
    rows = "voucher,2026-03-01,FND,1,,,,1,EUR\nvoucher,2026-03-01,FND,1,,,,1,USD\n"
    with pytest.raises(InputError, match="two currencies: EUR, USD"):
        parse_ledger((to_bytes(Ledger()).decode() + rows).encode(), "wing.ledger.csv")


def test_the_ledger_is_next_to_its_deck(tmp_path: Path) -> None:
    """`wing.ledger.csv` for `wing.csv`; None without one."""
    path = tmp_path / "wing.csv"
    assert find_ledger(path) is None
    ledger = Ledger((Voucher(date(2026, 3, 1), "FND", Decimal("1.50")),), currency="EUR")
    ledger_path(path).write_bytes(to_bytes(ledger))
    assert ledger_path(path).name == "wing.ledger.csv"
    assert find_ledger(path) == ledger


def test_odd_balances_are_said_in_the_currency() -> None:
    """A deck in cents: half a cent, and 12.50 below zero, are no numbers of cents."""
    half = Voucher(date(2026, 3, 10), "FND", Decimal("64.005"))
    below = Voucher(date(2026, 3, 11), "WAL", Decimal("-12.5"))
    found = with_ledger(deck(), Ledger((half, below)), 100).findings
    assert [finding.why for finding in found] == [
        "64.005 is no whole number of units of money; it is rounded",
        "its balance is -12.50, below zero; the deck has 0",
    ]
    whole = with_ledger(deck(), Ledger((half,)), 1).findings
    assert "(a deck in cents: pert-import --cents)" in whole[0].why
