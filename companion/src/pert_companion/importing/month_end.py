"""A month's end: vouchers, amounts to go and progress become one state of the project.

The order of the steps is that of the data: the data date, the progress of tasks, the vouchers, and
then the money of the deck from the whole ledger.
"""

from collections.abc import Iterable, Iterator, Sequence
from dataclasses import dataclass, replace
from datetime import date
from decimal import Decimal
from fractions import Fraction
from itertools import chain

from pert_companion.carry.charges import (
    Booked,
    booking_findings,
    close_of,
    finished_packages,
    with_ledger,
)
from pert_companion.carry.reporting import as_of_close, with_progress
from pert_companion.model.bookings import BookingKind, Finding
from pert_companion.model.deck import Deck
from pert_companion.model.errors import InputError
from pert_companion.model.figures import currency_text
from pert_companion.model.ledger import Ledger, ToGo
from pert_companion.model.registers import Renames
from pert_companion.model.sidefile import SideFile, SideTask
from pert_companion.model.text_form import PLAIN, TextForm
from pert_companion.readers.estimates import EstimateList, ProgressList
from pert_companion.readers.vouchers import CURRENCY_CODES, VoucherList


@dataclass(frozen=True)
class Books:
    """A deck with its side file and its ledger."""

    deck: Deck
    side: SideFile
    has_side_file: bool
    ledger: Ledger
    has_ledger: bool = True
    renames: Renames = Renames()

    @property
    def names(self) -> dict[str, str]:
        """Returns the code that the deck has for each account of any state."""
        return self.renames.names_of(account.code for account in self.deck.accounts)

    @property
    def booked_ledger(self) -> Ledger:
        """Returns the ledger with its accounts by the codes that the deck has for them."""
        return self.ledger.renamed(self.names)


@dataclass(frozen=True)
class Lists:
    """What a month's end brings."""

    vouchers: tuple[VoucherList, ...] = ()
    to_go: tuple[EstimateList, ...] = ()
    progress: tuple[ProgressList, ...] = ()
    headings: tuple[tuple[str, str], ...] = ()
    """The fields whose headings the user named, to be remembered."""

    @property
    def all(self) -> tuple[VoucherList | EstimateList | ProgressList, ...]:
        """Returns all lists, in the order in which they are taken."""
        return (*self.vouchers, *self.to_go, *self.progress)


@dataclass(frozen=True)
class Sums:
    """The sums of lists, ledger and deck, in the currency."""

    listed: Decimal
    new: Decimal
    known: Decimal
    ledger: Decimal
    charged: Decimal
    """The charges of the deck."""
    later: Decimal
    """Vouchers after the data date, of accounts of the deck."""
    unknown: Decimal
    """Vouchers of accounts that the deck does not have."""
    below_zero: Decimal
    """The balances below zero, for which the deck has 0."""

    @property
    def left_out(self) -> Decimal:
        """Returns what of the lists is in no voucher."""
        return self.listed - self.new - self.known

    @property
    def rounding(self) -> Decimal:
        """Returns what balances were rounded by."""
        return self.ledger - self.charged - self.later - self.unknown - self.below_zero

    def line(self, currency: str, form: TextForm = PLAIN) -> str:
        """Returns the line that reconciles lists, ledger and deck; parts of 0 are left out."""
        lists = _sum("lists", self.listed, [("new", self.new), ("known", self.known)], form)
        lists += _parts([("left out", self.left_out)], form)
        parts = [("later", self.later), ("accounts not in the deck", self.unknown)]
        parts += [("below zero", self.below_zero), ("rounding", self.rounding)]
        books = _sum("ledger", self.ledger, [("deck", self.charged)], form) + _parts(parts, form)
        unit = f" {currency}" if currency else ""
        return f"reconciled{unit}: {lists}; {books}"


def _sum(name: str, total: Decimal, parts: Iterable[tuple[str, Decimal]], form: TextForm) -> str:
    texts = [f"{word} {form.currency(amount)}" for word, amount in parts]
    return f"{name} {form.currency(total)} = {' + '.join(texts)}"


def _parts(parts: Iterable[tuple[str, Decimal]], form: TextForm) -> str:
    return "".join(f" + {word} {form.currency(amount)}" for word, amount in parts if amount)


@dataclass(frozen=True)
class MonthEnd:
    """The new state, what of the lists it does not take as it is, and the sums."""

    books: Books
    booked: Booked
    findings: tuple[Finding, ...]
    notes: tuple[str, ...]
    sums: Sums
    count: int
    """How many vouchers are new."""


def close_month(books: Books, lists: Lists, close: date | None = None) -> MonthEnd:
    """Returns the state at a close of business with what the lists bring.

    Without `close` it is that of the deck. What was odd about the ledger before is not named again:
    it was accepted when it was booked. Raises `InputError` if a list has another currency.
    """
    before = with_ledger(books.deck, books.booked_ledger, books.side.money_scale)
    findings: list[Finding] = list(_own_charges(books, before))
    deck, side = books.deck, books.side
    if close is not None:
        deck, side = as_of_close(deck, side, close)
    reported = list(chain.from_iterable(each.reported for each in lists.progress))
    progressed = with_progress(deck, side, reported, books.has_side_file)
    deck, side = progressed.deck, progressed.side
    findings.extend(_list_findings(lists))
    findings.extend(progressed.findings)
    ledger, known, new = _brought(books, lists, findings)
    estimates = list(chain.from_iterable(each.estimates for each in lists.to_go))
    ledger = ledger.with_to_go(estimates).with_headings(lists.headings)
    state = replace(books, deck=deck, side=side, ledger=ledger, has_ledger=True)
    held = state.booked_ledger
    added = held.vouchers[len(held.vouchers) - new :]
    findings.extend(booking_findings(deck, added, finished_packages(deck)))
    findings.extend(_unknown_estimates(deck, held, estimates))
    booked = with_ledger(deck, held, side.money_scale)
    findings.extend(each for each in booked.findings if each not in before.findings)
    state = replace(state, deck=booked.deck, side=side if books.has_side_file else books.side)
    notes = tuple(_notes(lists, progressed.silent if reported else ()))
    return MonthEnd(state, booked, tuple(findings), notes, _sums(state, lists, known, new), new)


def _own_charges(books: Books, booked: Booked) -> Iterator[Finding]:
    """Yields a finding if the deck has charges that its ledger, as `booked` has it, has not."""
    deck = books.deck
    if deck.charges and booked.deck.charges != deck.charges:
        held = Decimal(sum(card.amount for card in deck.charges)) / books.side.money_scale
        what = "are not those of its ledger" if books.has_ledger else "are in no ledger"
        why = f"its charges, {currency_text(held)}, {what}; replaced by the ledger's"
        yield Finding(BookingKind.CHARGE, "the deck", why)


def _list_findings(lists: Lists) -> Iterator[Finding]:
    for each in lists.all:
        yield from each.findings


def _brought(books: Books, lists: Lists, findings: list[Finding]) -> tuple[Ledger, Decimal, int]:
    """Returns the ledger with all vouchers, the sum of those it had, and how many are new."""
    ledger, names = books.ledger, books.names
    known, new = Decimal(0), 0
    for each in lists.vouchers:
        ledger = _with_currency(ledger, each, books.side.currency)
        brought = ledger.with_vouchers(each.vouchers, names)
        ledger = brought.ledger
        known += sum((voucher.amount for voucher in brought.known), Decimal(0))
        new += len(brought.new)
        for voucher, other in brought.again:
            why = (
                f"number {voucher.number[:40]!r} is in {other.place} too, with"
                f" {currency_text(other.amount)} on {other.account}"
            )
            findings.append(Finding(BookingKind.NUMBER, voucher.place, why))
    return ledger, known, new


def _with_currency(ledger: Ledger, brought: VoucherList, own: str) -> Ledger:
    """Returns the ledger with the currency of a list, which is the one of all others."""
    own = CURRENCY_CODES.get(own, own)
    expected = ledger.currency or own
    if brought.currency and expected and brought.currency != expected:
        file = brought.vouchers[0].source
        raise InputError(f"{file}: two currencies: {brought.currency}, and {expected} before it")
    return replace(ledger, currency=ledger.currency or brought.currency)


def _unknown_estimates(deck: Deck, held: Ledger, brought: Sequence[ToGo]) -> Iterator[Finding]:
    """Yields the amounts to go that were brought and are not in the deck."""
    accounts = {card.code for card in deck.accounts}
    close = close_of(deck)
    places = {estimate.place for estimate in brought}
    for estimate in held.to_go:
        if estimate.place not in places:
            continue
        if estimate.account not in accounts:
            why = f"the deck has no account {estimate.account[:40]!r}; in the ledger alone"
            yield Finding(BookingKind.ACCOUNT, estimate.place, why)
        elif estimate.day > close:
            why = f"{estimate.day} is after the data date {close}; in the ledger alone until then"
            yield Finding(BookingKind.LATER, estimate.place, why)


def _notes(lists: Lists, silent: Sequence[SideTask]) -> Iterator[str]:
    for each in lists.all:
        yield from each.notes
    count = len(silent)
    if count:
        tasks = "1 task that is" if count == 1 else f"{count} tasks that are"
        yield f"{tasks} under way and not in the list of progress: as before"


def _sums(state: Books, lists: Lists, known: Decimal, new: int) -> Sums:
    ledger, deck = state.booked_ledger, state.deck
    close = close_of(deck)
    accounts = {card.code for card in deck.accounts}
    later = unknown = Decimal(0)
    for voucher in ledger.vouchers:
        if voucher.account not in accounts:
            unknown += voucher.amount
        elif voucher.day > close:
            later += voucher.amount
    balances = ledger.balances(close)
    below = [amount for code, amount in balances.items() if code in accounts and amount < 0]
    charged = Fraction(sum(card.amount for card in deck.charges), state.side.money_scale)
    added = ledger.vouchers[len(ledger.vouchers) - new :]
    return Sums(
        listed=sum((each.total for each in lists.vouchers), Decimal(0)),
        new=sum((voucher.amount for voucher in added), Decimal(0)),
        known=known,
        ledger=sum((voucher.amount for voucher in ledger.vouchers), Decimal(0)),
        charged=Decimal(charged.numerator) / charged.denominator,
        later=later,
        unknown=unknown,
        below_zero=sum(below, Decimal(0)),
    )
