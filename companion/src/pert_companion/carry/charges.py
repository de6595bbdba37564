"""Makes CHARGE and TOGO cards from a ledger.

A deck's charges have no sign, and their dates are mornings: what was booked on a day is in by the
next morning, as work that was finished on it. On each account, what a day added to the balance is a
charge of that day; what it took away reduces the latest charges before it. So at the data date the
deck has the balance of each account, and accruals net with their reversals.
"""

from collections.abc import Iterable, Iterator, Mapping
from dataclasses import dataclass, field, replace
from datetime import date, timedelta
from decimal import Decimal
from fractions import Fraction

from pert_companion.carry.progress import morning_after
from pert_companion.model.bookings import BookingKind, Finding
from pert_companion.model.cards import AccountCard, ChargeCard, ToGoCard
from pert_companion.model.deck import Deck
from pert_companion.model.figures import currency_text, money_text
from pert_companion.model.ledger import Ledger, ToGo, Voucher

MAX_AMOUNT = 10**12


@dataclass(frozen=True)
class Credit:
    """A day on which the balance of an account fell, and the charges that this reduced."""

    account: str
    day: date
    amount: int
    """What the balance fell by, in units of money."""
    reduced: tuple[tuple[date, int], ...]
    """The days of the charges and what was taken from each, the latest first."""


@dataclass(frozen=True)
class Booked:
    """A deck with the money of its ledger."""

    deck: Deck
    credits: tuple[Credit, ...]
    findings: tuple[Finding, ...]

    @property
    def charged(self) -> int:
        """Returns the sum of the deck's charges, in units of money."""
        return sum(card.amount for card in self.deck.charges)


def close_of(deck: Deck) -> date:
    """Returns the close of business that a deck reports: the evening before its as-of morning."""
    return deck.as_of_day - timedelta(days=1)


def with_ledger(deck: Deck, ledger: Ledger, money_scale: int) -> Booked:
    """Returns the deck with the ledger's balances at its close of business.

    The deck's own charges are replaced, and its amounts to go of the accounts and days for which
    the ledger has an estimate. `money_scale` is how many units of money one of the currency is.
    """
    close = close_of(deck)
    books = _Books(deck, money_scale)
    for account, days in ledger.movements().items():
        if account in books.accounts:
            books.book(account, {day: days[day] for day in sorted(days) if day <= close})
    to_go = list(_to_go(deck, books, ledger.to_go, close))
    order = {account: at for at, account in enumerate(books.accounts)}
    charges = sorted(books.cards, key=lambda card: (card.day, order[card.account]))
    to_go.sort(key=lambda card: (card.day, order[card.account]))
    deck = replace(deck, charges=tuple(charges), to_go=tuple(to_go))
    return Booked(deck, tuple(books.credits), tuple(books.findings))


@dataclass
class _Books:
    """Makes the charges of a deck, account by account."""

    deck: Deck
    scale: int
    cards: list[ChargeCard] = field(default_factory=list)
    credits: list[Credit] = field(default_factory=list)
    findings: list[Finding] = field(default_factory=list)
    rounded: set[str] = field(default_factory=set)
    """The accounts whose balance was rounded; each is named once."""

    def __post_init__(self) -> None:
        self.accounts: dict[str, AccountCard] = {card.code: card for card in self.deck.accounts}

    def book(self, account: str, days: Mapping[date, Decimal]) -> None:
        """Adds the charges of an account whose movements are in the order of their days."""
        charges: list[tuple[date, int]] = []
        exact, before = Fraction(0), 0
        negative = False
        for day, moved in days.items():
            exact += Fraction(moved) * self.scale
            balance = self._units(account, day, exact)
            if balance < 0 and not negative:
                self._find_negative(account, day, exact)
            negative = balance < 0
            now = max(0, balance)
            if now > before:
                charges.append((day, now - before))
            elif now < before:
                taken = tuple(_take(charges, before - now))
                self.credits.append(Credit(account, day, before - now, taken))
            before = now
        for day, amount in charges:
            self.cards.append(ChargeCard(account, morning_after(day), amount))

    def units(self, place: str, amount: Decimal) -> int:
        """Returns an amount of the currency in whole units of money; a rounded one is a finding."""
        exact = Fraction(amount) * self.scale
        if exact != round(exact):
            self._find_fraction(place, exact)
        return round(exact)

    def _units(self, account: str, day: date, exact: Fraction) -> int:
        found = round(exact)
        if found != exact and account not in self.rounded:
            self.rounded.add(account)
            self._find_fraction(f"account {account} on {day}", exact)
        if abs(found) > MAX_AMOUNT:
            balance, most = money_text(found, self.scale), money_text(MAX_AMOUNT, self.scale)
            why = f"the balance {balance} is more than a deck can have, {most}"
            self.findings.append(Finding(BookingKind.BALANCE, f"account {account} on {day}", why))
            return MAX_AMOUNT if found > 0 else 0
        return found

    def _find_fraction(self, place: str, exact: Fraction) -> None:
        hint = " (a deck in cents: pert-import --cents)" if self.scale == 1 else ""
        why = f"{self._currency(exact)} is no whole number of units of money; it is rounded{hint}"
        self.findings.append(Finding(BookingKind.FRACTION, place, why))

    def _find_negative(self, account: str, day: date, exact: Fraction) -> None:
        why = f"its balance is {self._currency(exact)}, below zero; the deck has 0"
        self.findings.append(Finding(BookingKind.BALANCE, f"account {account} on {day}", why))

    def _currency(self, exact: Fraction) -> str:
        """Returns units of money of the deck in the currency, with all their decimals."""
        return currency_text(Decimal(exact.numerator) / exact.denominator / self.scale)


def _take(charges: list[tuple[date, int]], amount: int) -> Iterator[tuple[date, int]]:
    """Takes an amount from the latest charges, which add up to at least it; yields the parts."""
    while amount > 0:
        day, held = charges.pop()
        part = min(held, amount)
        if held > part:
            charges.append((day, held - part))
        amount -= part
        yield day, part


def _to_go(deck: Deck, books: _Books, estimates: Iterable[ToGo], close: date) -> Iterator[ToGoCard]:
    """Yields the deck's amounts to go, those of the ledger in the place of others of their day."""
    found = {(card.account, card.day): card for card in deck.to_go}
    for estimate in estimates:
        if estimate.day > close or estimate.account not in books.accounts:
            continue
        morning = morning_after(estimate.day)
        amount = books.units(estimate.place, estimate.amount)
        found[estimate.account, morning] = ToGoCard(estimate.account, morning, max(0, amount))
    yield from found.values()


def booking_findings(
    deck: Deck, vouchers: Iterable[Voucher], finished: Mapping[str, date]
) -> Iterator[Finding]:
    """Yields what is odd about new vouchers: unknown accounts, closed packages, later days.

    `finished` has the last day of work of each package whose work is all finished.
    """
    accounts = {card.code: card for card in deck.accounts}
    close = close_of(deck)
    done = _done_accounts(deck)
    for voucher in vouchers:
        card = accounts.get(voucher.account)
        if card is None:
            why = f"the deck has no account {voucher.account[:40]!r}; in the ledger alone"
            yield Finding(BookingKind.ACCOUNT, voucher.place, why)
            continue
        last = finished.get(card.item)
        if last is not None and voucher.account in done and voucher.day > last:
            why = f"package {card.item} was finished on {last} and needs nothing more"
            yield Finding(BookingKind.CLOSED, voucher.place, why)
        if voucher.day > close:
            why = f"{voucher.day} is after the data date {close}; in the ledger alone until then"
            yield Finding(BookingKind.LATER, voucher.place, why)


def _done_accounts(deck: Deck) -> set[str]:
    """Returns the accounts whose latest amount to go up to the as-of date is 0."""
    latest: dict[str, ToGoCard] = {}
    for card in deck.to_go:
        held = latest.get(card.account)
        if card.day <= deck.as_of_day and (held is None or held.day <= card.day):
            latest[card.account] = card
    return {account for account, card in latest.items() if card.amount == 0}


def finished_packages(deck: Deck) -> dict[str, date]:
    """Returns the last day of work of each package all of whose activities are finished.

    Dummies and activities without duration and cost count for nothing.
    """
    days = {card.activity: card.day for card in deck.statuses if card.letter == "F"}
    found: dict[str, date] = {}
    unfinished = set()
    for card in deck.work:
        if card.code not in days:
            if card.normal or card.cost:
                unfinished.add(card.item)
            continue
        last = days[card.code] - timedelta(days=1)
        found[card.item] = max(last, found.get(card.item, last))
    return {item: last for item, last in found.items() if item not in unfinished}
