"""The ledger of a project: its vouchers and estimates of what is to go, each as it was brought.

A day of a voucher is a close of business: the balance of a day has all vouchers up to that day. An
amount is in the currency, a credit is negative. The ledger is kept next to the deck
(`wing.csv`, `wing.ledger.csv`) and is never thinned out: CHARGE cards are made from it again.
"""

import csv
import io
from collections import Counter
from collections.abc import Iterable, Iterator, Mapping
from dataclasses import dataclass, field, replace
from datetime import date
from decimal import Decimal, InvalidOperation
from itertools import chain
from pathlib import Path

from pert_companion.model.errors import InputError
from pert_companion.model.lines import csv_bytes
from pert_companion.model.source import read_bytes, shown_name
from pert_companion.model.strict import parse_day

MOST_BYTES = 256 * 1024 * 1024
_COLUMNS = (
    "kind",
    "date",
    "account",
    "amount",
    "number",
    "text",
    "source",
    "row",
    "currency",
)
_VOUCHER = "voucher"
_TO_GO = "to go"
_HEADING = "heading"
_STARTERS = ("=", "+", "-", "@", "\t", "\r", "'")


@dataclass(frozen=True)
class Voucher:
    """One row of an accounting system."""

    day: date
    account: str
    amount: Decimal
    """In the currency; a credit is negative."""
    number: str = ""
    text: str = ""
    source: str = ""
    """The name of the file it came from."""
    row: int = 0
    """Its row in that file."""
    others: tuple[tuple[str, str], ...] = ()
    """The headings and cells of the columns that have no meaning here."""

    @property
    def place(self) -> str:
        """Returns the file and the row, for messages."""
        return f"{self.source}: row {self.row}"

    def entry(self, names: Mapping[str, str]) -> tuple[str, date, str, Decimal, str]:
        """Returns what makes two rows the same voucher, wherever they came from.

        `names` are the codes of today of accounts that were renamed.
        """
        text = "" if self.number else self.text
        account = names.get(self.account, self.account)
        return self.number, self.day, account, self.amount, text


@dataclass(frozen=True)
class ToGo:
    """What an account still needs, as estimated at the close of a day, in the currency."""

    day: date
    account: str
    amount: Decimal
    source: str = ""
    row: int = 0

    @property
    def place(self) -> str:
        """Returns the file and the row, for messages."""
        return f"{self.source}: row {self.row}"


@dataclass(frozen=True)
class Ledger:
    """All vouchers and estimates of a project, in the order in which they were brought."""

    vouchers: tuple[Voucher, ...] = ()
    to_go: tuple[ToGo, ...] = ()
    headings: tuple[tuple[str, str], ...] = ()
    """The heading of each field that the user named, for the next list."""
    currency: str = ""

    def until(self, close: date) -> "Ledger":
        """Returns the ledger at a close of business, without what is dated later."""
        vouchers = tuple(voucher for voucher in self.vouchers if voucher.day <= close)
        estimates = tuple(estimate for estimate in self.to_go if estimate.day <= close)
        return replace(self, vouchers=vouchers, to_go=estimates)

    def renamed(self, names: Mapping[str, str]) -> "Ledger":
        """Returns the ledger with the accounts by their codes of today, where `names` has them."""
        vouchers = [replace(v, account=names.get(v.account, v.account)) for v in self.vouchers]
        to_go = [replace(e, account=names.get(e.account, e.account)) for e in self.to_go]
        return replace(self, vouchers=tuple(vouchers), to_go=tuple(to_go))

    def balances(self, close: date) -> dict[str, Decimal]:
        """Returns the balance of each account at a close of business."""
        found: dict[str, Decimal] = {}
        for voucher in self.vouchers:
            if voucher.day <= close:
                found[voucher.account] = found.get(voucher.account, Decimal(0)) + voucher.amount
        return found

    def movements(self) -> dict[str, dict[date, Decimal]]:
        """Returns what was booked on each account by day; accounts in the order of vouchers."""
        found: dict[str, dict[date, Decimal]] = {}
        for voucher in self.vouchers:
            days = found.setdefault(voucher.account, {})
            days[voucher.day] = days.get(voucher.day, Decimal(0)) + voucher.amount
        return found

    def with_vouchers(
        self, brought: Iterable[Voucher], names: Mapping[str, str] | None = None
    ) -> "Brought":
        """Returns the ledger with the vouchers of a list; those that it has are known.

        A row that the ledger has twice is known twice. `names` are the codes of today of accounts
        that were renamed, by which the accounting system may call vouchers of earlier months too.
        """
        today = names or {}
        held = Counter(voucher.entry(today) for voucher in self.vouchers)
        numbers = {voucher.number: voucher for voucher in self.vouchers if voucher.number}
        new: list[Voucher] = []
        known: list[Voucher] = []
        again: list[tuple[Voucher, Voucher]] = []
        for voucher in brought:
            entry = voucher.entry(today)
            if held[entry] > 0:
                held[entry] -= 1
                known.append(voucher)
                continue
            new.append(voucher)
            if voucher.number in numbers:
                again.append((voucher, numbers[voucher.number]))
            elif voucher.number:
                numbers[voucher.number] = voucher
        ledger = replace(self, vouchers=(*self.vouchers, *new))
        return Brought(ledger, tuple(new), tuple(known), tuple(again))

    def with_to_go(self, brought: Iterable[ToGo]) -> "Ledger":
        """Returns the ledger with further estimates; a later one of an account and day holds."""
        found = {(estimate.account, estimate.day): estimate for estimate in self.to_go}
        found.update({(estimate.account, estimate.day): estimate for estimate in brought})
        return replace(self, to_go=tuple(found.values()))

    def with_headings(self, named: Iterable[tuple[str, str]]) -> "Ledger":
        """Returns the ledger with headings of fields, which take the place of older ones."""
        return replace(self, headings=tuple((dict(self.headings) | dict(named)).items()))


@dataclass(frozen=True)
class Brought:
    """A ledger to which a list was added."""

    ledger: Ledger
    new: tuple[Voucher, ...]
    known: tuple[Voucher, ...]
    """Rows of the list that the ledger had already."""
    again: tuple[tuple[Voucher, Voucher], ...]
    """New vouchers whose number an earlier voucher has, each with that one."""


def ledger_path(deck: Path) -> Path:
    """Returns the path of the ledger of a deck: `wing.ledger.csv` for `wing.csv`."""
    return deck.with_suffix(".ledger.csv")


def find_ledger(deck: Path) -> Ledger | None:
    """Returns the ledger next to a deck, or None if there is none."""
    path = ledger_path(deck)
    return read_ledger(path) if path.is_file() else None


def read_ledger(path: Path) -> Ledger:
    """Returns the ledger of a file; `InputError` if it is none."""
    return parse_ledger(read_bytes(path, MOST_BYTES, "ledger"), shown_name(path))


def to_bytes(ledger: Ledger) -> bytes:
    """Returns a ledger as CSV in UTF-8: named headings, vouchers, then estimates."""
    return csv_bytes(_rows(ledger))


def _rows(ledger: Ledger) -> Iterator[list[str]]:
    columns = chain.from_iterable(voucher.others for voucher in ledger.vouchers)
    others = dict.fromkeys(name for name, _ in columns)
    yield [*_COLUMNS, *map(_guarded, others)]
    blank = [""] * len(others)
    for name, heading in ledger.headings:
        cells = [_HEADING, "", name, "", "", heading, "", "", ""]
        yield [*map(_guarded, cells), *blank]
    for voucher in ledger.vouchers:
        yield _voucher_row(voucher, ledger.currency, others)
    for estimate in ledger.to_go:
        yield [*_row(_TO_GO, estimate, ("", ""), ledger.currency), *blank]


def _voucher_row(voucher: Voucher, currency: str, others: Mapping[str, None]) -> list[str]:
    cells = dict(voucher.others)
    row = _row(_VOUCHER, voucher, (voucher.number, voucher.text), currency)
    return [*row, *(_guarded(cells.get(name, "")) for name in others)]


def _row(kind: str, booked: Voucher | ToGo, words: tuple[str, str], currency: str) -> list[str]:
    texts = [*words, booked.source, str(booked.row), currency]
    day, amount = booked.day.isoformat(), f"{booked.amount:f}"
    return [kind, day, _guarded(booked.account), amount, *map(_guarded, texts)]


def _guarded(text: str) -> str:
    """Returns a text that no spreadsheet takes for a formula; `_plain` takes it back."""
    return f"'{text}" if text.startswith(_STARTERS) else text


def _plain(text: str) -> str:
    return text[1:] if text[:1] == "'" and text[1:].startswith(_STARTERS) else text


def parse_ledger(data: bytes, name: str) -> Ledger:
    """Returns the ledger that `to_bytes` wrote; `InputError` names the first wrong row."""
    try:
        rows = list(csv.reader(io.StringIO(data.decode("utf-8-sig"), newline=""), strict=True))
    except (UnicodeDecodeError, csv.Error) as error:
        raise InputError(f"{name}: no ledger: {error}") from None
    if not rows or tuple(rows[0][: len(_COLUMNS)]) != _COLUMNS:
        raise InputError(f"{name}: no ledger: its headings are not {','.join(_COLUMNS)}")
    reader = _LedgerReader(name, tuple(map(_plain, rows[0][len(_COLUMNS) :])))
    for number, row in enumerate(rows[1:], 2):
        if any(row):
            reader.take(number, row)
    return reader.ledger()


@dataclass
class _LedgerReader:
    """Gathers the rows of a ledger."""

    name: str
    others: tuple[str, ...]
    vouchers: list[Voucher] = field(default_factory=list)
    estimates: list[ToGo] = field(default_factory=list)
    headings: list[tuple[str, str]] = field(default_factory=list)
    currencies: set[str] = field(default_factory=set)

    def take(self, number: int, row: list[str]) -> None:
        """Adds one row."""
        if len(row) != len(_COLUMNS) + len(self.others):
            raise self._fault(number, f"{len(row)} cells")
        cells = dict(zip(_COLUMNS, map(_plain, row)))
        kind = cells["kind"]
        if kind == _HEADING:
            self.headings.append((cells["account"], cells["text"]))
            return
        day, amount = parse_day(cells["date"]), _amount(cells["amount"])
        if kind not in (_VOUCHER, _TO_GO) or day is None or amount is None:
            raise self._fault(number, "no voucher, estimate or heading")
        self.currencies.add(cells["currency"])
        source, at = (
            cells["source"],
            int(cells["row"]) if cells["row"].isdecimal() else 0,
        )
        if kind == _TO_GO:
            self.estimates.append(ToGo(day, cells["account"], amount, source, at))
            return
        pairs = zip(self.others, map(_plain, row[len(_COLUMNS) :]))
        others = tuple((heading, text) for heading, text in pairs if text)
        text = cells["text"]
        self.vouchers.append(
            Voucher(day, cells["account"], amount, cells["number"], text, source, at, others)
        )

    def ledger(self) -> Ledger:
        """Returns the complete ledger."""
        if len(self.currencies - {""}) > 1:
            raise InputError(f"{self.name}: two currencies: {', '.join(sorted(self.currencies))}")
        currency = max(self.currencies, default="")
        vouchers, estimates = tuple(self.vouchers), tuple(self.estimates)
        return Ledger(vouchers, estimates, tuple(self.headings), currency)

    def _fault(self, number: int, what: str) -> InputError:
        return InputError(f"{self.name}: row {number}: {what}; mend it or take the ledger away")


def _amount(text: str) -> Decimal | None:
    """Returns a number that is written with a point and without an exponent, or None."""
    plain = text.removeprefix("-").replace(".", "", 1)
    if not (plain.isascii() and plain.isdecimal() and len(plain) <= 20):
        return None
    try:
        return Decimal(text)
    except InvalidOperation:
        return None
