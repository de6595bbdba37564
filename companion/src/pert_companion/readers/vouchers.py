"""Reads lists of vouchers as accounting systems export them.

An amount is one column with signs, an amount with a column that says debit or credit, or a column
for each. Costs are debits and positive, credits are negative. One list has one currency.
"""

from collections.abc import Iterable
from dataclasses import dataclass
from datetime import date
from decimal import Decimal

from pert_companion.model.bookings import BookingKind, Finding
from pert_companion.model.errors import InputError
from pert_companion.model.ledger import Voucher
from pert_companion.model.source import Source
from pert_companion.readers.base import ReaderOptions
from pert_companion.readers.outline import Row
from pert_companion.readers.sheet import Layout, Sheet, read_sheet
from pert_companion.readers.style import Columns
from pert_companion.readers.values import (
    Cell,
    Style,
    Unreadable,
    amount,
    currency_of,
    day,
    is_nothing,
)

VOUCHERS = Layout(
    "list of vouchers",
    {
        "date": (
            "date",
            "posting date",
            "booking date",
            "voucher date",
            "document date",
        )
        + ("invoice date", "datum", "buchungsdatum", "belegdatum", "buchungstag"),
        "account": (
            "account",
            "cost account",
            "control account",
            "project account",
            "wbs",
        )
        + (
            "wbs element",
            "cost centre",
            "cost center",
            "cost object",
            "konto",
            "kostenstelle",
        )
        + ("kostenträger", "psp-element", "psp element", "kostenkonto", "projektkonto"),
        "amount": (
            "amount",
            "value",
            "net amount",
            "net",
            "amount in local currency",
            "total",
        )
        + ("betrag", "wert", "nettobetrag", "netto", "betrag in hauswährung", "summe"),
        "debit": ("debit", "debit amount", "dr", "soll", "sollbetrag"),
        "credit": ("credit", "credit amount", "cr", "haben", "habenbetrag"),
        "sign": ("d/c", "dr/cr", "debit/credit", "sign", "s/h", "soll/haben", "sh")
        + ("soll/haben-kennzeichen", "s/h-kennz"),
        "number": (
            "voucher",
            "voucher number",
            "voucher no",
            "document",
            "document number",
        )
        + (
            "document no",
            "doc no",
            "number",
            "no",
            "reference",
            "belegnummer",
            "beleg-nr",
        )
        + ("belegnr", "beleg", "nummer", "nr"),
        "text": ("text", "description", "narrative", "details", "memo", "buchungstext")
        + ("beschreibung", "bezeichnung", "verwendungszweck"),
        "currency": ("currency", "curr", "währung", "whg"),
    },
    (("date",), ("account",), ("amount", "debit", "credit")),
    Columns(("amount", "debit", "credit"), ("date",)),
)
"""The columns of a list of vouchers, with their headings in English and German."""

CURRENCY_CODES = {"€": "EUR", "$": "USD", "£": "GBP"}
_CREDITS = frozenset(("c", "cr", "credit", "h", "haben", "-"))
_DEBITS = frozenset(("d", "dr", "debit", "s", "soll", "+", ""))


@dataclass(frozen=True)
class VoucherList:
    """The vouchers of a list, and the rows of it that are none."""

    vouchers: tuple[Voucher, ...]
    findings: tuple[Finding, ...]
    total: Decimal
    """The sum of all amounts that could be read, whether their rows are vouchers or not."""
    currency: str
    notes: tuple[str, ...]


def read_vouchers(
    source: Source, options: ReaderOptions, remembered: Iterable[tuple[str, str]] = ()
) -> VoucherList:
    """Returns the vouchers of a list. `remembered` are fields with headings of earlier lists.

    Raises `InputError` in one line if the list has no such columns, formulas in the place of
    values, two decimal marks or two currencies.
    """
    sheet = read_sheet(source, options, VOUCHERS.remembering(remembered))
    currency = _one_currency(sheet)
    vouchers: list[Voucher] = []
    findings: list[Finding] = []
    total = Decimal(0)
    for row in sheet.rows:
        try:
            value = _amount(row, sheet.style)
            total += value
            vouchers.append(_voucher(row, sheet, value))
        except Unreadable as reason:
            findings.append(Finding(BookingKind.ROW, sheet.place(row), f"{reason}; left out"))
    if not vouchers:
        why = f"; {findings[0].line()}" if findings else ""
        raise InputError(f"{source.name}: there is no voucher{why.replace(source.name + ': ', '')}")
    return VoucherList(tuple(vouchers), tuple(findings), total, currency, sheet.notes)


def _voucher(row: Row, sheet: Sheet, value: Decimal) -> Voucher:
    account = row.text("account")
    if not account:
        raise Unreadable("a row without an account")
    booked = _day(row, sheet.style)
    number, text = row.text("number"), row.text("text")
    others = sheet.other_cells(row)
    return Voucher(booked, account, value, number, text, sheet.file, row.number, others)


def _day(row: Row, style: Style) -> date:
    if is_nothing(row.cell("date")):
        raise Unreadable("a row without a date")
    try:
        return day(row.cell("date"), style)
    except Unreadable as reason:
        raise Unreadable(f"date {row.text('date')[:40]!r}: {reason}") from None


def _amount(row: Row, style: Style) -> Decimal:
    """Returns what a row adds to the costs of its account; a credit is negative."""
    if is_nothing(row.cell("amount")):
        sides = [_side(row, "debit", style), _side(row, "credit", style)]
        if sides == [None, None]:
            raise Unreadable("a row without an amount")
        return (sides[0] or Decimal(0)) - (sides[1] or Decimal(0))
    value = _signed(row, "amount", style)
    sign = row.text("sign").casefold().strip(".")
    if sign not in _CREDITS | _DEBITS:
        raise Unreadable(f"{sign[:20]!r} is neither debit nor credit")
    return -value if sign in _CREDITS else value


def _side(row: Row, field: str, style: Style) -> Decimal | None:
    return None if is_nothing(row.cell(field)) else _signed(row, field, style)


def _signed(row: Row, field: str, style: Style) -> Decimal:
    """Returns an amount whose sign may be after it, as in `1.250,00-`."""
    cell: Cell = row.cell(field)
    is_after = (
        isinstance(cell, str) and cell.rstrip().endswith("-") and cell.strip()[-2:-1].isdigit()
    )
    if is_after and isinstance(cell, str):
        cell = "-" + cell.strip()[:-1]
    try:
        return amount(cell, style)
    except Unreadable as reason:
        raise Unreadable(f"amount {row.text(field)[:40]!r}: {reason}") from None


def _one_currency(sheet: Sheet) -> str:
    """Returns the currency of all rows; `InputError` names two rows with different ones."""
    first: tuple[str, int] = ("", 0)
    for row in sheet.rows:
        for found in _currencies(row):
            if not found.isprintable():
                why = f"the currency {found!r} has characters that are not seen"
                raise InputError(f"{sheet.place(row)}: {why}")
            if first[0] and found != first[0]:
                raise InputError(
                    f"{sheet.file}: two currencies: {first[0]} in row {first[1]}, {found} in row"
                    f" {row.number}; bring one list for each project currency"
                )
            first = first if first[0] else (found, row.number)
    return first[0]


def _currencies(row: Row) -> Iterable[str]:
    named = row.text("currency")
    shown = (currency_of(row.cell(field)) for field in ("amount", "debit", "credit"))
    codes = {CURRENCY_CODES.get(found, found) for found in (named, *shown) if found}
    return sorted(codes)
