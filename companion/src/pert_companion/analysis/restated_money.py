"""What of the money before a state its successor says differently, and the credits since.

Where both states have a ledger, their vouchers are compared by the days on which they were booked:
a credit that came since is a credit, and no restated past. Without ledgers the charges of the decks
are compared, from which credits cannot be told.
"""

from collections.abc import Iterator, Mapping
from dataclasses import dataclass
from datetime import date
from fractions import Fraction

from pert_companion.analysis.changes import (
    Restated,
    Side,
    has_dated_to_go,
    has_only_totals,
)
from pert_companion.analysis.money import shown_day
from pert_companion.model.ledger import Ledger
from pert_companion.model.text_form import TextForm
from pert_companion.state.matching import match_accounts
from pert_companion.state.project import ProjectState

_Dated = dict[tuple[str, date], int]


@dataclass(frozen=True)
class CreditNote:
    """A voucher with a negative amount that was booked since the older state."""

    account: str
    name: str
    day: date
    amount: int
    """Above 0, in units of money of the comparison."""
    number: str
    text: str


def credit_notes(old: Side, new: Side) -> tuple[CreditNote, ...]:
    """Returns the credits that were booked after the older close of business, by day."""
    ledger = _ledger_of(new.state)
    if ledger is None:
        return ()
    titles = _titles(old, new)
    first, last = old.state.close, new.state.close
    found = []
    for voucher in ledger.vouchers:
        if voucher.amount < 0 and first < voucher.day <= last and voucher.account in titles:
            amount = round(-Fraction(voucher.amount) * new.state.side.money_scale * new.factor)
            name = titles[voucher.account]
            note = CreditNote(
                voucher.account, name, voucher.day, amount, voucher.number, voucher.text
            )
            found.append(note)
    return tuple(sorted(found, key=lambda note: note.day))


def restated_money(old: Side, new: Side) -> Iterator[Restated]:
    """Yields the charges and amounts to go up to the older data date that differ now.

    Accounts that were renamed are compared under their codes of today.
    """
    titles = _titles(old, new)
    names = match_accounts(old.state.deck, new.state.deck, new.state.registers.renames)
    ledgers = _ledger_of(old.state, new.state), _ledger_of(new.state)
    if ledgers[0] is not None and ledgers[1] is not None:
        close = old.state.close
        before, after = (
            _booked(ledger, side, close) for ledger, side in zip(ledgers, (old, new)) if ledger
        )
        yield from _restated_amounts(before, after, titles, "charges", new.form)
    elif has_only_totals(old.state.deck) or has_only_totals(new.state.deck):
        yield from _restated_totals(old, new, names, titles)
    else:
        before, after = _charges(old, old.state.as_of), _charges(new, old.state.as_of)
        yield from _restated_amounts(_named(before, names), after, titles, "charges", new.form)
    if has_dated_to_go(old.state.deck) and has_dated_to_go(new.state.deck):
        before, after = _to_go(old, old.state.as_of), _to_go(new, old.state.as_of)
        yield from _restated_amounts(_named(before, names), after, titles, "amount to go", new.form)


def _titles(old: Side, new: Side) -> dict[str, str]:
    """Returns the titles of the accounts of both states, as the older one has them first."""
    titles = {account.code: account.title for account in new.state.deck.accounts}
    titles.update({account.code: account.title for account in old.state.deck.accounts})
    return titles


def _ledger_of(state: ProjectState, today: ProjectState | None = None) -> Ledger | None:
    """Returns a state's ledger with its accounts by the codes of today."""
    if state.ledger is None:
        return None
    now = today or state
    codes = (account.code for account in now.deck.accounts)
    return state.ledger.renamed(now.registers.renames.names_of(codes))


def _booked(ledger: Ledger, side: Side, close: date) -> _Dated:
    """Returns what a ledger has booked by a close, by account and day, in whole units of money.

    Each day has the growth of the rounded balance, so that the days add up to it.
    """
    scale = side.state.side.money_scale * side.factor
    found: _Dated = {}
    for account, days in ledger.until(close).movements().items():
        balance, before = Fraction(0), 0
        for day in sorted(days):
            balance += Fraction(days[day]) * scale
            if round(balance) != before:
                found[account, day] = round(balance) - before
            before = round(balance)
    return found


def _named(amounts: _Dated, names: Mapping[str, str]) -> _Dated:
    return {(names.get(code, code), day): amount for (code, day), amount in amounts.items()}


def _restated_totals(
    old: Side, new: Side, names: Mapping[str, str], titles: Mapping[str, str]
) -> Iterator[Restated]:
    """Yields the accounts that had spent more than they have now, where days are not known."""
    before = _totals(_charges(old, old.state.as_of))
    after = _totals(_charges(new, new.state.as_of))
    for old_code, amount in before.items():
        code = names.get(old_code, old_code)
        now = after.get(code, 0)
        if now < amount:
            texts = old.form.money(amount), new.form.money(now)
            day = old.state.data_day
            yield Restated(code, titles[code], "charges", *texts, day, now - amount)


def _totals(amounts: _Dated) -> dict[str, int]:
    found: dict[str, int] = {}
    for (code, _), amount in amounts.items():
        found[code] = found.get(code, 0) + amount
    return found


def _restated_amounts(
    before: _Dated, after: _Dated, titles: Mapping[str, str], what: str, form: TextForm
) -> Iterator[Restated]:
    for key in sorted(before.keys() | after.keys(), key=lambda key: (key[1], key[0])):
        was, is_now = before.get(key), after.get(key)
        if was != is_now:
            texts = _money(was, form), _money(is_now, form)
            moved = (is_now or 0) - (was or 0)
            yield Restated(key[0], titles.get(key[0], ""), what, *texts, key[1], moved)


def _money(amount: int | None, form: TextForm) -> str:
    return "none" if amount is None else form.money(amount)


def _charges(side: Side, last: date) -> _Dated:
    found: _Dated = {}
    for charge in side.state.deck.charges:
        if charge.day <= last:
            key = charge.account, shown_day(side.state, charge.day)
            found[key] = found.get(key, 0) + side.amount(charge.amount)
    return found


def _to_go(side: Side, last: date) -> _Dated:
    found: _Dated = {}
    for card in side.state.deck.to_go:
        if card.day <= last:
            found[card.account, shown_day(side.state, card.day)] = side.amount(card.amount)
    return found
