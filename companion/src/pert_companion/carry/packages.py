"""Adds packages without tasks to a deck: level of effort that `packages.csv` declares."""

import re
from collections.abc import Iterable, Iterator
from dataclasses import replace
from fractions import Fraction

from pert_companion.model.cards import AccountCard, ItemCard
from pert_companion.model.deck import Deck
from pert_companion.model.errors import InputError
from pert_companion.model.registers import PackageRule, Technique

_CODE = re.compile(r"[A-Za-z0-9.-][A-Za-z0-9._-]{0,15}")


def with_effort(deck: Deck, rules: Iterable[PackageRule], money_scale: int) -> Deck:
    """Returns the deck with an item and an account for each declared package that it has not.

    The item is below the top, and the account has its code and the declared budget. `money_scale`
    is how many units of money of the deck one of the currency is. Raises `InputError` if a code is
    none of a deck.
    """
    added = list(_missing(deck, rules))
    top = next(item.code for item in deck.items if not item.parent)
    items = tuple(ItemCard(rule.item, top, rule.title) for rule in added)
    accounts = tuple(_account(rule, money_scale) for rule in added)
    return replace(deck, items=(*deck.items, *items), accounts=(*deck.accounts, *accounts))


def _missing(deck: Deck, rules: Iterable[PackageRule]) -> Iterator[PackageRule]:
    known = {item.code for item in deck.items}
    known.update(account.code for account in deck.accounts)
    for rule in rules:
        is_own = rule.technique in (Technique.EFFORT, Technique.APPORTIONED)
        if not is_own or rule.budget is None or rule.item in known:
            continue
        if not _CODE.fullmatch(rule.item):
            raise InputError(f"{rule.place}: {rule.item[:40]!r} is no code of a deck")
        yield rule


def _account(rule: PackageRule, money_scale: int) -> AccountCard:
    budget = Fraction(rule.budget or 0) * money_scale
    return AccountCard(rule.item, rule.item, round(budget), rule.title)
