"""Says how much of a resource there is, as `pert-import --capacity` does."""

import re
from dataclasses import replace
from decimal import Decimal

from pert_companion.desk.amounts import read_number
from pert_companion.importing.month_end import Books
from pert_companion.model.capacities import MOST_HOURLY, Capacity
from pert_companion.model.cards import ResourceCard
from pert_companion.model.errors import InputError

CAPACITY = "capacity"
FIELDS = (CAPACITY,)
MOST_UNITS = 10**9
_UNIT = re.compile(r"(?P<name>.*) \((?:(?P<minutes>minutes)|1/(?P<part>[0-9]+) .*|.*)\)")
"""The title of a RES card: the name of the resource, and what its card counts."""


def changed(books: Books, resource: str, value: str) -> Books:
    """Returns the deck with another capacity of a resource; an empty value takes it away.

    The side file keeps it for the next import. Raises `InputError` if there is no such resource, or
    no side file to keep it.
    """
    if not books.has_side_file:
        raise InputError("a deck without a side file keeps no capacities; pert-days --calendar")
    card = resource_of(books, resource)
    kept = {each.code: each for each in books.side.capacities}
    if not value.strip():
        kept.pop(card.code, None)
    else:
        kept[card.code] = _with_units(kept.get(card.code), card, read_units(value))
    found = [kept[each.code] for each in books.deck.resources if each.code in kept]
    return replace(books, side=replace(books.side, capacities=tuple(found)))


def resource_of(books: Books, wanted: str) -> ResourceCard:
    """Returns the RES card of a code, or of a name with or without its unit, in any case.

    Raises `InputError` that offers the names there are if there is none.
    """
    for card in books.deck.resources:
        if wanted == card.code:
            return card
    for card in books.deck.resources:
        if wanted.casefold() in (card.title.casefold(), name_of(card).casefold()):
            return card
    names = ", ".join(sorted(map(name_of, books.deck.resources)))
    offered = f"there are {names}" if names else "the deck has none"
    raise InputError(f"there is no resource {wanted[:40]!r}; {offered}")


def name_of(card: ResourceCard) -> str:
    """Returns the name of a resource without its unit."""
    found = _UNIT.fullmatch(card.title)
    return found["name"] if found else card.title or card.code


def read_units(text: str) -> Decimal:
    """Returns the units of a text such as `2`, `2.5` or `250%`."""
    plain = text.strip()
    units = read_number(plain.removesuffix("%"), "units")
    if plain.endswith("%"):
        units /= 100
    if not 0 < units < MOST_UNITS:
        raise InputError(f"{plain[:40]} is no capacity above 0 and below {MOST_UNITS}")
    return units


def _with_units(old: Capacity | None, card: ResourceCard, units: Decimal) -> Capacity:
    if old is not None:
        return replace(old, units=units, is_said=True)
    return Capacity(card.code, name_of(card), units, _hourly(card), is_said=True)


def _hourly(card: ResourceCard) -> int:
    """Returns what a unit of a resource does in an hour of work, in units of its card."""
    found = _UNIT.fullmatch(card.title)
    if found is None:
        return 1
    if found["minutes"]:
        return 60
    return min(int(found["part"] or 1), MOST_HOURLY)
