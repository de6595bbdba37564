"""Changes what time costs a project, and the date of its contract, as an import is told them."""

from dataclasses import replace
from datetime import date
from decimal import Decimal

from pert_companion.analysis.contract import load_day_minutes
from pert_companion.carry.terms import Prices
from pert_companion.desk.amounts import amounts_of, read_day, read_number
from pert_companion.importing.month_end import Books
from pert_companion.model.cards import TermsCard
from pert_companion.model.clock import Clock
from pert_companion.model.deck import Deck
from pert_companion.model.errors import InputError
from pert_companion.model.losses import Loss
from pert_companion.model.sidefile import SideFile

PRICES = ("overhead", "bonus", "penalty")
CONTRACT = "contract"
FIELDS = (*PRICES, CONTRACT)


def changed(books: Books, field: str, value: str) -> Books:
    """Returns the deck in which a price of time or the contract's date has a value that was typed.

    The side file keeps it for the next import. Raises `InputError` for one that makes no sense.
    """
    if field == CONTRACT:
        day = _contract(books, value)
        said: date | Decimal | None = day
        deck = _with_contract(books, day)
    else:
        price = read_number(value, "money") if value.strip() else None
        said = price
        deck = _with_price(books, field, price)
    side = replace(books.side, terms=replace(books.side.terms, **{field: said}))
    return replace(books, deck=deck, side=side)


def _with_price(books: Books, field: str, price: Decimal | None) -> Deck:
    """Returns the deck with a price of a working day on its TERMS card."""
    deck, losses = books.deck, list[Loss]()
    amounts = amounts_of(books.side)
    card = deck.terms or TermsCard(target=_target(books, contract_day(deck, books.side)))
    unit_price = Prices(amounts.day_units, books.side.money_scale, losses).of(field, price)
    if losses:
        raise InputError(
            f"{field}: the deck has prices of a day such as {amounts.price(unit_price - 1)} and"
            f" {amounts.price(unit_price)}, not {price}"
        )
    card = replace(card, **{field: unit_price})
    if not card.target and (card.bonus or card.penalty):
        raise InputError(f"{field}: a bonus or a penalty needs the date of the contract first")
    if card.bonus > card.penalty:
        raise InputError(f"{field}: the bonus would be above the penalty")
    return replace(deck, terms=card)


def _with_contract(books: Books, day: date | None) -> Deck:
    """Returns the deck with the date of the contract: the directed end, and the target of TERMS."""
    deck, terms = books.deck, books.deck.terms
    if day is None and terms is not None and (terms.bonus or terms.penalty):
        raise InputError("contract: the bonus and the penalty need its date")
    directed = None if day is None else _load_clock(deck, books.side).units_until(day)
    if terms is not None:
        terms = replace(terms, target=_target(books, day))
    return replace(deck, terms=terms, project=replace(deck.project, directed=directed))


def contract_day(deck: Deck, side: SideFile) -> date | None:
    """Returns the last day of work by the contract: the directed end, else the target of TERMS."""
    if deck.project.directed is not None:
        return _load_clock(deck, side).end(deck.project.directed)
    if deck.terms is not None and deck.terms.target:
        return Clock(side).end(deck.terms.target)
    return None


def _target(books: Books, day: date | None) -> int:
    return 0 if day is None else Clock(books.side).units_until(day)


def _contract(books: Books, value: str) -> date | None:
    """Returns the last day of work by the contract; it is not before the first day."""
    day = read_day(value)
    first = books.deck.project.start_date
    if day is not None and day < first:
        raise InputError(f"contract: {day} is before the first day, {first}")
    return day


def _load_clock(deck: Deck, side: SideFile) -> Clock:
    """Returns the clock of the days of the directed end."""
    return Clock(replace(side, unit_minutes=load_day_minutes(side, deck)))
