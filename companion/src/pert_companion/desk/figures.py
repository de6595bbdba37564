"""Changes figures of tasks: durations, prices, costs, estimates, names.

A task may have several cards. The first is the one that can be shortened, and the others always
take what they take (`carry.network`); so a new duration of the task is one of its first card.
"""

from collections.abc import Callable, Mapping
from dataclasses import replace
from typing import Any

from pert_companion.carry.codes import one_line, title
from pert_companion.desk import own_time
from pert_companion.desk.amounts import amounts_of
from pert_companion.desk.own_time import ESTIMATES
from pert_companion.desk.remaking import with_entry, with_logic
from pert_companion.importing.month_end import Books
from pert_companion.model.cards import AccountCard, ActivityCard, TaskCard
from pert_companion.model.deck import Deck
from pert_companion.model.errors import InputError
from pert_companion.model.sidefile import SideTask

WorkCard = TaskCard | ActivityCard
FIELDS = ("name", "normal", "shortest", "price", "cost", *ESTIMATES)


def changed(books: Books, task: SideTask, field: str, value: str) -> Books:
    """Returns the deck in which a field of a task has a value that somebody typed.

    Raises `InputError` for a value that makes no sense or a field that cannot be changed here.
    """
    try:
        if task.own is not None and field in own_time.FIELDS:
            return own_time.changed(books, task, field, value)
        if field in own_time.fixed_fields(task):
            raise InputError(own_time.fixed_fields(task)[field])
        return _CHANGES[field](books, task, field, value)
    except InputError as error:
        raise InputError(f"{task.code}: {error}") from None


def cards_of(deck: Deck) -> dict[str, WorkCard]:
    """Returns the cards of work by code."""
    return {card.code: card for card in deck.work}


def with_card(deck: Deck, code: str, **values: Any) -> Deck:
    """Returns the deck in which the card of a code has other values."""

    def changed_card(card: Any) -> Any:
        return replace(card, **values) if card.code == code else card

    return replace(
        deck,
        tasks=tuple(map(changed_card, deck.tasks)),
        activities=tuple(map(changed_card, deck.activities)),
    )


def further_units(cards: Mapping[str, WorkCard], task: SideTask) -> int:
    """Returns the units of the cards of a task after the first."""
    return sum(cards[part].normal for part in task.parts[1:])


def _name(books: Books, task: SideTask, _field: str, value: str) -> Books:
    name = one_line(value)
    if not name:
        raise InputError("a task has a name")
    deck = with_card(books.deck, task.code, title=title(name))
    return replace(books, deck=deck, side=with_entry(books.side, replace(task, name=name)))


def _normal(books: Books, task: SideTask, _field: str, value: str) -> Books:
    """Changes the normal duration; what was the same as it follows: a single estimate, and the
    shortest duration of a task that cannot be shortened."""
    cards = cards_of(books.deck)
    card, further = cards[task.code], further_units(cards, task)
    units = _units(books, task, value)
    values: dict[str, int] = {"normal": units}
    if card.crash == card.normal:
        values["crash"] = units
    elif units < card.crash:
        shortest = amounts_of(books.side).days(card.crash + further)
        raise InputError(f"its shortest duration, {shortest} days, is above {value}")
    if {card.optimistic, card.likely, card.pessimistic} == {card.normal}:
        values.update(dict.fromkeys(ESTIMATES, units))
    normal = units + further
    entry = replace(task, normal=normal, minutes=normal * books.side.unit_minutes)
    deck = with_card(books.deck, task.code, **values)
    after, logic = replace(books, deck=deck, side=with_entry(books.side, entry)), books.side.logic
    return after if logic is None else with_logic(books, after, logic)


def _shortest(books: Books, task: SideTask, _field: str, value: str) -> Books:
    card = cards_of(books.deck)[task.code]
    units = _units(books, task, value or amounts_of(books.side).days(task.normal))
    if units > card.normal:
        normal = amounts_of(books.side).days(task.normal)
        raise InputError(f"{value} days are above the normal duration, {normal}")
    slope = card.slope if units < card.normal else 0
    return replace(books, deck=with_card(books.deck, task.code, crash=units, slope=slope))


def _price(books: Books, task: SideTask, _field: str, value: str) -> Books:
    card = cards_of(books.deck)[task.code]
    slope = amounts_of(books.side).read_price(value or "0")
    if slope and card.crash == card.normal:
        raise InputError("it cannot be shortened: give it a shortest duration first")
    return replace(books, deck=with_card(books.deck, task.code, slope=slope))


def _cost(books: Books, task: SideTask, _field: str, value: str) -> Books:
    """Changes the cost of a task, and with it the budget of its package, which is that of all its
    tasks."""
    cost = amounts_of(books.side).read_money(value or "0")
    cards = cards_of(books.deck)
    others = sum(cards[part].cost for part in task.parts[1:])
    card = cards[task.code]
    if cost < others:
        raise InputError(f"parts of it that are fixed cost {amounts_of(books.side).money(others)}")
    more = cost - others - card.cost
    deck = with_card(books.deck, task.code, cost=cost - others)
    return replace(books, deck=with_budget(deck, card.item, more))


def with_budget(deck: Deck, item: str, more: int) -> Deck:
    """Returns the deck in which the one account of a package has so much more as its budget."""
    found = [account for account in deck.accounts if account.item == item]
    if not more:
        return deck
    if not found:
        if any(account.code == item for account in deck.accounts):
            raise InputError(f"its package {item} has no account, and one of another has its code")
        return replace(deck, accounts=(*deck.accounts, AccountCard(item, item, more)))
    if len(found) > 1:
        raise InputError(
            f"its package {item} has {len(found)} accounts: change their budgets in the deck"
        )
    changed_account = replace(found[0], budget=found[0].budget + more)
    accounts = [changed_account if each is found[0] else each for each in deck.accounts]
    return replace(deck, accounts=tuple(accounts))


def _estimate(books: Books, task: SideTask, field: str, value: str) -> Books:
    return replace(
        books, deck=with_card(books.deck, task.code, **{field: _units(books, task, value)})
    )


def _units(books: Books, task: SideTask, value: str) -> int:
    """Returns the units of the first card for a duration of the complete task."""
    further = further_units(cards_of(books.deck), task)
    units = amounts_of(books.side).read_units(value) - further
    if units < 0:
        least = amounts_of(books.side).days(further)
        raise InputError(f"parts of it that others wait for take {least} days")
    return units


_CHANGES: dict[str, Callable[[Books, SideTask, str, str], Books]] = {
    "name": _name,
    "normal": _normal,
    "shortest": _shortest,
    "price": _price,
    "cost": _cost,
    **dict.fromkeys(ESTIMATES, _estimate),
}
