"""Divides the cost of a task that is in parts over its cards, so that money comes as work is done.

In an imported deck the first part has all of the cost, because it is the one that can be shortened.
"""

from collections.abc import Mapping, Sequence
from dataclasses import replace

from pert_companion.model.deck import Deck
from pert_companion.model.sidefile import SideFile


def divided(amount: int, weights: Sequence[int]) -> list[int]:
    """Returns an amount in whole parts by weights, which add up to it."""
    total = sum(weights)
    parts: list[int] = []
    weight_so_far, given = 0, 0
    for weight in weights:
        weight_so_far += weight
        upto = amount * weight_so_far // total
        parts.append(upto - given)
        given = upto
    return parts


def with_costs_over_parts(deck: Deck, side: SideFile) -> Deck:
    """Returns a deck in which each task's cost is divided over its parts by their durations.

    Packages cost what they did: a task whose parts are in several ones stays as it is.
    """
    cards = {card.code: card for card in deck.work}
    costs: dict[str, int] = {}
    for task in side.tasks:
        parts = [cards[part] for part in task.parts]
        durations = [part.normal for part in parts]
        if any(durations[1:]) and len({part.item for part in parts}) == 1:
            amount = sum(part.cost for part in parts)
            costs.update(zip(task.parts, divided(amount, durations)))
    return with_costs(deck, costs)


def with_costs(deck: Deck, costs: Mapping[str, int]) -> Deck:
    """Returns a deck in which the cards with these codes have these costs."""
    return replace(
        deck,
        tasks=tuple(replace(card, cost=costs.get(card.code, card.cost)) for card in deck.tasks),
        activities=tuple(
            replace(card, cost=costs.get(card.code, card.cost)) for card in deck.activities
        ),
    )
