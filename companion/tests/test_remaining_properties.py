"""Each accepted deck with status has a deck of the work that is left, which `pert` accepts too.

And for small networks the curve of that deck is the least cost of finishing by each date, over all
choices of durations of the unfinished work, tried one by one.
"""

import itertools
import os
from collections.abc import Iterator
from datetime import date
from fractions import Fraction
from math import ceil
from random import Random

from hypothesis import given, settings
from hypothesis import strategies as st
from status_decks import random_network, random_tasks, side_file_of

from pert_companion.model.cards import ActivityCard, TaskCard
from pert_companion.model.deck import Deck, parse_deck
from pert_companion.programs.client import Programs
from pert_companion.programs.results import cost_at
from pert_companion.state.implied import implied_side_file
from pert_companion.state.remaining import Remaining, State, remaining

EXAMPLES = int(os.environ.get("REMAINING_EXAMPLES", "150"))
"""How many decks; `make soak` tries 10,000."""
PROGRAMS = Programs()
SEEDS = st.integers(0, 2**64 - 1)


def sums(deck: Deck) -> dict[str, int]:
    """Returns the costs of work by package."""
    found: dict[str, int] = {}
    for card in deck.work:
        found[card.item] = found.get(card.item, 0) + card.cost
    return found


def check_rest(deck: Deck, rest: Remaining) -> None:
    """Checks what holds of the deck of the work that is left of any deck."""
    data = rest.deck.to_bytes()
    PROGRAMS.pert(data, "arrows" if deck.is_of_tasks else "check")
    assert parse_deck(data, "rest").to_bytes() == data
    assert rest.deck.statuses == ()
    assert rest.deck.project.start_date == deck.as_of_day == rest.side.start
    assert sums(rest.deck) == sums(deck)
    assert rest.deck.accounts == deck.accounts
    before = {card.code: card for card in deck.work}
    finished = {card.activity for card in deck.statuses if card.letter == "F"}
    started = {card.activity for card in deck.statuses if card.letter == "S"}
    for card, left in zip(rest.deck.work, rest.left):
        old = before[card.code]
        assert (card.normal, card.crash) == (left.normal, left.crash)
        assert 0 <= card.crash <= card.normal
        assert card.normal - card.crash <= old.normal - old.crash
        if card.code in finished:
            assert left.state is State.FINISHED and card.normal == 0 and left.sunk == card.cost
        elif card.code in started:
            assert left.state is State.BEGUN
            assert (card.normal == 0) == (old.normal == 0)
        else:
            assert left.state is State.WAITING and card == old and left.sunk == 0


@settings(max_examples=EXAMPLES, deadline=None)
@given(SEEDS)
def test_the_rest_of_a_network_is_accepted(seed: int) -> None:
    """Decks of activities, with all that a deck can say."""
    deck = random_network(Random(seed))
    PROGRAMS.pert(deck.to_bytes(), "check")
    check_rest(deck, remaining(deck, implied_side_file(deck)))


@settings(max_examples=EXAMPLES, deadline=None)
@given(SEEDS)
def test_the_rest_of_a_deck_of_tasks_is_accepted(seed: int) -> None:
    """Decks of tasks, with a side file or without one."""
    random = Random(seed)
    deck = random_tasks(random)
    PROGRAMS.pert(deck.to_bytes(), "arrows")
    side = side_file_of(random, deck) if random.random() < 0.7 else implied_side_file(deck)
    check_rest(deck, remaining(deck, side))


def plain_left(deck: Deck, card: ActivityCard | TaskCard) -> tuple[int, int]:
    """Returns what is left of an activity and the shortest it can be, by the plain rule."""
    days = {(s.activity, s.letter): s.day for s in deck.statuses}
    if (card.code, "F") in days:
        return 0, 0
    started: date | None = days.get((card.code, "S"))
    if started is None or card.normal == 0:
        return card.normal, card.crash
    worked = (deck.as_of_day - started).days // deck.project.unit_days
    left = max(1, card.normal - worked)
    return left, ceil(Fraction(card.crash, card.normal) * left)


def unit_prices(deck: Deck, card: ActivityCard | TaskCard) -> list[int]:
    """Returns what each unit less costs, one after the other."""
    pieces = [piece for piece in deck.pieces if piece.activity == card.code]
    first = card.normal - card.crash - sum(piece.units for piece in pieces)
    prices = [card.slope] * first
    for piece in pieces:
        prices += [piece.slope] * piece.units
    return prices


def all_choices(deck: Deck) -> Iterator[tuple[int, int]]:
    """Yields the length from the as-of date on and the cost of each choice of durations."""
    ranges = []
    for card in deck.activities:
        left, shortest = plain_left(deck, card)
        ranges.append(range(shortest, left + 1))
    lefts = [plain_left(deck, card)[0] for card in deck.activities]
    prices = [unit_prices(deck, card) for card in deck.activities]
    whole = sum(card.cost for card in deck.activities)
    for durations in itertools.product(*ranges):
        cost = whole
        for at, duration in enumerate(durations):
            cost += sum(prices[at][: lefts[at] - duration])
        yield longest_walk(deck, durations), cost


def longest_walk(deck: Deck, durations: tuple[int, ...]) -> int:
    """Returns when the end event occurs; events are in an order of the network."""
    times = {event.code: 0 for event in deck.events}
    for event in deck.events:
        for card, duration in zip(deck.activities, durations):
            if card.ends == event.code:
                times[event.code] = max(times[event.code], times[card.begins] + duration)
    return times[deck.project.end]


@settings(max_examples=max(40, EXAMPLES // 5), deadline=None)
@given(SEEDS)
def test_the_curve_is_the_least_cost_of_finishing_by_each_date(seed: int) -> None:
    """All choices of durations of unfinished work, against `pert curve` of the remaining deck."""
    deck = random_network(Random(seed), most=6, longest=4)
    least: dict[int, int] = {}
    for length, cost in all_choices(deck):
        least[length] = min(cost, least.get(length, cost))
    rest = remaining(deck, implied_side_file(deck))
    curve = PROGRAMS.curve(rest.deck)
    assert curve[-1].length == min(least)
    assert curve[0].cost == min(least.values())
    for length in range(curve[-1].length, curve[0].length + 1):
        best = min(cost for each, cost in least.items() if each <= length)
        assert cost_at(curve, length)[0] == best
