"""Strategies for decks that `pert` accepts, up to the limits of their cards.

`decks()` draws a network or a deck of tasks with money, status, resources and a price of time; and
`side_files(deck)` a side file for it, with a calendar and a currency.
"""

from collections.abc import Sequence
from dataclasses import dataclass, replace
from datetime import date, timedelta

from hypothesis import strategies as st

from pert_companion.model import cards
from pert_companion.model.calendar import Calendar
from pert_companion.model.deck import Deck
from pert_companion.model.sidefile import SideFile
from pert_companion.state.implied import implied_side_file

Pair = tuple[int, int]
LAST_DAY = date(2199, 12, 31)
STARTS = (date(2026, 3, 2), date(1900, 1, 1), date(2178, 8, 31), date(2199, 12, 1))
PACKAGES = ("W1", "W2")
"""The packages with work; W9 has an account alone."""
TITLES = ("", "Dig", "Größe 日本", '<b>"&amp;', "\u202eturned", "a,b;c\\", "é" * 40)
UNITS = st.integers(0, 9) | st.integers(0, 100_000)
AMOUNTS = st.integers(0, 999) | st.integers(0, 10**12)
SLOPES = st.integers(0, 9) | st.integers(0, 10**8)
PAIRS = st.tuples(st.integers(0, 5), st.integers(0, 5))
PRICES = st.integers(0, 99) | st.integers(0, 10**9)


@dataclass(frozen=True)
class Drawn:
    """The work of an activity or a task, without where it is in the network."""

    numbers: tuple[int, int, int, int, int, int, int]
    """Three estimates, normal and shortest duration, cost, and slope."""
    package: str
    title: str
    pieces: tuple[Pair, ...]
    """Further units with their slopes."""
    status: tuple[int, ...]
    """The days after the first one on which it began and ended."""


@st.composite
def works(draw: st.DrawFn, passed: int) -> Drawn:
    """Draws work, with status up to so many days after the first one."""
    low, likely, high = sorted(draw(UNITS) for _ in range(3))
    normal = draw(UNITS)
    crash = draw(st.integers(0, normal))
    slope = draw(SLOPES)
    pieces = []
    room, steepest = normal - crash - 1, slope
    for _ in range(draw(st.integers(0, 4)) if room > 0 else 0):
        if room > 0 and steepest < 10**8:
            pieces.append((draw(st.integers(1, room)), draw(st.integers(steepest + 1, 10**8))))
            room, steepest = room - pieces[-1][0], pieces[-1][1]
    days = sorted(draw(st.lists(st.integers(0, passed), max_size=2)))
    numbers = (low, likely, high, normal, crash, draw(AMOUNTS), slope)
    package, title = draw(st.sampled_from(PACKAGES)), draw(st.sampled_from(TITLES))
    return Drawn(numbers, package, title, tuple(pieces), tuple(days))


@st.composite
def arcs(draw: st.DrawFn) -> tuple[int, list[Pair]]:
    """Draws how many events there are, and arcs that enter and leave each of them."""
    count = draw(st.integers(2, 5))
    pairs = [(at, draw(st.integers(at + 1, count - 1))) for at in range(count - 1)]
    entered = {end for _, end in pairs}
    pairs += [(draw(st.integers(0, at - 1)), at) for at in range(1, count) if at not in entered]
    for _ in range(draw(st.integers(0, 3))):
        begin = draw(st.integers(0, count - 2))
        pairs.append((begin, draw(st.integers(begin + 1, count - 1))))
    return count, pairs


@st.composite
def decks(draw: st.DrawFn) -> Deck:
    """Draws a deck that is accepted."""
    start = draw(st.sampled_from(STARTS))
    passed = draw(st.integers(0, 60) | st.integers(0, (LAST_DAY - start).days))
    passed = min(passed, (LAST_DAY - start).days)
    as_of = draw(st.sampled_from((None, start + timedelta(passed))))
    passed = passed if as_of is not None else 0
    project = cards.ProjectCard(
        code="P",
        start="E0",
        end="E9",
        start_date=start,
        unit_days=draw(st.integers(1, 7)),
        directed=draw(st.none() | st.integers(0, 60) | st.integers(0, 10**6)),
        title=draw(st.sampled_from(TITLES)),
    )
    deck = Deck(project, as_of=as_of, terms=draw(st.none() | terms()))
    if draw(st.booleans()):
        count, pairs = draw(arcs())
        drawn = [draw(works(passed)) for _ in pairs]
        deck = network(deck, count, pairs, drawn)
    else:
        drawn = draw(st.lists(works(passed), min_size=1, max_size=6))
        deck = of_tasks(deck, drawn, draw(st.lists(PAIRS)))
    return draw(completed(deck, drawn))


def terms() -> st.SearchStrategy[cards.TermsCard]:
    """Draws a price of time."""
    return st.builds(
        lambda overhead, target, prices: cards.TermsCard(overhead, target, *sorted(prices)),
        PRICES,
        UNITS,
        st.tuples(PRICES, PRICES),
    )


def network(deck: Deck, count: int, pairs: Sequence[Pair], drawn: Sequence[Drawn]) -> Deck:
    """Returns the deck with the work on arcs between events, of which E9 is the last."""
    codes = [f"E{at}" for at in range(count - 1)] + ["E9"]
    activities = tuple(
        cards.ActivityCard(
            f"A{at}", codes[pair[0]], codes[pair[1]], it.package, *it.numbers, it.title
        )
        for at, (pair, it) in enumerate(zip(pairs, drawn, strict=True))
    )
    return replace(deck, events=tuple(map(cards.EventCard, codes)), activities=activities)


def of_tasks(deck: Deck, drawn: Sequence[Drawn], links: Sequence[Pair]) -> Deck:
    """Returns the deck with the work as tasks; a link leads to a later task."""
    tasks = tuple(
        cards.TaskCard(f"A{at}", it.package, *it.numbers, it.title) for at, it in enumerate(drawn)
    )
    pairs = {(max(pair), min(pair)) for pair in links if pair[0] != pair[1]}
    afters = tuple(
        cards.AfterCard(f"A{late}", f"A{early}")
        for late, early in sorted(pairs)
        if late < len(tasks)
    )
    return replace(deck, tasks=tasks, afters=afters)


@st.composite
def completed(draw: st.DrawFn, deck: Deck, drawn: Sequence[Drawn]) -> Deck:
    """Draws the cards that hang on the work: packages, money, status and resources."""
    items = [cards.ItemCard("W", "", draw(st.sampled_from(TITLES)))]
    items += [cards.ItemCard(code, "W") for code in (*PACKAGES, "W9")]
    accounts = [cards.AccountCard("X9", "W9", draw(AMOUNTS))] if draw(st.booleans()) else []
    for at, it in enumerate(drawn):
        accounts.append(cards.AccountCard(f"X{at}", it.package, it.numbers[5], it.title))
    days = st.integers(-30, 90).map(lambda offset: _near(deck.project.start_date, offset))
    codes = st.sampled_from([account.code for account in accounts])
    charges = draw(st.lists(st.builds(cards.ChargeCard, codes, days, AMOUNTS), max_size=4))
    to_go = draw(st.dictionaries(st.tuples(codes, days), AMOUNTS, max_size=4))
    loads = draw(st.lists(st.tuples(st.integers(0, len(drawn) - 1), AMOUNTS), max_size=3))
    return replace(
        deck,
        items=tuple(items),
        accounts=tuple(accounts),
        charges=tuple(charges),
        to_go=tuple(cards.ToGoCard(*key, amount) for key, amount in to_go.items()),
        pieces=tuple(_pieces(drawn)),
        statuses=tuple(_statuses(deck.project.start_date, drawn)),
        resources=(cards.ResourceCard("R", draw(st.sampled_from(TITLES))),) if loads else (),
        loads=tuple(cards.LoadCard(f"A{at}", "R", amount) for at, amount in loads),
    )


def _near(day: date, offset: int) -> date:
    """Returns a day some days from another one, within the years of a deck."""
    return min(max(day + timedelta(offset), date(1900, 1, 1)), LAST_DAY)


def _pieces(drawn: Sequence[Drawn]) -> list[cards.PieceCard]:
    found = []
    for at, it in enumerate(drawn):
        found += [cards.PieceCard(f"A{at}", units, slope) for units, slope in it.pieces]
    return found


def _statuses(start: date, drawn: Sequence[Drawn]) -> list[cards.StatusCard]:
    found = []
    for at, it in enumerate(drawn):
        for letter, days in zip("SF", it.status):
            found.append(cards.StatusCard(f"A{at}", letter, start + timedelta(days)))
    return found


def side_files(deck: Deck) -> st.SearchStrategy[SideFile]:
    """Draws a side file for a deck: another calendar, or hours, or cents of a currency."""
    calendars = st.sampled_from((Calendar(), Calendar(week_minutes=4 * 480)))
    return st.builds(
        lambda calendar, currency, scale: replace(
            implied_side_file(deck, calendar), currency=currency, money_scale=scale
        ),
        calendars,
        st.sampled_from(("", "EUR", "kr.")),
        st.sampled_from((1, 100)),
    )
