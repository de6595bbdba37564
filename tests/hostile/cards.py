"""Decks with so many cards of a kind: those that tests/hostile/limits.py and growth try.

The numbers are those of docs/deck.md.
"""

from __future__ import annotations

from collections.abc import Callable
from dataclasses import dataclass

Cards = list[str]


@dataclass(frozen=True)
class Limit:
    """A kind of card, how many there may be in each version, and the cards that it needs."""

    kind: str
    most: tuple[int, int]
    cards: Callable[[int], Cards]
    is_of_tasks: bool = False


def days(number: int) -> str:
    """Returns a day, another one for each number below 10,000."""
    return "%d-%02d-%02d" % (2024 + number // 336, 1 + number // 28 % 12, 1 + number % 28)


def act(code: str, start: str, end: str, durations: str = "0,0,0,0,0") -> str:
    """Returns the card of an activity that costs nothing."""
    return f"ACT,{code},{start},{end},W,{durations},0,0,"


def acts(count: int) -> Cards:
    """Returns so many activities of ten units, side by side."""
    return [act("A%d" % n, "S", "T", "0,0,0,10,0") for n in range(count)]


def owners(count: int, each: int) -> Cards:
    """Returns activities for so many cards. There are no more of them than a version allows, so the
    last of too many cards names one that is missing: a fault that is reported after F10.
    """
    needed = -(-count // each)
    return acts(needed - 1 if needed in (10_001, 20_001) else needed)


def codes_in(cards: Cards, start: str) -> int:
    """Returns how many cards begin with a text."""
    return sum(card.startswith(start) for card in cards)


def items(count: int) -> Cards:
    """Returns the top item with others below it."""
    return [f"WBS,V{n},TOP," for n in range(count - 2)]


def events(count: int) -> Cards:
    """Returns a chain of events, each with its activity. Two more events are in each deck."""
    names = ["E%d" % n for n in range(count - 2)]
    row = ["S", *names, "T"]
    links = [act(f"L{n}", *two) for n, two in enumerate(zip(row, row[1:]))]
    return [f"EVENT,{name}," for name in names] + links


def pieces(count: int) -> Cards:
    """Returns so many pieces, four of each activity."""
    of = [f"PIECE,A{n // 4},1,{1 + n % 4}" for n in range(count)]
    return [*owners(count, 4), *of]


def statuses(count: int) -> Cards:
    """Returns so many statuses, two of each activity."""
    words = ("S,2024-01-01", "F,2024-01-02")
    of = [f"STATUS,A{n // 2},{words[n % 2]}" for n in range(count)]
    return [*owners(count, 2), *of]


def accounts(count: int) -> Cards:
    """Returns so many accounts without money."""
    return [f"ACCT,X{n},W,0," for n in range(count)]


def charges(count: int) -> Cards:
    """Returns so many charges on one account."""
    return [*accounts(1), *(f"CHARGE,X0,2024-01-01,{n % 10}" for n in range(count))]


def togos(count: int) -> Cards:
    """Returns so many amounts to go, each of its own account and day."""
    of = [f"TOGO,X{n % 1000},{days(n // 1000)},1" for n in range(count)]
    return [*accounts(1000), *of]


def resources(count: int) -> Cards:
    """Returns so many resources."""
    return [f"RES,R{n}," for n in range(count)]


def loads(count: int) -> Cards:
    """Returns so many loads, each of its own activity and resource."""
    of = [f"LOAD,A{n // 10},R{n % 10},1" for n in range(count)]
    return [*acts(-(-count // 10)), *resources(10), *of]


def tasks(count: int) -> Cards:
    """Returns so many tasks."""
    return [f"TASK,T{n},W,0,0,0,0,0,0,0," for n in range(count)]


def afters(count: int) -> Cards:
    """Returns so many links, at most three of each task with those before it."""
    of = [f"AFTER,T{3 + n // 3},T{n // 3 + n % 3}" for n in range(count)]
    return [*tasks(3 + -(-count // 3)), *of]


LIMITS = (
    Limit("WBS", (10_000, 10_000), items),
    Limit("EVENT", (5_000, 10_000), events),
    Limit("ACT", (10_000, 20_000), acts),
    Limit("PIECE", (40_000, 80_000), pieces),
    Limit("ACCT", (10_000, 10_000), accounts),
    Limit("CHARGE", (200_000, 500_000), charges),
    Limit("TOGO", (100_000, 100_000), togos),
    Limit("STATUS", (20_000, 40_000), statuses),
    Limit("RES", (1_000, 1_000), resources),
    Limit("LOAD", (40_000, 40_000), loads),
    Limit("WBS", (9_999, 9_999), items, is_of_tasks=True),
    Limit("TASK", (4_000, 4_000), tasks, is_of_tasks=True),
    Limit("AFTER", (8_000, 8_000), afters, is_of_tasks=True),
)


def deck(limit: Limit, version: int, count: int) -> Cards:
    """Returns the deck with so many cards of the kind."""
    cards = [f"PROJECT,LIMIT,S,T,2024-01-01,1,,,{version}", "ASOF,2024-01-02"]
    cards += ["WBS,TOP,,", "WBS,W,TOP,"]
    if not limit.is_of_tasks:
        cards += ["EVENT,S,", "EVENT,T,"]
    cards += limit.cards(count)
    kind = "TASK" if limit.is_of_tasks else "ACT"
    if not codes_in(cards, f"{kind},"):
        cards += tasks(1) if limit.is_of_tasks else acts(1)
    return [*cards, "END"]


def text(cards: Cards) -> bytes:
    """Returns cards as the bytes of a deck."""
    return "".join(f"{card}\n" for card in cards).encode()
