"""Random decks with status, of activities and of tasks, that `pert` accepts.

`random_network` and `random_tasks` draw a deck from a random generator: packages with and without
work, pieces of cost, resources, money, TERMS, a directed end, and any status that a deck may have:
also work that began or finished before what comes before it. `side_file_of` draws a side file for a
deck of tasks: a working week, tasks in parts, waits, percents and remaining durations.
"""

from collections.abc import Sequence
from dataclasses import replace
from datetime import date, timedelta
from decimal import Decimal
from random import Random

from pert_companion.model.calendar import Calendar
from pert_companion.model.cards import (
    AccountCard,
    ActivityCard,
    AfterCard,
    ChargeCard,
    EventCard,
    ItemCard,
    LoadCard,
    PieceCard,
    ProjectCard,
    ResourceCard,
    StatusCard,
    TaskCard,
    TermsCard,
    ToGoCard,
)
from pert_companion.model.deck import Deck
from pert_companion.model.sidefile import SideFile, SideTask

FIRST_DAY = date(2026, 3, 2)
"""A Monday."""
PACKAGES = ("W1", "W2", "W3")
"""The packages with work; W9 has an account alone."""


def random_network(random: Random, most: int = 8, longest: int = 9) -> Deck:
    """Returns a network deck of at most `most` activities of at most `longest` units."""
    count = random.randint(2, max(2, most // 2))
    pairs = [(at, random.randint(at + 1, count - 1)) for at in range(count - 1)]
    ends = {end for _, end in pairs}
    pairs += [(random.randint(0, at - 1), at) for at in range(1, count) if at not in ends]
    while len(pairs) < most and random.random() < 0.7:
        begin = random.randint(0, count - 2)
        pairs.append((begin, random.randint(begin + 1, count - 1)))
    activities = []
    for at, (begin, end) in enumerate(pairs):
        task = _task(random, f"A{at}", longest)
        numbers = (
            task.optimistic,
            task.likely,
            task.pessimistic,
            task.normal,
            task.crash,
        )
        activities.append(
            ActivityCard(
                task.code,
                f"E{begin}",
                f"E{end}",
                task.item,
                *numbers,
                task.cost,
                task.slope,
            )
        )
    project = ProjectCard("P", "E0", f"E{count - 1}", FIRST_DAY, random.choice((1, 1, 2, 5, 7)))
    deck = Deck(
        project=project,
        events=tuple(EventCard(f"E{at}") for at in range(count)),
        activities=tuple(activities),
    )
    return _completed(random, deck)


def random_tasks(random: Random, most: int = 8, longest: int = 9) -> Deck:
    """Returns a deck of at most `most` tasks of at most `longest` units."""
    count = random.randint(1, most)
    tasks = [_task(random, f"T{at}", longest) for at in range(count)]
    afters = []
    for at in range(1, count):
        for before in range(at):
            if random.random() < 1.2 / at:
                afters.append(AfterCard(f"T{at}", f"T{before}"))
    project = ProjectCard("P", "start", "end", FIRST_DAY)
    return _completed(random, Deck(project, tasks=tuple(tasks), afters=tuple(afters)))


def _task(random: Random, code: str, longest: int) -> TaskCard:
    normal = random.choice((0, random.randint(1, longest), random.randint(1, longest)))
    crash = random.choice((normal, random.randint(0, normal)))
    estimates = sorted(random.randint(0, longest) for _ in range(3))
    if random.random() < 0.5:
        estimates = [normal] * 3
    cost = random.choice((0, random.randint(0, 1000)))
    slope = random.randint(0, 50)
    package = random.choice(PACKAGES)
    low, likely, high = estimates
    return TaskCard(code, package, low, likely, high, normal, crash, cost, slope, f"Task {code}")


def _completed(random: Random, deck: Deck) -> Deck:
    """Returns the deck with packages, money, pieces, resources and status."""
    as_of = FIRST_DAY + timedelta(days=random.randint(0, 30))
    work = deck.work
    items = (ItemCard("W", ""), *(ItemCard(code, "W") for code in (*PACKAGES, "W9")))
    accounts = [AccountCard("X9", "W9", random.randint(0, 500))]
    for package in PACKAGES:
        cost = sum(card.cost for card in work if card.item == package)
        accounts.append(AccountCard(f"X{package}", package, cost))
    codes = [account.code for account in accounts]
    charges = [_charge(random, random.choice(codes)) for _ in range(random.randint(0, 4))]
    to_go = [
        ToGoCard(code, as_of, random.randint(0, 900)) for code in codes if random.random() < 0.4
    ]
    loads = [
        LoadCard(card.code, "R", random.randint(0, 40)) for card in work if random.random() < 0.5
    ]
    terms = random.choice((None, TermsCard(random.randint(0, 20), random.randint(0, 40), 2, 9)))
    directed = random.choice((None, random.randint(0, 60)))
    return replace(
        deck,
        project=replace(deck.project, directed=directed),
        as_of=as_of,
        terms=terms,
        items=items,
        pieces=tuple(_pieces(random, work)),
        accounts=tuple(accounts),
        charges=tuple(charges),
        to_go=tuple(to_go),
        statuses=tuple(_statuses(random, work, as_of)),
        resources=(ResourceCard("R", "Crew"),),
        loads=tuple(loads),
    )


def _charge(random: Random, account: str) -> ChargeCard:
    return ChargeCard(
        account,
        FIRST_DAY + timedelta(days=random.randint(0, 40)),
        random.randint(0, 300),
    )


def _pieces(random: Random, work: Sequence[TaskCard | ActivityCard]) -> list[PieceCard]:
    """Returns further pieces of cost, which leave a unit to the first slope and rise."""
    pieces = []
    for card in work:
        left = card.normal - card.crash - 1
        slope = card.slope
        while left > 0 and random.random() < 0.5:
            units = random.randint(1, left)
            slope += random.randint(1, 20)
            pieces.append(PieceCard(card.code, units, slope))
            left -= units
    return pieces


def _statuses(
    random: Random, work: Sequence[TaskCard | ActivityCard], as_of: date
) -> list[StatusCard]:
    """Returns any status that a deck may have."""
    statuses = []
    passed = (as_of - FIRST_DAY).days
    for card in work:
        if random.random() < 0.4:
            continue
        started = random.randint(0, passed)
        statuses.append(StatusCard(card.code, "S", FIRST_DAY + timedelta(days=started)))
        if random.random() < 0.5:
            finished = random.randint(started, passed)
            statuses.append(StatusCard(card.code, "F", FIRST_DAY + timedelta(days=finished)))
    return statuses


def side_file_of(random: Random, deck: Deck) -> SideFile:
    """Returns a side file for a deck of tasks, some of them parts of one, some waits."""
    calendar = random.choice((Calendar(), Calendar(week_minutes=2400)))
    unit = random.choice((480, 240, 60))
    entries: list[SideTask] = []
    waits: list[str] = []
    codes = [task.code for task in deck.tasks]
    while codes:
        if len(codes) > 1 and random.random() < 0.2:
            waits.append(codes.pop(0))
            continue
        parts = tuple(codes[: random.randint(1, 2)])
        codes = codes[len(parts) :]
        entries.append(_side_task(random, deck, parts, unit))
    return SideFile("", "", FIRST_DAY, calendar, unit, tuple(entries), waits=tuple(waits))


def _side_task(random: Random, deck: Deck, parts: tuple[str, ...], unit: int) -> SideTask:
    normal = sum(task.normal for task in deck.tasks if task.code in parts)
    return SideTask(
        code=parts[0],
        uid=f"u{parts[0]}",
        row=None,
        name=f"Task {parts[0]}",
        outline=(),
        parts=parts,
        normal=normal,
        minutes=normal * unit,
        percent=random.choice((None, Decimal(random.randint(0, 100)))),
        remaining=random.choice((None, random.randint(0, 2 * normal * unit + 60))),
    )
