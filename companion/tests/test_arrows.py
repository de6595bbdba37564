"""The network that `carry` makes of a plan that is too large for a deck of tasks."""

import random
from collections import Counter
from dataclasses import replace
from datetime import date
from decimal import Decimal
from shutil import which

import pytest
from hypothesis import given, settings
from hypothesis import strategies as st

from plans import ALL_FEATURES, plans
from pert_companion.carry import Carried, CarryOptions, carry, carrying
from pert_companion.carry.arrows import network_of
from pert_companion.model.calendar import Calendar
from pert_companion.model.cards import ActivityCard
from pert_companion.model.deck import Deck, parse_deck
from pert_companion.model.errors import InputError
from pert_companion.model.losses import LossKind
from pert_companion.model.plan import Crash, Lag, Link, LinkKind, Plan, Progress, Task
from pert_companion.model.predecessors import first_day_waits, real_links
from pert_companion.importing.pauses import pausing_tasks
from pert_companion.programs.client import Programs
from timing import within

DAY = 480
KINDS = (LinkKind.START_START, LinkKind.FINISH_FINISH)


def early_of_tasks(deck: Deck) -> dict[str, tuple[int, int]]:
    """Returns the early start and finish of each card of a deck of tasks, by passes over links."""
    normal = {card.code: card.normal for card in deck.tasks}
    early = dict.fromkeys(normal, 0)
    for _ in range(len(early) + 1):
        before = dict(early)
        for link in deck.afters:
            early[link.task] = max(early[link.task], early[link.before] + normal[link.before])
        if before == early:
            return {code: (start, start + normal[code]) for code, start in early.items()}
    raise AssertionError("a circle")


def early_of_events(activities: tuple[ActivityCard, ...]) -> dict[str, int]:
    """Returns the early time of each event of a network, by passes over activities."""
    early = {card.begins: 0 for card in activities} | {card.ends: 0 for card in activities}
    for _ in range(len(early) + 1):
        before = dict(early)
        for card in activities:
            early[card.ends] = max(early[card.ends], early[card.begins] + card.normal)
        if before == early:
            return early
    raise AssertionError("a circle")


def late_finishes_of_tasks(deck: Deck, end: int) -> dict[str, int]:
    """Returns the late finish of each card of a deck of tasks that ends at `end`."""
    normal = {card.code: card.normal for card in deck.tasks}
    late = dict.fromkeys(normal, end)
    for _ in range(len(late) + 1):
        before = dict(late)
        for link in deck.afters:
            late[link.before] = min(late[link.before], late[link.task] - normal[link.task])
        if before == late:
            return late
    raise AssertionError("a circle")


def late_of_events(activities: tuple[ActivityCard, ...], end: int) -> dict[str, int]:
    """Returns the late time of each event of a network that ends at `end`."""
    late = {card.begins: end for card in activities} | {card.ends: end for card in activities}
    for _ in range(len(late) + 1):
        before = dict(late)
        for card in activities:
            late[card.begins] = min(late[card.begins], late[card.ends] - card.normal)
        if before == late:
            return late
    raise AssertionError("a circle")


def shape_faults(deck: Deck) -> list[str]:
    """Returns what `pert` would refuse in the shape of a network."""
    faults = []
    entered = {card.ends for card in deck.activities}
    left = {card.begins for card in deck.activities}
    start, end = deck.project.start, deck.project.end
    for event in (card.code for card in deck.events):
        if (event in entered) == (event == start):
            faults.append(f"entering {event}")
        if (event in left) == (event == end):
            faults.append(f"leaving {event}")
    if any(card.begins == card.ends for card in deck.activities):
        faults.append("an activity within an event")
    counts = Counter([card.code for card in deck.activities] + [card.code for card in deck.events])
    faults += [code for code, count in counts.items() if count > 1]
    return faults


@settings(max_examples=150)
@given(plan=plans())
def test_the_network_has_the_times_and_floats_of_the_tasks(plan: Plan) -> None:
    """Each card begins as early, and ends as late, as in the deck of tasks; nothing is lost."""
    deck = carry(plan).deck
    network = network_of(deck)
    assert shape_faults(network) == [] and not network.tasks and not network.afters
    early, times = early_of_tasks(deck), early_of_events(network.activities)
    end = max(finish for _, finish in early.values())
    assert times[network.project.end] == end
    late, latest = late_finishes_of_tasks(deck, end), late_of_events(network.activities, end)
    cards = {card.code: card for card in network.activities}
    for code, (start, _) in early.items():
        assert times[cards[code].begins] == start
        assert latest[cards[code].ends] == late[code]
    assert network.statuses == deck.statuses and network.loads == deck.loads


@settings(max_examples=150)
@given(plan=plans())
def test_the_links_are_found_again_in_the_network(plan: Plan) -> None:
    """Tables and exports show the same predecessors and waits as for a deck of tasks."""
    carried = carry(plan)
    network = network_of(carried.deck)
    for code, links in real_links(carried.deck, carried.side).items():
        assert set(real_links(network, carried.side)[code]) == set(links)
    waits = first_day_waits(carried.deck, carried.side)
    assert first_day_waits(network, carried.side) == waits


@pytest.mark.skipif(which("pert") is None, reason="needs the programs")
@settings(max_examples=25)
@given(plan=plans())
def test_the_curve_is_that_of_arrows(plan: Plan) -> None:
    """`pert` gives the network that `arrows` makes and this one the same lengths and costs."""
    programs = Programs()
    deck = carry(plan).deck
    wanted = programs.curve(programs.network(deck))
    assert programs.curve(parse_deck(network_of(deck).to_bytes(), "network")) == wanted


def large_plan(tasks: int, share: int = 5, seed: int = 7) -> Plan:
    """Returns a plan with so many tasks; one in `share` links is SS or FF, and one has a lag."""
    random_ = random.Random(seed)
    outline = []
    links = []
    for number in range(tasks):
        minutes = random_.randint(1, 20) * DAY
        crash = Crash(minutes // 2 // DAY * DAY, slope=Decimal(100)) if number % 4 == 0 else None
        uid = str(number)
        outline.append(Task(uid, f"row {number}", f"Task {number}", minutes, crash=crash))
        for back in sorted(random_.sample(range(1, 41), random_.choice((1, 1, 2)))):
            if back > number:
                continue
            is_other = random_.randrange(share) == 0
            kind = random_.choice(KINDS) if is_other else LinkKind.FINISH_START
            lag = Lag(random_.randint(1, 5) * DAY) if random_.randrange(share) == 0 else Lag()
            links.append(Link(str(number - back), uid, kind, lag))
    return Plan(
        "Large",
        date(2026, 9, 1),
        Calendar(),
        tuple(outline),
        tuple(links),
        source="xer",
    )


@pytest.fixture(scope="module", name="largest")
def largest_plan() -> Carried:
    """Returns the deck of 5,000 tasks."""
    return carry(large_plan(5000))


def test_five_thousand_tasks_fit(largest: Carried) -> None:
    """A fifth of the links are SS or FF, and a fifth have lags; it takes seconds."""
    deck = largest.deck
    assert not deck.is_of_tasks and shape_faults(deck) == []
    assert len(deck.events) <= 10_000 and len(deck.activities) <= 20_000
    assert len(largest.side.tasks) == 5000
    assert {loss.kind for loss in largest.losses} <= {LossKind.PAUSE}
    codes = {card.code for card in deck.activities}
    assert all(codes.issuperset(task.parts) for task in largest.side.tasks)


def test_a_large_plan_is_quick() -> None:
    """Events are joined in a few passes over the links."""
    with within(20):
        carry(large_plan(5000))


@pytest.mark.skipif(which("pert") is None, reason="needs the programs")
def test_pert_takes_the_large_network(largest: Carried) -> None:
    """Its length is that of passes over the tests' own events."""
    early = early_of_events(largest.deck.activities)
    programs = Programs()
    assert programs.normal(largest.deck).length == early[largest.deck.project.end]


def test_small_plans_stay_decks_of_tasks(monkeypatch: pytest.MonkeyPatch) -> None:
    """Up to the limits of TASK and AFTER cards a deck has the tasks that people know."""
    plan = large_plan(40)
    cards, links = len(carry(plan).deck.tasks), len(carry(plan).deck.afters)
    for limits, is_of_tasks in (
        ({"TASK": cards, "AFTER": links}, True),
        ({"TASK": cards - 1, "AFTER": links}, False),
        ({"TASK": cards, "AFTER": links - 1}, False),
    ):
        monkeypatch.setattr(carrying, "TASK_LIMITS", limits)
        assert carry(plan).deck.is_of_tasks is is_of_tasks


def test_status_is_that_of_the_tasks(monkeypatch: pytest.MonkeyPatch) -> None:
    """A running plan has the same STATUS cards in both forms."""
    plan = large_plan(40)
    begun = replace(next(plan.tasks()), progress=Progress(actual_start=plan.start, remaining=DAY))
    running = replace(plan, outline=(begun, *plan.outline[1:]), data_date=date(2026, 9, 4))
    wanted = carry(running)
    monkeypatch.setattr(carrying, "TASK_LIMITS", {"TASK": 0, "AFTER": 0})
    found = carry(running)
    assert found.deck.statuses == wanted.deck.statuses != ()
    assert replace(found.side, deck_sha256="", cards={}) == replace(
        wanted.side, deck_sha256="", cards={}
    )


def test_too_large_plans_are_one_line() -> None:
    """The line has the count, the limit, and what the cards are for."""
    with pytest.raises(InputError, match="needs [0-9]+ EVENT cards, and a deck has at most 10000"):
        carry(large_plan(12_000), CarryOptions())


@settings(max_examples=100)
@given(plan=plans(ALL_FEATURES), longer=st.integers(0, 5))
def test_tasks_pause_in_both_forms_alike(plan: Plan, longer: int) -> None:
    """Whether tasks can be done in one piece is found in the network as in the deck of tasks."""
    carried = carry(plan)
    network = network_of(carried.deck)
    durations = {card.code: card.crash for card in network.activities}
    crashed = tuple(replace(card, normal=card.crash) for card in network.activities)
    length = early_of_events(crashed)[network.project.end] + longer
    found = pausing_tasks(network, carried.side, durations, length)
    assert found == pausing_tasks(carried.deck, carried.side, durations, length)
