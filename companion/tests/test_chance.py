"""The simulation of lengths, against closed forms and a simulation of the tests' own."""

import random
from collections.abc import Callable, Mapping, Sequence
from datetime import date
from fractions import Fraction
from itertools import combinations

import pytest
from hypothesis import given, settings
from hypothesis import strategies as st

from pert_companion.analysis.chance import RUNS, Simulation, quantiles, simulate
from pert_companion.model.cards import ActivityCard, EventCard, ProjectCard
from pert_companion.model.deck import Deck
from timing import within

UNIT = 1000
"""Units in the estimates of closed forms, so that rounding a length up counts for nothing."""
Estimates = tuple[int, int, int]
Arc = tuple[int, int, Estimates]
PAIRS = list(combinations(range(5), 2))


def network(arcs: Sequence[Arc]) -> Deck:
    """Returns a network of arcs from an event to a later one; the last event is the end."""
    last = max(ends for _, ends, _ in arcs)
    cards = []
    for place, (begins, ends, (low, likely, high)) in enumerate(arcs):
        ends_of = (f"E{begins}", f"E{ends}")
        cards.append(ActivityCard(f"A{place}", *ends_of, "W", low, likely, high, likely, 0, 0, 0))
    project = ProjectCard("P", "E0", f"E{last}", date(2026, 1, 5))
    events = tuple(EventCard(f"E{event}") for event in range(last + 1))
    return Deck(project, events=events, activities=tuple(cards))


def run(arcs: Sequence[Arc], durations: Mapping[str, int] | None = None) -> Simulation:
    """Returns the simulation of arcs that are a task each."""
    found = simulate(network(arcs), [[f"A{place}"] for place in range(len(arcs))], durations)
    assert found is not None
    return found


def largest_difference(found: Simulation, chance: Callable[[float], float]) -> float:
    """Returns how far the chances of the lengths are from a distribution on 0 to UNIT."""
    lengths = range(0, UNIT + 1, 10)
    return max(abs(float(found.chance_of(it)) - chance(it / UNIT)) for it in lengths)


def early(x: float) -> float:
    """Returns the chance of at most x if the optimistic duration is the likely one: B(1, 5)."""
    return 1 - (1 - x) ** 5


def middle(x: float) -> float:
    """Returns the chance of at most x if the likely duration is in the middle: B(3, 3)."""
    return x**3 * (10 - 15 * x + 6 * x * x)


def late(x: float) -> float:
    """Returns the chance of at most x if the pessimistic duration is the likely one: B(5, 1)."""
    return x**5


@pytest.mark.parametrize(("likely", "chance"), [(0, early), (500, middle), (1000, late)])
def test_one_task_has_the_distribution_of_its_estimates(
    likely: int, chance: Callable[[float], float]
) -> None:
    found = run([(0, 1, (0, likely, UNIT))])
    assert len(found.lengths) == RUNS
    assert largest_difference(found, chance) < 0.025
    assert found.criticality == {"A0": Fraction(1)}


@pytest.mark.parametrize("mode", [Fraction(0), Fraction(1, 7), Fraction(1, 2), Fraction(1)])
def test_the_mean_of_a_task_is_that_of_pert(mode: Fraction) -> None:
    assert abs(quantiles(mode).mean() - float((4 * mode + 1) / 6)) < 1e-3
    steps = quantiles(mode)[1:] - quantiles(mode)[:-1]
    assert steps.min() > 0


def test_where_two_walks_meet_the_end_is_later_than_that_of_either() -> None:
    found = run([(0, 1, (0, 500, UNIT)), (0, 1, (0, 500, UNIT))])
    assert largest_difference(found, lambda x: middle(x) ** 2) < 0.025
    assert abs(float(found.criticality["A0"]) - 0.5) < 0.025
    assert found.criticality["A0"] + found.criticality["A1"] == pytest.approx(1, abs=0.01)


def test_tasks_one_after_the_other_add_up() -> None:
    found = run([(0, 1, (100, 100, 700)), (1, 2, (0, 300, 600))])
    mean = sum(found.lengths) / RUNS
    assert abs(mean - (200 + 300)) < 6
    variance = sum((it - mean) ** 2 for it in found.lengths) / RUNS
    # of B(alpha, beta) with alpha + beta = 6: alpha * beta / (36 * 7)
    assert variance == pytest.approx(600**2 * (1 * 5 + 3 * 3) / 252, rel=0.06)


def test_a_walk_that_is_never_the_longest_is_never_critical() -> None:
    found = run([(0, 1, (9, 10, 12)), (0, 1, (20, 22, 25)), (1, 2, (0, 0, 0))])
    assert found.criticality == {"A0": Fraction(0), "A1": Fraction(1)}
    assert (found.uncertain, found.tasks) == (2, 2)


def test_parts_of_a_task_are_all_early_or_all_late() -> None:
    one = simulate(network([(0, 1, (0, 500, UNIT))]), [["A0"]])
    halves: list[Arc] = [(0, 1, (0, 250, UNIT // 2)), (1, 2, (0, 250, UNIT // 2))]
    parts = simulate(network(halves), [["A0", "A1"]])
    assert one is not None and parts is not None
    assert max(abs(a - b) for a, b in zip(one.lengths, parts.lengths)) <= 1
    assert parts.criticality == {"A0": Fraction(1)}
    assert (parts.uncertain, parts.tasks) == (1, 1)


def test_a_task_is_critical_if_one_of_its_parts_is() -> None:
    arcs = [(0, 1, (1, 1, 1)), (1, 2, (5, 5, 5)), (0, 2, (8, 9, 10))]
    found = simulate(network(arcs), [["A0", "A2"], ["A1"]])
    assert found is not None
    assert found.criticality == {"A0": Fraction(1), "A1": Fraction(0)}


def test_single_estimates_say_nothing() -> None:
    arcs = [(0, 1, (5, 5, 5)), (1, 2, (0, 0, 0)), (1, 2, (7, 7, 7))]
    assert simulate(network(arcs), [["A0"], ["A2"]]) is None


def test_some_estimates_say_how_many() -> None:
    found = run([(0, 1, (5, 5, 5)), (1, 2, (0, 0, 0)), (1, 2, (6, 7, 9))])
    assert (found.uncertain, found.tasks) == (1, 2)


def test_a_shortened_task_has_estimates_in_proportion() -> None:
    arcs: list[Arc] = [(0, 1, (200, 400, 900))]
    assert run(arcs, {"A0": 400}).lengths == run(arcs).lengths
    half = run(arcs, {"A0": 200}).lengths
    assert max(abs(2 * it - whole) for it, whole in zip(half, run(arcs).lengths)) <= 2


def test_the_same_network_has_the_same_numbers() -> None:
    arcs: list[Arc] = [(0, 1, (5, 9, 20)), (1, 2, (3, 4, 8)), (0, 2, (8, 13, 25))]
    assert run(arcs) == run(arcs)


def test_a_task_is_drawn_as_before_when_another_one_becomes_certain() -> None:
    short, certain, long = (1, 2, 3), (1, 1, 1), (100, 200, 400)
    before, now = run([(0, 1, short), (0, 1, long)]), run([(0, 1, certain), (0, 1, long)])
    assert before.lengths == now.lengths


@given(st.lists(st.tuples(st.sampled_from(PAIRS), st.tuples(*[st.integers(0, 9)] * 3)), min_size=1))
@settings(max_examples=40, deadline=None)
def test_chance_and_length_are_inverse(drawn: list[tuple[tuple[int, int], Estimates]]) -> None:
    arcs = [(0, 1, (1, 2, 3))]
    for (begins, ends), days in drawn:
        low, likely, high = sorted(days)
        arcs.append((begins, ends, (low, likely, high)))
    found = run(arcs)
    assert found.lengths == tuple(sorted(found.lengths))
    for percent in (1, 50, 80, 99, 100):
        chance = Fraction(percent, 100)
        length = found.length_with(chance)
        assert found.chance_of(length) >= chance > found.chance_of(length - 1)
    assert all(0 <= share <= 1 for share in found.criticality.values())
    longest = max(found.lengths)
    assert longest <= sum(high for _, _, (_, _, high) in arcs)


def test_random_networks_against_a_plain_simulation() -> None:
    chance = random.Random(4)
    for _ in range(12):
        arcs = [(event, event + 1, estimates(chance)) for event in range(4)]
        arcs += [(*chance.choice(PAIRS), estimates(chance)) for _ in range(6)]
        found = run(arcs)
        lengths, critical = plain_simulation(arcs, chance, 3000)
        for percent in (10, 50, 80, 95):
            mine = lengths[len(lengths) * percent // 100]
            assert found.length_with(Fraction(percent, 100)) == pytest.approx(mine, rel=0.02)
        for place, share in enumerate(critical):
            assert float(found.criticality[f"A{place}"]) == pytest.approx(share, abs=0.05)


def estimates(chance: random.Random) -> Estimates:
    """Returns three estimates in rising order."""
    low, likely, high = sorted(chance.randrange(100, 2000) for _ in range(3))
    return low, likely, high


def plain_simulation(
    arcs: Sequence[Arc], chance: random.Random, runs: int
) -> tuple[list[float], list[float]]:
    """Returns the lengths of runs in rising order, and how often each arc was critical."""
    lengths, critical = [], [0] * len(arcs)
    last = max(ends for _, ends, _ in arcs)
    for _ in range(runs):
        durations = [drawn(chance, *each) for _, _, each in arcs]
        walks = [(0.0, 0, list[int]())]
        complete = []
        while walks:
            length, event, walk = walks.pop()
            if event == last:
                complete.append((length, walk))
            for place, (begins, ends, _) in enumerate(arcs):
                if begins == event:
                    walks.append((length + durations[place], ends, [*walk, place]))
        length, walk = max(complete)
        lengths.append(length)
        for place in walk:
            critical[place] += 1
    return sorted(lengths), [count / runs for count in critical]


def drawn(chance: random.Random, low: int, likely: int, high: int) -> float:
    """Returns a PERT-beta duration."""
    if low == high:
        return low
    share = (likely - low) / (high - low)
    return low + (high - low) * chance.betavariate(1 + 4 * share, 5 - 4 * share)


def test_five_thousand_tasks_take_five_seconds() -> None:
    chance = random.Random(3)
    arcs = [(event, event + 1, estimates(chance)) for event in range(2500)]
    for _ in range(2500):
        begins = chance.randrange(2450)
        arcs.append((begins, begins + chance.randrange(1, 50), estimates(chance)))
    with within(5):
        run(arcs)
