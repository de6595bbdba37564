"""Money over time adds up, and has no history that nobody knows."""

from dataclasses import replace
from datetime import date
from random import Random

from hypothesis import given, settings
from hypothesis import strategies as st
from running import CASES, HOUSE, MONTHS, opened, plan_of
from status_decks import PACKAGES, random_tasks, side_file_of

from pert_companion.analysis.money import MoneyPoint, money
from pert_companion.model.deck import Deck
from pert_companion.model.parts import divided, with_costs_over_parts
from pert_companion.state.project import ProjectState
from pert_companion.writers import money_text

LONG = """PROJECT,P,s,e,2026-03-02,1,,Plan,2
WBS,W,,Work
WBS,A,W,Ground
TASK,DIG,A,1000,1000,1000,1000,600,1000,50,Dig
ACCT,A,A,1000,
END
"""


def test_the_house() -> None:
    """Spent by charge date; the plan ends at the budget, the forecast at the latest estimate."""
    found = money(opened(HOUSE))
    assert found.spent == (
        MoneyPoint(date(2024, 3, 6), 1000),
        MoneyPoint(date(2024, 3, 8), 1420),
        MoneyPoint(date(2024, 3, 15), 2220),
    )
    assert found.planned[0] == MoneyPoint(date(2024, 3, 3), 0)
    assert found.planned[-1] == MoneyPoint(date(2024, 4, 7), 13600)
    planned = {point.day: point.amount for point in found.planned}
    assert planned[date(2024, 3, 17)] == 4820 + 1000 * 14 // 35
    assert found.forecast[0] == MoneyPoint(date(2024, 3, 17), 2220)
    assert found.forecast[-1] == MoneyPoint(date(2024, 4, 11), 14020)
    assert not found.has_only_totals and found.note == ""
    for line in (found.planned, found.spent, found.forecast):
        assert list(line) == sorted(line, key=lambda point: (point.day, point.amount))


def test_totals_alone_have_no_history() -> None:
    """76,000 were spent by 14 March: nothing is known before, and that is said."""
    found = money(opened(CASES / "sh.csv"))
    assert found.spent == (MoneyPoint(date(2025, 3, 14), 76000),)
    assert found.has_only_totals
    assert "before 2025-03-14 is not known" in found.note
    assert found.forecast[-1].amount == 179_000
    text = money_text.to_text(found, "MONEY")
    assert text.startswith("MONEY\nDAY ") and text.endswith(f"note: {found.note}\n")
    assert money_text.to_csv(found).startswith(b"Day,Planned,Spent,Forecast\n2025-01-05,0,,\n")


def test_earlier_states_are_known_points() -> None:
    """What each month had spent at its data date."""
    plan, march, april, may = (
        opened(MONTHS / f"{name}.csv") for name in ("plan", "march", "april", "may")
    )
    found = money(may, plan, (plan, march, april))
    assert found.spent == (
        MoneyPoint(date(2026, 3, 31), 27800),
        MoneyPoint(date(2026, 4, 30), 68700),
        MoneyPoint(date(2026, 5, 29), 127900),
    )
    assert "known at data dates, the first 2026-03-31" in found.note
    assert found.planned[-1] == MoneyPoint(date(2026, 6, 10), 142_000)
    assert found.forecast[-1].day == date(2026, 6, 18)


def test_nothing_spent() -> None:
    """A plan without charges has no line of spending; a thousand days are some hundred periods."""
    found = money(plan_of(LONG))
    assert found.spent == () and "no charges" in found.note
    assert 300 < len(found.planned) < 400
    assert found.planned[-1] == found.forecast[-1] == MoneyPoint(date(2028, 11, 25), 1000)


def test_finished_work_with_money_to_go() -> None:
    """Nothing is left of the house, but 11,800 are said to be to go: they are due at once."""
    found = money(opened(CASES / "done.csv"))
    assert [point.amount for point in found.forecast] == [2470, 14270]


def test_cents() -> None:
    """All lines are in the smallest unit of money."""
    house = opened(HOUSE)
    cents = replace(house, side=replace(house.side, money_scale=100, currency="EUR"))
    found = money(cents, house)
    assert (found.money_scale, found.currency) == (100, "EUR")
    assert found.planned[-1].amount == 1_360_000 and found.spent[-1].amount == 2220


@given(st.integers(0, 10**9), st.lists(st.integers(0, 1000), min_size=1, max_size=9))
@settings(max_examples=100, deadline=None)
def test_parts_add_up(amount: int, weights: list[int]) -> None:
    """Each part is within a unit of its share."""
    if not any(weights):
        weights[0] = 1
    parts = divided(amount, weights)
    assert sum(parts) == amount
    for part, weight in zip(parts, weights):
        assert abs(part * sum(weights) - amount * weight) < sum(weights)


SPLIT = """PROJECT,P,s,e,2026-03-02,1,,Plan,2
WBS,W,,Work
WBS,G,W,Ground
TASK,A,G,2,2,2,2,1,400,10,Dig
TASK,A.2,G,2,2,2,2,2,0,0,Dig
TASK,B,G,1,1,1,1,1,0,0,Pour
AFTER,A.2,A
AFTER,B,A
ACCT,G,G,400,
END
"""


def split_plan(text: str) -> ProjectState:
    """Returns a plan whose task A is in two parts, as another one comes after the first."""
    found = plan_of(text)
    tasks = [task for task in found.side.tasks if task.code != "A.2"]
    parts = [replace(t, parts=("A", "A.2")) if t.code == "A" else t for t in tasks]
    return replace(found, side=replace(found.side, tasks=tuple(parts)))


def test_the_money_of_a_split_task_comes_with_each_of_its_parts() -> None:
    """Four days cost 400, 100 each, though the card of the first part has it all."""
    found = money(split_plan(SPLIT))
    assert found.planned == tuple(MoneyPoint(date(2026, 3, 1 + at), 100 * at) for at in range(5))


def test_what_a_split_task_still_needs_comes_with_the_part_that_is_left() -> None:
    """The first part is done for 250; 200 are to go in the two days of the second."""
    text = SPLIT.replace("WBS,W,", "ASOF,2026-03-04\nWBS,W,", 1).replace(
        "END", "CHARGE,G,2026-03-03,250\nTOGO,G,2026-03-04,200\nEND"
    )
    for code, letter, day in (
        ("A", "S", 2),
        ("A", "F", 4),
        ("B", "S", 4),
        ("B", "F", 4),
    ):
        text = text.replace("END", f"STATUS,{code},{letter},2026-03-0{day}\nEND")
    found = money(split_plan(text))
    amounts = [(point.day.day, point.amount) for point in found.forecast]
    assert amounts == [(3, 250), (4, 350), (5, 450)]


def test_costs_over_parts_keep_those_of_packages_and_of_tasks_in_one_piece() -> None:
    plan = split_plan(SPLIT)
    deck = with_costs_over_parts(plan.deck, plan.side)
    costs = {card.code: card.cost for card in deck.tasks}
    assert costs == {"A": 200, "A.2": 200, "B": 0}
    whole = plan_of(SPLIT)
    assert with_costs_over_parts(whole.deck, whole.side) == whole.deck


@settings(max_examples=60)
@given(seed=st.integers(0, 2**32))
def test_costs_over_parts_are_those_of_any_package(seed: int) -> None:
    deck = random_tasks(Random(seed))
    found = with_costs_over_parts(deck, side_file_of(Random(seed), deck))
    for package in PACKAGES:
        assert cost_of(found, package) == cost_of(deck, package)


def cost_of(deck: Deck, package: str) -> int:
    """Returns what the work of a package costs."""
    return sum(card.cost for card in deck.work if card.item == package)
