"""The options of a decision, against sums by hand."""

from dataclasses import replace
from datetime import date, timedelta

import pytest

from page.certificates import HOUSE, PROGRAMS, house_with_terms
from pert_companion.analysis.options import (
    Mark,
    Option,
    Reason,
    chosen_option,
    options,
    options_at,
    time_price,
    total_cost,
)
from pert_companion.model.cards import TermsCard
from pert_companion.model.deck import parse_deck
from pert_companion.state.project import ProjectState, state_of

FIRST = date(2024, 3, 4)
TOTALS = {35: 16100, 34: 16040, 32: 15940, 31: 15900, 30: 15890, 28: 15930, 27: 16000}
"""Cost of the work by `pert curve`, plus 90 a day, less 40 a day before 30, plus 70 after."""


def plan(text: bytes) -> ProjectState:
    """Returns the state of the house before anything has begun."""
    lines = text.split(b"\n")
    left = [line for line in lines if not line.startswith((b"STATUS", b"ASOF"))]
    return state_of(parse_deck(b"\n".join(left), "house.csv"), PROGRAMS)


@pytest.fixture(name="house", scope="module")
def house_fixture() -> ProjectState:
    """Returns the plan of the house with a price of time."""
    return plan(house_with_terms())


def day(length: int) -> date:
    """Returns the last day of a length of the house."""
    return FIRST + timedelta(days=length - 1)


def with_reason(found: tuple[Option, ...], reason: Reason) -> Option:
    (option,) = [option for option in found if option.has(reason)]
    return option


def test_a_length_costs_its_work_and_its_time(house: ProjectState) -> None:
    assert {length: total_cost(house.rest, length) for length in TOTALS} == TOTALS


def test_the_price_of_time_has_three_parts() -> None:
    price = time_price(TermsCard(90, 30, 40, 70), 28)
    assert (price.overhead, price.bonus, price.penalty, price.total) == (2520, 80, 0, 2440)
    late = time_price(TermsCard(90, 30, 40, 70), 33)
    assert (late.overhead, late.bonus, late.penalty, late.total) == (2970, 0, 210, 3180)


def test_options_are_compared_with_today_in_all(house: ProjectState) -> None:
    found = options(house, [(Reason.CONTRACT, day(32))])
    assert [option.length for option in found] == [35, 32, 30, 27]
    today, contract, cheapest, shortest = found
    assert today.has(Reason.TODAY) and shortest.has(Reason.SHORTEST)
    assert contract.has(Reason.CONTRACT) and not contract.has(Reason.CHEAPEST)
    assert cheapest.has(Reason.CHEAPEST) and cheapest.has(Reason.TARGET)
    assert (cheapest.end, cheapest.work, cheapest.time) == (day(30), 13190, 2700)
    assert (cheapest.total, cheapest.against_today) == (15890, -210)
    assert (cheapest.work_against_today, cheapest.time_against_today) == (590, -800)
    # one day less: 13340 + 90 x 29 - 40 = 15910
    assert (cheapest.next, shortest.next) == (20, None)
    assert (today.against_today, today.next) == (0, TOTALS[34] - TOTALS[35])


def test_without_a_price_of_time_an_option_costs_its_work() -> None:
    found = options(plan(HOUSE.read_bytes()), [(Reason.PLANNED, day(31))])
    assert [option.length for option in found] == [35, 31, 27]
    assert [(it.work, it.time, it.total) for it in found] == [
        (12600, None, 12600),
        (13040, None, 13040),
        (13690, None, 13690),
    ]
    assert [option.next for option in found] == [100, 150, None]


@pytest.mark.parametrize("length", [26, 36])
def test_a_day_that_no_schedule_ends_on_is_no_option(house: ProjectState, length: int) -> None:
    assert not any(
        option.has(Reason.CONTRACT) for option in options(house, [(Reason.CONTRACT, day(length))])
    )


def test_today_may_end_on_the_contract_date(house: ProjectState) -> None:
    today = options(house, [(Reason.CONTRACT, day(35))])[0]
    assert today.has(Reason.TODAY) and today.has(Reason.CONTRACT)


def test_a_deadline_of_the_last_task_is_an_option(house: ProjectState) -> None:
    tasks = {task.code: replace(task, deadline=day(29)) for task in house.side.tasks}
    for code in ("PAINT", "SITE"):
        side = replace(
            house.side,
            tasks=tuple(tasks[t.code] if t.code == code else t for t in house.side.tasks),
        )
        state = state_of(house.deck, PROGRAMS)
        state = replace(state, side=side)
        found = [option for option in options(state) if option.has(Reason.DEADLINE)]
        last = {card.code for card in house.deck.activities if card.ends == house.deck.project.end}
        assert [option.length for option in found] == ([29] if code in last else [])


def test_each_length_is_one_option(house: ProjectState) -> None:
    found = options_at(house.rest, [Mark(30, Reason.TARGET), Mark(30, Reason.CHEAPEST)])
    assert [(it.length, len(it.marks)) for it in found] == [(30, 2)]
    assert chosen_option(house.rest, 30).marks == (Mark(30, Reason.CHOSEN),)
