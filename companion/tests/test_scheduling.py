"""The dates of real tasks are those of a plain critical path method, in one piece."""

from dataclasses import replace
from datetime import date
from decimal import Decimal

from cpm import as_late
from hypothesis import assume, given
from plans import Feature, plans
from test_carry import DATES, PROGRAMS, early_dates, has_exact_links, property_settings

from pert_companion.analysis.as_late import delays
from pert_companion.analysis.earned_value import measured_packages
from pert_companion.analysis.measuring import all_pieces, planned_values
from pert_companion.analysis.money import money
from pert_companion.analysis.scheduling import in_one_piece, normal_schedule
from pert_companion.analysis.spanning import span
from pert_companion.carry import carry
from pert_companion.model.calendar import Calendar
from pert_companion.model.plan import Lag, Link, LinkKind, Plan, Task
from pert_companion.state.project import ProjectState

DAY = 480


FINISHES = Plan(
    "P",
    date(2026, 3, 2),
    Calendar(),
    tuple(Task(name, name, name, days * DAY) for name, days in (("A", 5), ("B", 7), ("C", 2))),
    (
        Link("A", "B", LinkKind.FINISH_FINISH, Lag(10 * DAY)),
        Link("B", "C", lag=Lag(-2 * DAY)),
    ),
)


def test_a_task_in_parts_that_ends_after_another_is_in_one_piece() -> None:
    """B ends 10 days after A, C begins 2 days before that: B's parts have no time between them."""
    carried = carry(FINISHES)
    tasks = {
        task.code: task
        for task in normal_schedule(ProjectState(PROGRAMS, carried.deck, carried.side).plan).tasks
    }
    assert carried.side.tasks[1].parts == ("B", "B.2")
    assert tasks["B"].start.date() == date(2026, 3, 12)
    assert tasks["B"].finish.date() == date(2026, 3, 20)
    assert tasks["C"].start.date() == date(2026, 3, 19)


@given(plans(DATES | {Feature.LEADS, Feature.ELAPSED_LAGS, Feature.GROUP_LINKS}))
@property_settings(4)
def test_tasks_have_the_dates_of_the_calendar(plan: Plan) -> None:
    """Each real task begins and ends on the days of a CPM over tasks in one piece."""
    carried = carry(plan)
    assume(has_exact_links(carried))
    dates = as_late(plan, early_dates(plan))
    network = PROGRAMS.network(carried.deck)
    point = PROGRAMS.normal(network)
    held = in_one_piece(network, carried.side, point)
    again = PROGRAMS.normal(held)
    begins = {card.code: again.events[card.begins] for card in held.activities}
    cards = {card.code: card for card in network.activities}
    assert (again.length, again.cost) == (point.length, point.cost)
    late = delays(network, carried.side, point.events, point.durations)
    for entry in carried.side.tasks:
        start, _ = span(entry, cards, point.events, point.durations)
        assert begins[entry.parts[0]] == start + late.get(entry.code, 0), entry.code
    for task in normal_schedule(ProjectState(PROGRAMS, carried.deck, carried.side).plan).tasks:
        if not task.is_milestone:
            assert task.start.date() == dates[task.uid].first_day(plan.calendar), task.uid
            assert task.finish.date() == dates[task.uid].last_day(plan.calendar), task.uid


def test_money_and_earned_value_follow_the_dates_of_one_piece() -> None:
    """Nothing of B is planned before day 9: A costs 500 by day 5, then comes 100 a day.

    Money over time has that too, although B is in two parts.
    """
    cost = {"A": 500, "B": 700, "C": 20}
    tasks = tuple(replace(task, cost=Decimal(cost[task.uid])) for task in FINISHES.tasks())
    carried = carry(replace(FINISHES, outline=tasks))
    plan = ProjectState(PROGRAMS, carried.deck, carried.side)
    pieces = all_pieces(list(measured_packages(plan, plan).values()))
    assert planned_values(pieces, (5, 10, 15)) == [500, 700, 1220]
    planned_money = {point.day: point.amount for point in money(plan).planned}
    days = (date(2026, 3, 6), date(2026, 3, 11), date(2026, 3, 13), date(2026, 3, 20))
    assert [planned_money[day] for day in days] == [500, 500, 700, 1220]
