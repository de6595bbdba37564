"""Tasks that are to be as late as possible wait exactly as long as they delay nothing else."""

from dataclasses import replace
from datetime import date

from hourly import dates_by_hours, moment_of
from hypothesis import assume, given
from hypothesis import strategies as st
from test_passes import BEGIN, Case, cases, passes_of, property_settings

from pert_companion.analysis.as_late import delays
from pert_companion.carry import carry
from pert_companion.carry.arrows import network_of
from pert_companion.model.calendar import Calendar
from pert_companion.model.deck import Deck
from pert_companion.model.plan import Constraint, ConstraintKind, Lag, Link, LinkKind, Plan, Task

DAY = 480
LATE = Constraint(ConstraintKind.AS_LATE_AS_POSSIBLE, None)


def early_times(network: Deck, durations: dict[str, int]) -> dict[str, int]:
    """Returns the early times of the events of a network, by passes until nothing changes."""
    times = {event.code: 0 for event in network.events}
    changed = True
    while changed:
        changed = False
        for card in network.activities:
            reached = times[card.begins] + durations[card.code]
            if reached > times[card.ends]:
                times[card.ends] = reached
                changed = True
    return times


def delays_of(days: dict[str, int], late: set[str], *links: Link) -> dict[str, int]:
    """Returns by how many days the late tasks of a plan wait."""
    tasks = tuple(
        Task(name, name, name, count * DAY, constraint=LATE if name in late else None)
        for name, count in days.items()
    )
    carried = carry(Plan("P", date(2026, 3, 2), Calendar(), tasks, links))
    network = network_of(carried.deck)
    durations = {card.code: card.normal for card in network.activities}
    return delays(network, carried.side, early_times(network, durations), durations)


def test_late_tasks_wait_for_what_follows() -> None:
    """A takes 2 days and B 7, then C: A waits 5 days; so do two late tasks in a row, together.

    D, which nothing follows, waits until the end of the project, on day 8.
    """
    links = (Link("A", "C"), Link("B", "C"))
    days = {"A": 2, "B": 7, "C": 1, "D": 3}
    assert delays_of(days, {"A", "D"}, *links) == {"A": 5, "D": 5}
    row = (Link("A0", "A"), *links)
    assert delays_of({"A0": 1, **days}, {"A0", "A"}, *row) == {"A0": 4, "A": 4}
    assert delays_of({"A0": 1, **days}, {"A0"}, *row) == {"A0": 0}


def test_lags_and_ties_to_starts() -> None:
    """C comes 3 days after A, which waits 2 of the 7 days of B; 2 days after its start, 5 of them.

    If C only has to end after A, A may end with it, on day 8.
    """
    days = {"A": 2, "B": 7, "C": 1}
    after_b = Link("B", "C")
    assert delays_of(days, {"A"}, after_b, Link("A", "C", lag=Lag(3 * DAY))) == {"A": 2}
    started = Link("A", "C", LinkKind.START_START, Lag(2 * DAY))
    assert delays_of(days, {"A"}, after_b, started) == {"A": 5}
    assert delays_of(days, {"A"}, after_b, Link("A", "C", LinkKind.FINISH_FINISH)) == {"A": 6}


@given(cases(), st.integers(0, 5))
@property_settings(2)
def test_by_several_calendars(case: Case, number: int) -> None:
    """A task that waits so long moves nothing else, and one that waits longer does."""
    passes = passes_of(case.plan)
    assume(passes is not None)
    assert passes is not None
    task = case.tasks[number % len(case.tasks)]
    assume(task.no_start_before is None and task.no_finish_before is None and task.hours)
    moved = passes.as_late({task.name})[task.name]
    walked = dates_by_hours(case.tasks, case.links, BEGIN)
    end = max(finish for _, finish in walked.values())
    hour = next(hour for hour in range(end + 1) if moment_of(hour) == moved.start)

    def others(begin: int) -> tuple[dict[str, tuple[int, int]], bool]:
        found = dates_by_hours(case.tasks, case.links, BEGIN, {task.name: begin})
        rest = {name: dates for name, dates in found.items() if name != task.name}
        return rest, found[task.name][1] <= end

    unmoved = {name: dates for name, dates in walked.items() if name != task.name}
    assert others(hour) == (unmoved, True)
    later = task.calendar.next_work(hour + 1)
    assert others(later) != (unmoved, True)


def test_a_begun_task_waits_no_more() -> None:
    """Only work that has not begun can be late."""
    tasks = tuple(Task(name, name, name, DAY, constraint=LATE) for name in "AB")
    carried = carry(Plan("P", date(2026, 3, 2), Calendar(), tasks, (Link("A", "B"),)))
    side = carried.side
    begun = replace(side.tasks[0], actual_start=date(2026, 3, 2))
    network = network_of(carried.deck)
    durations = {card.code: card.normal for card in network.activities}
    times = early_times(network, durations)
    assert set(delays(network, side, times, durations)) == {"A", "B"}
    side = replace(side, tasks=(begun, side.tasks[1]))
    assert set(delays(network, side, times, durations)) == {"B"}
