"""What tests of ways back into planners' files share: schedules at three lengths, and their dates.

The dates of what is left are computed a second time here, in the plainest form.
"""

from collections.abc import Mapping
from dataclasses import replace
from datetime import timedelta
from decimal import Decimal

from cpm import (
    Dates,
    PlainLink,
    as_late,
    dates_of,
    is_as_late,
    own_bounds,
    plain_links,
    push_back,
)
from pert_companion.analysis.lengths import LengthChoice
from pert_companion.analysis.schedule import Schedule
from pert_companion.analysis.scheduling import rest_schedule
from pert_companion.carry import Carried
from pert_companion.model.amounts import measure_of
from pert_companion.model.plan import LinkKind, Plan, Task
from pert_companion.programs.client import Programs
from pert_companion.state.project import ProjectState

PROGRAMS = Programs()


def in_one_piece(plan: Plan) -> Plan:
    """Returns a plan with links that tie starts alone, so that no task pauses when shortened."""
    kinds = {
        LinkKind.FINISH_FINISH: LinkKind.FINISH_START,
        LinkKind.START_FINISH: LinkKind.START_START,
    }
    links = tuple(replace(link, kind=kinds.get(link.kind, link.kind)) for link in plan.links)
    return replace(plan, links=links)


def state_of(carried: Carried) -> ProjectState:
    """Returns the state of an import."""
    return ProjectState(PROGRAMS, carried.deck, carried.side)


def three_lengths(carried: Carried) -> list[Schedule]:
    """Returns the schedules of the normal, the shortest, and a length between them."""
    state = state_of(carried)
    measure = measure_of(state.side)
    first, last = state.rest.shortest, state.rest.longest
    return [
        rest_schedule(state, LengthChoice(days=Decimal(measure.days(length))))
        for length in dict.fromkeys((first, (first + last) // 2, last))
    ]


def check_dates(plan: Plan, schedule: Schedule) -> None:
    """Compares the dates that a plan lists with those that its links and durations give.

    The plan has not begun, and has the durations of the schedule.
    """
    chosen = {task.uid: task for task in schedule.tasks}
    found = as_late(plan, dates_of(plan))
    for task in plan.tasks():
        assert task.minutes == chosen[task.uid].chosen_minutes
        check_listed(plan, task, found[task.uid])


def check_listed(plan: Plan, task: Task, dates: Dates) -> None:
    """Compares the dates that a task lists with those that it has to have.

    A free day counts as the working day after it for a start, as the one before it for a finish.
    """
    calendar = plan.calendar
    listed = (task.listed_start, task.listed_finish)
    if task.is_milestone:
        moment = calendar.end_at(dates.start) if dates.start else calendar.at(dates.start)
        days = {calendar.at(dates.start).date(), moment.date()}
        assert listed[0] in days and listed[1] in days
        return
    assert listed[0] is not None and listed[1] is not None
    worked = (calendar.morning(listed[0]).date(), calendar.evening(listed[1]).date())
    assert worked == (dates.first_day(calendar), dates.last_day(calendar)), task


def rest_dates(plan: Plan, left: Mapping[str, int]) -> dict[str, tuple[int, int]]:
    """Returns when what is left of each unfinished task begins and ends: positions on the calendar.

    `left` has the minutes that are left of each unfinished task. Links from finished tasks count
    from their dates, those from the starts of begun ones from the actual start.
    """
    assert plan.data_date is not None
    calendar = plan.calendar
    now = calendar.position(calendar.morning(plan.data_date + timedelta(days=1)))
    tasks = {task.uid: task for task in plan.tasks()}
    done = {uid: _actual(plan, task) for uid, task in tasks.items()}
    early = {uid: now for uid in left}
    for uid in left:
        if done[uid][0] is None:
            early[uid] = max(now, *own_bounds(calendar, tasks[uid], left))
    links = list(plain_links(plan, {uid: task.minutes for uid, task in tasks.items()}))
    for _ in range(len(tasks) + 2):
        for link in links:
            if link.successor not in left:
                continue
            start, finish = done[link.predecessor]
            if finish is None and link.predecessor in left:
                finish = early[link.predecessor] + left[link.predecessor]
            if start is None and link.predecessor in left:
                start = early[link.predecessor]
            position = finish if link.kind.value[0] == "F" else start
            assert position is not None
            early[link.successor] = max(early[link.successor], position + link.lag)
    late = {uid for uid in left if is_as_late(tasks[uid]) and done[uid][0] is None}
    found = _moved(early, left, late, [link for link in links if link.predecessor in late])
    return {uid: (found[uid], found[uid] + left[uid]) for uid in left}


def _moved(
    early: Mapping[str, int], left: Mapping[str, int], late: set[str], links: list[PlainLink]
) -> dict[str, int]:
    """Returns the starts in which late tasks wait as long as they delay no other.

    `links` are those from late tasks.
    """
    end = max((early[uid] + left[uid] for uid in left), default=0)
    held = {uid: end - left[uid] if uid in late else early[uid] for uid in left}
    for _ in range(len(held) + 2):
        for link in links:
            if link.successor in left:
                push_back(link, held, left)
    return {uid: max(early[uid], held[uid]) for uid in left}


def _actual(plan: Plan, task: Task) -> tuple[int | None, int | None]:
    """Returns the positions of the actual start and finish of a task, as far as there are any."""
    calendar = plan.calendar
    start, finish = task.progress.actual_start, task.progress.actual_finish
    return (
        None if start is None else calendar.position(calendar.morning(start)),
        None if finish is None else calendar.position(calendar.evening(finish)),
    )
