"""Builds the schedule of the real tasks of a deck at one length.

`pert` computes the durations (`point`) and the times (`times` of the same network with these
durations as its estimates). This module reads both by real task and turns counts into moments of
the plan's calendar. `total_float` has the float of tasks whose finish waits for others.
"""

from collections.abc import Mapping
from dataclasses import dataclass, replace
from datetime import date, datetime

from pert_companion.analysis.actuals import Actuals
from pert_companion.analysis.lengths import LengthChoice, check_length, chosen_length, next_step
from pert_companion.analysis.as_late import delays, is_as_late
from pert_companion.analysis.latest import broken_lines, contract_end, contract_line
from pert_companion.analysis.real_dates import (
    RealDates,
    calendars_text,
    deadline_slack,
    in_plan_days,
)
from pert_companion.analysis.schedule import Schedule, ScheduledTask
from pert_companion.analysis.settling import Settled, settled
from pert_companion.analysis.spanning import span
from pert_companion.analysis.total_float import SIXTHS, LateDates
from pert_companion.model.cards import AccountCard, ActivityCard, EventCard, PieceCard
from pert_companion.model.clock import Clock
from pert_companion.model.deck import Deck
from pert_companion.model.errors import ProgramError
from pert_companion.model.parts import with_costs_over_parts
from pert_companion.model.predecessors import real_links
from pert_companion.model.sidefile import SideFile, SideTask
from pert_companion.programs import results
from pert_companion.state.project import ProjectState
from pert_companion.state.remaining import State
from pert_companion.state.work import Work


def schedule_at(work: Work, length: int) -> Schedule:
    """Returns the cheapest schedule for a length in units, as `pert point` has it.

    Raises `InputError` that says which lengths there are if this is none of them.
    """
    check_length(work, length)
    return settled_schedule(settled(work, length))


def normal_schedule(work: Work) -> Schedule:
    """Returns the schedule in which nothing is shortened."""
    return settled_schedule(settled(work, None))


def chosen_schedule(work: Work, choice: LengthChoice, on_terminal: bool = False) -> Schedule:
    """Returns the schedule of the length that somebody chose, as the program has it for the choice.

    `on_terminal` says whether its texts are for a terminal. Raises `InputError` or `ProgramError`
    if there is no such length.
    """
    return settled_schedule(chosen_work(work, choice), on_terminal)


def chosen_work(work: Work, choice: LengthChoice) -> Settled:
    """Returns the work of the length that somebody chose, counted at the dates of its schedule.

    Errors are those of `chosen_schedule`.
    """
    if choice.cheapest and work.side.logic is None:
        return Settled(work, work.optimum.point)
    is_normal = choice == LengthChoice()
    return settled(work, None if is_normal else chosen_length(work, choice))


def settled_schedule(found: Settled, on_terminal: bool = False) -> Schedule:
    """Returns the schedule of work that is counted at its dates."""
    return replace(schedule_of(found.work, found.point), counting=found.text(on_terminal))


def plan_schedule(state: ProjectState, choice: LengthChoice, on_terminal: bool = False) -> Schedule:
    """Returns the schedule of the plan of the first day, whatever has been done since."""
    schedule = chosen_schedule(state.plan, choice, on_terminal)
    return replace(schedule, is_past_plan=state.rest is not state.plan)


def rest_schedule(
    state: ProjectState, choice: LengthChoice = LengthChoice(), on_terminal: bool = False
) -> Schedule:
    """Returns the schedule of what is left of a state, with the actual dates of what is done.

    A finished task has its actual dates, and one under way its actual start; both have the float of
    what is left. If nothing has begun, this is the schedule of the plan.
    """
    return with_actual_dates(state, chosen_schedule(state.rest, choice, on_terminal))


def with_actual_dates(state: ProjectState, schedule: Schedule) -> Schedule:
    """Returns a schedule of what is left of a state with the actual dates of what is done."""
    if state.rest is state.plan:
        return schedule
    actuals = Actuals(state)
    tasks = tuple(
        _with_actuals(task, entry, actuals)
        for task, entry in zip(schedule.tasks, state.side.tasks, strict=True)
    )
    ends = [task.last_day for task in tasks]
    starts = [task.first_day for task in tasks]
    schedule = replace(schedule, tasks=tasks, start=min(starts), end=max(ends))
    return _with_broken_dates(replace(schedule, rest_of=state.as_of), state.rest)


def _with_actuals(task: ScheduledTask, entry: SideTask, actuals: Actuals) -> ScheduledTask:
    """Returns a task of the schedule of what is left with its actual dates."""
    side, state = actuals.state.side, actuals.states[task.code]
    normal = in_plan_days(side, entry, entry.minutes)
    task = replace(task, state=state, normal_minutes=normal)
    begun = actuals.start(entry)
    if state is State.WAITING or begun is None:
        return task
    calendar = side.calendar_of(entry)
    if state is State.FINISHED:
        ended = actuals.finish(entry) or begun
        lasted = calendar.between(begun, ended) if entry.minutes else 0
        return replace(
            task,
            start=begun if entry.minutes else ended,
            finish=ended,
            deadline_slack_minutes=deadline_slack(calendar, task.deadline, ended),
            chosen_minutes=in_plan_days(side, entry, lasted),
            total_float_minutes=0,
            is_critical=False,
        )
    done = max(0, normal - task.normal_left_minutes)
    return replace(
        task,
        start=begun,
        chosen_minutes=done + task.left_minutes,
        left_start=task.start,
    )


def schedule_of(work: Work, point: results.Point) -> Schedule:
    """Returns the real tasks of a schedule that is at hand, with the cost that the curve has.

    Raises `ProgramError` if the durations do not cost this.
    """
    cost, _ = results.cost_at(work.curve, point.length)
    builder = _Builder(work, point)
    if cost != point.cost or builder.total_cost() != point.cost:
        raise ProgramError(f"the costs of the schedule for {point.length} do not add up")
    project, side = work.deck.project, work.side
    tasks, end = builder.tasks(), builder.end(point.length).date()
    real = None
    if side.logic is not None:
        real = RealDates(side, point.durations, contract_end(side, work.deck))
    if real is not None:
        tasks = tuple(real.of(task, entry) for task, entry in zip(tasks, side.tasks))
    schedule = Schedule(
        title=project.title,
        code=project.code,
        length=point.length,
        unit_minutes=side.unit_minutes,
        day_minutes=side.calendar.day_minutes,
        start=side.start,
        end=end if real is None else real.end,
        cost=point.cost,
        next_step=next_step(work, point.length),
        tasks=tasks,
        currency=side.currency,
        money_scale=side.money_scale,
        counted_end=None if real is None else end,
        calendars=calendars_text(side),
    )
    return _with_broken_dates(schedule, work)


def _with_broken_dates(schedule: Schedule, work: Work) -> Schedule:
    """Returns a schedule with a line for each latest date that it breaks."""
    lines = list(broken_lines(work.side, schedule.tasks))
    contract = contract_line(work.side, work.deck, schedule.end)
    return replace(schedule, broken=(*lines, contract) if contract else tuple(lines))


@dataclass(frozen=True)
class TaskDates:
    """When a real task is done in a schedule."""

    code: str
    start: datetime
    """The first working moment."""
    finish: datetime
    """The moment at which work ends: an evening if it ends with the day."""
    is_milestone: bool

    @property
    def first_day(self) -> date:
        """Returns the day on which the task begins."""
        return self.start.date()

    @property
    def last_day(self) -> date:
        """Returns the last day of work."""
        return self.finish.date()


def normal_dates(work: Work) -> tuple[TaskDates, ...]:
    """Returns the dates of the tasks if nothing is shortened, in the order of the plan.

    It asks for no curve and no float: it is what an import compares with its file, and what a
    forecast compares with a baseline.
    """
    point, side = work.normal, work.side
    if side.logic is not None:
        return _real_dates(side, point)
    cards = {card.code: card for card in work.network.activities}
    late = delays(work.network, side, point.events, point.durations)
    return tuple(_dates(work, task, cards, point, late.get(task.code, 0)) for task in side.tasks)


def _real_dates(side: SideFile, point: results.Point) -> tuple[TaskDates, ...]:
    """Returns the dates of the tasks of a plan that has a logic."""
    early = RealDates(side, point.durations).dates
    return tuple(
        TaskDates(task.code, early[task.code].start, early[task.code].finish, task.minutes == 0)
        for task in side.tasks
    )


def _dates(
    work: Work,
    task: SideTask,
    cards: Mapping[str, ActivityCard],
    point: results.Point,
    delay: int,
) -> TaskDates:
    start, finish = span(task, cards, point.events, point.durations)
    is_work = any(point.durations[part] for part in task.parts)
    begins, ends = moments(work.clock, start + delay, finish + delay, is_work)
    return TaskDates(task.code, begins, ends, task.normal == 0)


def moments(clock: Clock, start: int, finish: int, is_work: bool) -> tuple[datetime, datetime]:
    """Returns the moments of a task between two counts of units.

    Work begins on a morning and ends on an evening; a milestone is at the end of a day of work.
    """
    if not is_work:
        moment = clock.end_moment(start)
        return moment, moment
    return clock.begin_moment(start), clock.end_moment(finish)


def in_one_piece(network: Deck, side: SideFile, point: results.Point) -> Deck:
    """Returns a network in which tasks begin when `span` says, so that money and work come then.

    `point` is the network at its normal durations. A card that could begin earlier gets a wait
    before it, as long as what it begins too early; the waits cost nothing, and the length stays.
    The cost of a task is that of all its parts, by their durations.
    """
    network = with_costs_over_parts(network, side)
    cards = {card.code: card for card in network.activities}
    waits: list[ActivityCard] = []
    late = delays(network, side, point.events, point.durations)
    for task in side.tasks:
        first = cards[task.parts[0]]
        start, _ = span(task, cards, point.events, point.durations)
        units = start + late.get(task.code, 0) - point.events[first.begins]
        if units > 0:
            code = f"_h{len(waits)}"
            days = (units,) * 5
            waits.append(ActivityCard(code, first.begins, code, first.item, *days, 0, 0))
            cards[first.code] = replace(first, begins=code)
    activities = (*cards.values(), *waits)
    events = (*network.events, *(EventCard(wait.code) for wait in waits))
    return replace(network, activities=activities, events=events)


def network_at(network: Deck, point: results.Point) -> Deck:
    """Returns a network in which the durations of a schedule are the only ones, at their cost.

    Each item has one account with what its activities cost, and no charges.
    """
    pieces = _pieces_of(network)
    activities = []
    for card in network.activities:
        units = point.durations[card.code]
        cost = cost_of(card, pieces.get(card.code, []), units)
        days = dict.fromkeys(("optimistic", "likely", "pessimistic", "normal", "crash"), units)
        activities.append(replace(card, **days, cost=cost, slope=0))
    return with_accounts(replace(network, activities=tuple(activities), pieces=()))


def with_accounts(network: Deck) -> Deck:
    """Returns a network in which each item has one account: what its activities cost."""
    budgets: dict[str, int] = {}
    for card in network.activities:
        budgets[card.item] = budgets.get(card.item, 0) + card.cost
    accounts = tuple(AccountCard(item, item, budget) for item, budget in budgets.items())
    return replace(network, accounts=accounts, charges=(), to_go=())


def _pieces_of(network: Deck) -> dict[str, list[PieceCard]]:
    pieces: dict[str, list[PieceCard]] = {}
    for piece in network.pieces:
        pieces.setdefault(piece.activity, []).append(piece)
    return pieces


def cost_of(card: ActivityCard, pieces: list[PieceCard], duration: int) -> int:
    """Returns the cost of an activity at a duration: each unit less at the slope of its piece."""
    shorter = card.normal - duration
    further = sum(piece.units for piece in pieces)
    first = card.normal - card.crash - further
    cost = card.cost
    for units, slope in [
        (first, card.slope),
        *((piece.units, piece.slope) for piece in pieces),
    ]:
        taken = min(units, shorter)
        cost += taken * slope
        shorter -= taken
    return cost


class _Builder:
    """Reads the figures of one schedule by real task."""

    def __init__(self, work: Work, point: results.Point) -> None:
        deck, side, network = work.deck, work.side, work.network
        times = work.times_at(point)
        self.side = side
        self.clock = work.clock
        self.point = point
        self.late = LateDates(network, side, point.durations, times)
        self.activities = {card.code: card for card in network.activities}
        self.early = {code: event.early // SIXTHS for code, event in times.events.items()}
        self.delays = delays(network, side, self.early, point.durations)
        self.links = real_links(deck, side)
        self.unit = "d" if side.unit_minutes == side.calendar.day_minutes else "u"
        self.resources = _resource_names(deck)
        pieces = _pieces_of(network)
        self.costs = {
            card.code: cost_of(card, pieces.get(card.code, []), point.durations[card.code])
            for card in network.activities
        }

    def total_cost(self) -> int:
        """Returns the cost of all activities at the chosen durations."""
        return sum(self.costs.values())

    def end(self, units: int) -> datetime:
        """Returns the moment at which work ends so many units after the start."""
        return self.clock.end_moment(units)

    def tasks(self) -> tuple[ScheduledTask, ...]:
        """Returns the real tasks in the order of the plan."""
        return tuple(self.task(task) for task in self.side.tasks)

    def task(self, task: SideTask) -> ScheduledTask:
        """Returns a real task with its dates; a milestone is at the end of a day of work."""
        cards = self.activities
        chosen = sum(self.point.durations[part] for part in task.parts)
        start, finish = span(task, self.activities, self.early, self.point.durations)
        start += self.delays.get(task.code, 0)
        finish += self.delays.get(task.code, 0)
        slack = self.late.total_float(task, start * SIXTHS, finish * SIXTHS)
        begins, ends = moments(self.clock, start, finish, chosen > 0)
        links = self.links.get(task.code, [])
        return ScheduledTask(
            code=task.code,
            uid=task.uid,
            row=task.row,
            name=task.name,
            outline=task.outline,
            normal_minutes=task.minutes,
            chosen_minutes=chosen * self.side.unit_minutes,
            left_minutes=chosen * self.side.unit_minutes,
            shortened_minutes=(task.normal - chosen) * self.side.unit_minutes,
            shortest_minutes=sum(cards[part].crash for part in task.parts) * self.side.unit_minutes,
            normal_cost=sum(cards[part].cost for part in task.parts),
            slope=max(cards[part].slope for part in task.parts),
            start=begins,
            finish=ends,
            total_float_minutes=int(slack * self.side.unit_minutes // SIXTHS),
            cost=sum(self.costs[part] for part in task.parts),
            is_critical=slack <= 0,
            is_milestone=task.normal == 0,
            predecessors=tuple(link.text(self.unit) for link in links),
            percent="" if task.percent is None else f"{task.percent.normalize():f}",
            resources=tuple(self.resources.get(task.code, [])),
            deadline=task.deadline,
            deadline_slack_minutes=deadline_slack(self.side.calendar, task.deadline, ends),
            is_as_late=is_as_late(task),
        )


def _resource_names(deck: Deck) -> dict[str, list[str]]:
    """Returns the names of the resources of each task card, in the order of the LOAD cards."""
    titles = {resource.code: resource.title or resource.code for resource in deck.resources}
    names: dict[str, list[str]] = {}
    for load in deck.loads:
        names.setdefault(load.activity, []).append(titles[load.resource])
    return names
