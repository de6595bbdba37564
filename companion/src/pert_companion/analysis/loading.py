"""What a schedule costs and uses in each period, and where a resource is above its capacity.

`pert load` says the amounts of each period. Whether a resource is above its capacity is counted
here, day by day: what a task uses is spread evenly over its working time, by its own calendar if it
has one. On a day the capacity is what its units do in the longest working time of the tasks of that
day. Nothing is levelled.
"""

from bisect import bisect_right
from collections.abc import Iterator, Mapping, Sequence
from dataclasses import dataclass, field, replace
from datetime import date, datetime, timedelta
from decimal import Decimal
from fractions import Fraction
from itertools import chain

from pert_companion.analysis.contract import load_day_minutes
from pert_companion.analysis.lengths import LengthChoice
from pert_companion.analysis.money import network_to_go
from pert_companion.analysis.schedule import Schedule, ScheduledTask
from pert_companion.analysis.scheduling import (
    chosen_work,
    in_one_piece,
    network_at,
    settled_schedule,
    with_accounts,
    with_actual_dates,
)
from pert_companion.analysis.settling import Settled
from pert_companion.model.calendar import Calendar
from pert_companion.model.capacities import Capacity
from pert_companion.model.clock import Clock
from pert_companion.model.deck import Deck
from pert_companion.model.parts import with_costs
from pert_companion.model.sidefile import SideFile, SideTask
from pert_companion.programs.results import preorder
from pert_companion.state.project import ProjectState
from pert_companion.state.remaining import State
from pert_companion.state.work import Work

MOST_PERIODS = 400
"""The periods that `pert load` has at most."""
TOLERANCE = Fraction(1, 100)
"""How much above its capacity a resource may be: the amounts of decks and files are rounded."""

_ONE_DAY = timedelta(days=1)


@dataclass(frozen=True)
class ResourceLoad:
    """What a schedule uses of one resource."""

    code: str
    name: str
    """Its title, with the unit of the amounts."""
    amounts: tuple[int, ...]
    """By period."""
    capacity: Decimal | None
    """How many work at once, or how much of a material an hour takes; None without a limit."""
    available: int | None
    """What its capacity is in a period, rounded down; None without a limit."""


@dataclass(frozen=True)
class Overload:
    """A resource that is above its capacity in one period."""

    resource: str
    """Its code."""
    name: str
    period: int
    """The number of the period, from 0."""
    first: date
    """The first day of the period."""
    days: int
    """On how many days it is above its capacity."""
    most: Fraction
    """How many would have to work at once on the worst of them."""
    capacity: Decimal
    tasks: tuple[str, ...]
    """The codes of the tasks that use it on these days, in the order of the plan."""


@dataclass(frozen=True)
class Loading:
    """What a schedule costs and uses, period by period."""

    title: str
    length: int
    """The length in units of the deck."""
    unit_minutes: int
    day_minutes: int
    start: date
    end: date
    rest_of: date | None
    """The morning from which on the work that is left is loaded; None for a complete plan."""
    is_past_plan: bool
    period_minutes: int
    """The working minutes of a period."""
    periods: tuple[date, ...]
    """The first day of each period."""
    costs: tuple[int, ...]
    """By period; of a project that has begun what is still to be spent."""
    resources: tuple[ResourceLoad, ...]
    overloads: tuple[Overload, ...]
    """In the order of resources and periods."""
    currency: str
    money_scale: int

    def of_resource(self, name: str) -> "Loading":
        """Returns what it loads one resource with, by the name of that."""
        resources = tuple(each for each in self.resources if each.name == name)
        overloads = tuple(each for each in self.overloads if each.name == name)
        return replace(self, resources=resources, overloads=overloads)


def loading(
    state: ProjectState, found: Settled, schedule: Schedule, most_periods: int = MOST_PERIODS
) -> Loading:
    """Returns what a schedule of a state loads; `found` is the work that it is of.

    Raises `ProgramError` if amounts or periods are more than `pert load` takes.
    """
    work, point = found.work, found.point
    network = _network(state, found, schedule)
    days = period_of(work, point.length, most_periods)
    load = work.load(in_one_piece(network, work.side, point), days)
    minutes = days * load_day_minutes(work.side, work.deck)
    starts = _starts(work, minutes, load.periods)
    top = next(code for code, _ in preorder(network))
    limits = {capacity.code: capacity for capacity in work.side.capacities}
    return Loading(
        title=schedule.title or schedule.code,
        length=point.length,
        unit_minutes=schedule.unit_minutes,
        day_minutes=schedule.day_minutes,
        start=schedule.start,
        end=schedule.end,
        rest_of=schedule.rest_of,
        is_past_plan=schedule.is_past_plan,
        period_minutes=minutes,
        periods=starts,
        costs=_by_period(load.items[top], load.periods),
        resources=tuple(
            ResourceLoad(
                card.code,
                card.title or card.code,
                _by_period(load.resources[card.code], load.periods),
                limits[card.code].units if card.code in limits else None,
                _available(limits.get(card.code), minutes),
            )
            for card in network.resources
        ),
        overloads=tuple(_overloads(state, work, schedule, starts)),
        currency=schedule.currency,
        money_scale=schedule.money_scale,
    )


def chosen_loading(state: ProjectState, choice: LengthChoice, of_plan: bool = False) -> Loading:
    """Returns what the schedule of a chosen length loads: of what is left, or of the plan.

    Errors are those of `chosen_schedule` and `loading`.
    """
    found = chosen_work(state.plan if of_plan else state.rest, choice)
    schedule = settled_schedule(found)
    if of_plan:
        schedule = replace(schedule, is_past_plan=state.rest is not state.plan)
    else:
        schedule = with_actual_dates(state, schedule)
    return loading(state, found, schedule)


def period_of(work: Work, length: int, most_periods: int = MOST_PERIODS) -> int:
    """Returns the days of a period, as `pert load` counts them.

    It is a week of work, or a month or quarter if there would be too many, or what is needed.
    """
    calendar, minutes = work.side.calendar, load_day_minutes(work.side, work.deck)
    days = length * work.deck.project.unit_days
    month = calendar.month_days * calendar.day_minutes
    for usual in (calendar.week_minutes, month, 3 * month):
        period = max(1, usual // minutes)
        if days // period < most_periods:
            return period
    return days // most_periods + 1


def _network(state: ProjectState, found: Settled, schedule: Schedule) -> Deck:
    """Returns the network of a schedule; of a project that has begun, with what is to go."""
    network = network_at(found.work.counted_network, found.point)
    if schedule.is_past_plan or not state.has_begun:
        return network
    to_go = {card.code: card.cost for card in network_to_go(state).activities}
    normal = {card.code: card.cost for card in state.rest.network.activities}
    costs = {}
    for card in network.activities:
        extra = card.cost - normal.get(card.code, card.cost)
        costs[card.code] = to_go.get(card.code, 0) + extra
    return with_accounts(with_costs(network, costs))


def _starts(work: Work, minutes: int, periods: int) -> tuple[date, ...]:
    clock = Clock(replace(work.side, unit_minutes=minutes))
    return tuple(clock.begin_moment(number).date() for number in range(periods))


def _by_period(amounts: Mapping[int, int], periods: int) -> tuple[int, ...]:
    return tuple(amounts.get(period, 0) for period in range(periods))


def _available(capacity: Capacity | None, minutes: int) -> int | None:
    """Returns what a capacity is in so many working minutes."""
    if capacity is None:
        return None
    return int(Fraction(capacity.units) * capacity.hourly * Fraction(minutes, 60))


@dataclass
class _Day:
    """What a resource is used for on one day."""

    amount: Fraction = Fraction(0)
    minutes: int = 0
    """The longest working time of the calendars of its tasks."""
    tasks: list[str] = field(default_factory=list)


def _overloads(
    state: ProjectState, work: Work, schedule: Schedule, starts: Sequence[date]
) -> Iterator[Overload]:
    """Yields each resource and period with days on which it is above its capacity."""
    if not work.side.capacities:
        return
    used = _used(state, work, schedule)
    names = {card.code: card.title or card.code for card in work.deck.resources}
    order = {task.code: place for place, task in enumerate(work.side.tasks)}
    for limit in work.side.capacities:
        above: dict[int, list[_Day]] = {}
        for day, use in sorted(used.get(limit.code, {}).items()):
            if _at_once(use, limit) > Fraction(limit.units) * (1 + TOLERANCE):
                period = max(0, bisect_right(starts, day) - 1)
                above.setdefault(period, []).append(use)
        for period, days in above.items():
            tasks = set(chain.from_iterable(use.tasks for use in days))
            yield Overload(
                resource=limit.code,
                name=names.get(limit.code, limit.code),
                period=period,
                first=starts[period],
                days=len(days),
                most=max(_at_once(use, limit) for use in days),
                capacity=limit.units,
                tasks=tuple(sorted(tasks, key=order.__getitem__)),
            )


def _at_once(use: _Day, limit: Capacity) -> Fraction:
    """Returns how many have to work at once on a day to do what is wanted of a resource."""
    return use.amount * 60 / (use.minutes * limit.hourly)


def _used(state: ProjectState, work: Work, schedule: Schedule) -> dict[str, dict[date, _Day]]:
    """Returns what each limited resource is used for, by code and day."""
    limited = {limit.code for limit in work.side.capacities}
    quantities = _quantities(state, work, schedule)
    used: dict[str, dict[date, _Day]] = {code: {} for code in limited}
    for task, entry in zip(schedule.tasks, work.side.tasks, strict=True):
        wanted = quantities.get(entry.code, {})
        wanted = {code: amount for code, amount in wanted.items() if code in limited and amount}
        if not wanted or task.state is State.FINISHED:
            continue
        calendar = work.side.calendar_of(entry)
        for day, share in _days(task, calendar):
            for code, amount in wanted.items():
                use = used[code].setdefault(day, _Day())
                use.amount += share * amount
                use.minutes = max(use.minutes, calendar.working_minutes(day))
                use.tasks.append(entry.code)
    return used


def _quantities(
    state: ProjectState, work: Work, schedule: Schedule
) -> dict[str, dict[str, Fraction]]:
    """Returns how much of each resource tasks use, by their codes: of work that is left, its share.

    It is not rounded, as the LOAD cards of what is left are.
    """
    shares: dict[str, Fraction] = {}
    if state.rest is not state.plan and not schedule.is_past_plan:
        normal = {card.code: card.normal for card in state.deck.work}
        for left in state.remaining.left:
            lasted = normal[left.code]
            shares[left.code] = min(Fraction(left.normal, lasted or 1), Fraction(1))
    owner = _owners(work.side)
    found: dict[str, dict[str, Fraction]] = {}
    for load in state.deck.loads:
        task = owner.get(load.activity)
        if task is not None:
            amounts = found.setdefault(task.code, {})
            amount = load.quantity * shares.get(load.activity, Fraction(1))
            amounts[load.resource] = amounts.get(load.resource, Fraction(0)) + amount
    return found


def _owners(side: SideFile) -> dict[str, SideTask]:
    """Returns the task of each card of work, by the code of the card."""
    owners: dict[str, SideTask] = {}
    for task in side.tasks:
        owners.update(dict.fromkeys(task.parts, task))
    return owners


def _days(task: ScheduledTask, calendar: Calendar) -> Iterator[tuple[date, Fraction]]:
    """Yields the days on which a task works, each with the share of its working time."""
    start, finish = task.left_start or task.start, task.finish
    total = calendar.between(start, finish)
    if total <= 0:
        return
    day = start.date()
    while day <= finish.date():
        morning = datetime(day.year, day.month, day.day)
        minutes = calendar.between(max(start, morning), min(finish, morning + _ONE_DAY))
        if minutes:
            yield day, Fraction(minutes, total)
        day += _ONE_DAY
