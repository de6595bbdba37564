"""Money over time: planned, spent and forecast, each as running sums by day.

- Planned: the baseline's costs at normal durations, as `pert load` spreads them; that of a task in
  parts over all of its parts.
- Spent: the charges up to the as-of date, by their dates. Many sources have only totals: `carry`
  dates them on the as-of date. Then nothing is known before that day, and no line is drawn before
  it. Earlier states of the project give further points: what each had spent at its own as-of date.
- Forecast: from what was spent at the as-of date on, what the latest estimate still needs, spread
  over the work that is left as `pert load` spreads it. It ends at the latest estimate.
"""

from collections.abc import Collection, Iterable, Mapping, Sequence
from dataclasses import dataclass, replace
from datetime import date, timedelta
from math import lcm

from pert_companion.analysis.changes import has_only_totals
from pert_companion.analysis.scheduling import in_one_piece
from pert_companion.model.cards import AccountCard, ActivityCard
from pert_companion.model.deck import Deck
from pert_companion.model.parts import divided, with_costs, with_costs_over_parts
from pert_companion.model.sidefile import SideFile
from pert_companion.state.project import ProjectState
from pert_companion.state.remaining import Left, State, remaining
from pert_companion.state.work import Work, with_durations

ONE_DAY = timedelta(days=1)
MOST_PERIODS = 390
"""`pert load` has at most 400 periods."""


@dataclass(frozen=True)
class MoneyPoint:
    """The running sum by the evening of a day, in units of money of the deck."""

    day: date
    amount: int


@dataclass(frozen=True)
class MoneyOverTime:
    """The three lines of the chart of money. A line has no point before its first known day."""

    planned: tuple[MoneyPoint, ...]
    """From the evening before the first day (0) to the end of the baseline."""
    spent: tuple[MoneyPoint, ...]
    """By charge date, or one point for each state if the source has only totals."""
    forecast: tuple[MoneyPoint, ...]
    """From the data date (what was spent) to the forecast end (the latest estimate)."""
    has_only_totals: bool
    """Whether charges have no dates of their own, so that only sums at data dates are known."""
    note: str
    """What the chart has to say of its lines, or an empty text."""
    money_scale: int = 1
    currency: str = ""
    earned: tuple[MoneyPoint, ...] = ()
    """From 0 on the evening before the first day, by states; empty if it was not asked for."""


def money(
    current: ProjectState,
    baseline: ProjectState | None = None,
    earlier: Sequence[ProjectState] = (),
    packages: Collection[str] | None = None,
) -> MoneyOverTime:
    """Returns the money of the current state over time.

    Planned money is that of the baseline, or of the current deck's plan without one. `earlier` are
    the states before it, whose totals are further points of a source with only totals. With
    `packages`, by their codes, all lines are of these alone.
    """
    first = baseline or current
    scale = lcm(*(state.side.money_scale for state in (first, current, *earlier)))
    spent = _spent(current, earlier, scale, packages)
    return MoneyOverTime(
        planned=_planned(first, scale // first.side.money_scale, packages),
        spent=spent,
        forecast=_forecast(current, scale // current.side.money_scale, packages),
        has_only_totals=has_only_totals(current.deck),
        note=_note(current, spent),
        money_scale=scale,
        currency=current.side.currency,
    )


def _note(current: ProjectState, spent: Sequence[MoneyPoint]) -> str:
    if not spent:
        return "There are no charges: nothing is known to be spent."
    if not has_only_totals(current.deck):
        return ""
    if len(spent) == 1:
        return (
            f"The source has totals alone: what was spent before {spent[0].day} is not known, so no"
            " line leads to it."
        )
    return (
        f"The source has totals alone: spending is known at data dates, the first {spent[0].day}."
    )


def _spent(
    current: ProjectState,
    earlier: Iterable[ProjectState],
    scale: int,
    packages: Collection[str] | None,
) -> tuple[MoneyPoint, ...]:
    """Returns the running sums at charge dates, or at data dates if only totals are known."""
    if not has_only_totals(current.deck):
        return tuple(_running(_charges_by_day(current, scale, packages)))
    totals: dict[date, int] = {}
    for state in (*earlier, current):
        amounts = _charges_by_day(state, scale, packages)
        if amounts:
            totals[shown_day(state, state.as_of)] = sum(amounts.values())
    return tuple(MoneyPoint(day, totals[day]) for day in sorted(totals))


def _charges_by_day(
    state: ProjectState, scale: int, packages: Collection[str] | None
) -> dict[date, int]:
    """Returns what was charged up to the as-of date by day."""
    factor = scale // state.side.money_scale
    accounts = {card.code for card in state.deck.accounts if _is_in(card.item, packages)}
    amounts: dict[date, int] = {}
    for charge in state.deck.charges:
        if charge.day <= state.as_of and charge.account in accounts:
            day = shown_day(state, charge.day)
            amounts[day] = amounts.get(day, 0) + charge.amount * factor
    return amounts


def shown_day(state: ProjectState, day: date) -> date:
    """Returns the close of business that a date of money means, for people.

    The dates of a deck are mornings, so each is the day before. Those of a deck written by hand are
    shown as they were written.
    """
    return day - ONE_DAY if state.counts_closes else day


def _running(amounts: Mapping[date, int]) -> Iterable[MoneyPoint]:
    total = 0
    for day in sorted(amounts):
        total += amounts[day]
        yield MoneyPoint(day, total)


def _is_in(item: str, packages: Collection[str] | None) -> bool:
    """Says whether a package is one of those that are asked for; without any all are."""
    return packages is None or item in packages


def _planned(
    state: ProjectState, factor: int, packages: Collection[str] | None
) -> tuple[MoneyPoint, ...]:
    """Returns the planned money of packages at normal durations."""
    budgets: dict[str, int] = {}
    for account in state.deck.accounts:
        if _is_in(account.item, packages):
            budgets[account.item] = budgets.get(account.item, 0) + account.budget
    return _spread(state.plan, state.plan.network, budgets, (0, factor))


def _forecast(
    state: ProjectState, factor: int, packages: Collection[str] | None
) -> tuple[MoneyPoint, ...]:
    """Returns the money from the as-of date on: what is to go, over the work that is left."""
    summary = state.plan.summary
    listed = {card.item for card in state.deck.accounts if _is_in(card.item, packages)}
    to_go = {item: summary[item].to_go for item in sorted(listed)}
    spent = sum(summary[item].actual for item in listed)
    return _spread(state.rest, network_to_go(state, to_go), to_go, (spent, factor))


def network_to_go(state: ProjectState, to_go: Mapping[str, int] | None = None) -> Deck:
    """Returns the network of what is left, with what is to go of each package as its costs.

    Without `to_go` it is what the accounts say, or without accounts the costs of the work that is
    left: what was done of begun work has been paid.
    """
    divided_costs = with_costs_over_parts(state.deck, state.side)
    costs = {card.code: card.cost for card in divided_costs.work}
    lefts = {left.code: left for left in remaining(divided_costs, state.side, state.said).left}
    network = with_costs(state.rest.network, costs)
    if to_go is None and state.deck.accounts:
        summary = state.plan.summary
        to_go = {account.item: summary[account.item].to_go for account in state.deck.accounts}
    if to_go is None:
        to_go = _left_costs(network, lefts)
    return with_left_costs(network, lefts, to_go)


def _left_costs(network: Deck, lefts: Mapping[str, Left]) -> dict[str, int]:
    """Returns the costs of the work that is left by package."""
    sums: dict[str, int] = {}
    for card in network.activities:
        sums[card.item] = sums.get(card.item, 0) + _left_cost(card, lefts.get(card.code))
    return sums


def with_left_costs(network: Deck, lefts: Mapping[str, Left], to_go: Mapping[str, int]) -> Deck:
    """Returns the network with what is to go of each package as the costs of its activities.

    Within a package it is divided by the costs of the work that is left; if none is left, by whole
    costs, and if these are 0 evenly.
    """
    members: dict[str, list[ActivityCard]] = {}
    for card in network.activities:
        members.setdefault(card.item, []).append(card)
    costs: dict[str, int] = {}
    for item, cards in members.items():
        weights = _weights(cards, lefts)
        costs.update(zip((card.code for card in cards), divided(to_go.get(item, 0), weights)))
    activities = tuple(replace(card, cost=costs[card.code], slope=0) for card in network.activities)
    accounts = tuple(
        AccountCard(f"A{at}", item, to_go.get(item, 0)) for at, item in enumerate(members)
    )
    return replace(
        network,
        activities=activities,
        accounts=accounts,
        pieces=(),
        charges=(),
        to_go=(),
    )


def _weights(cards: Sequence[ActivityCard], lefts: Mapping[str, Left]) -> list[int]:
    """Returns by which weights the amount to go of a package is divided over its activities."""
    left = [_left_cost(card, lefts.get(card.code)) for card in cards]
    if any(left):
        return left
    whole = [card.cost for card in cards]
    return whole if any(whole) else [1] * len(cards)


def _left_cost(card: ActivityCard, left: Left | None) -> int:
    if left is None:
        return card.cost
    return 0 if left.state is State.FINISHED else card.cost - left.sunk


def _spread(
    work: Work, network: Deck, amounts: Mapping[str, int], start: tuple[int, int]
) -> tuple[MoneyPoint, ...]:
    """Returns the running sums of the amounts of packages over work at normal durations.

    `network` is that of the work, with the amounts as its costs. `pert load` spreads those with
    activities, those without are spread evenly to the end. `start` is the amount at the beginning,
    and the factor for all amounts.
    """
    point, side = work.normal, work.side
    plain = in_one_piece(with_durations(network, point.durations), side, point)
    period = _period(side, point.length)
    load = work.load(plain, period)
    measured = {card.item for card in network.activities}
    free = sum(amount for item, amount in amounts.items() if item not in measured)
    drawn = [item for item in amounts if item in measured]
    first, factor = start
    points = [MoneyPoint(side.start - ONE_DAY, first * factor)]
    total = 0
    for at in range(load.periods):
        total += sum(load.items[item].get(at, 0) for item in drawn)
        units = min((at + 1) * period, point.length)
        share = free * units // point.length if point.length else free
        day = work.clock.end_moment(units).date()
        points.append(MoneyPoint(day, (first + total + share) * factor))
    return tuple({each.day: each for each in points}.values())


def _period(side: SideFile, length: int) -> int:
    """Returns the units of a period: a day of work, or more if there would be too many periods."""
    day = max(1, side.calendar.day_minutes // side.unit_minutes)
    periods = -(-length // day)
    return day * max(1, -(-periods // MOST_PERIODS))
