"""Money over time of the packages whose work is measured: planned, earned, spent and to go.

All lines are of the same packages, those that earned value is of: they have tasks both in the
baseline and now. So the ratios of earned value can be read off the lines. Packages without tasks,
such as supervision, are apart.
"""

from collections.abc import Collection, Iterator, Sequence
from dataclasses import dataclass, replace
from fractions import Fraction

from pert_companion.analysis.earned_value import EarnedValue, earned_value, measured_packages
from pert_companion.analysis.measuring import all_pieces, planned_values
from pert_companion.analysis.money import MOST_PERIODS, ONE_DAY, MoneyOverTime, MoneyPoint, money
from pert_companion.state.project import ProjectState


@dataclass(frozen=True)
class Apart:
    """A package without a measure of its work, in units of money of the state."""

    code: str
    title: str
    budget: int
    spent: int
    latest: int


def measured_money(
    current: ProjectState, baseline: ProjectState, earlier: Sequence[ProjectState] = ()
) -> MoneyOverTime:
    """Returns the money of measured packages over time.

    `earlier` are the states before the current one, each of which gives a point of what was earned.
    """
    earned = earned_value(current, baseline)
    packages = frozenset(package.code for package in earned.packages if package.is_measured)
    lines = money(current, baseline, earlier, packages)
    return replace(
        lines,
        planned=tuple(_planned(current, baseline, lines.money_scale)),
        earned=tuple(_earned([*earlier, current], baseline, packages, lines.money_scale)),
    )


def _planned(
    current: ProjectState, baseline: ProjectState, money_scale: int
) -> Iterator[MoneyPoint]:
    """Yields the planned value from the evening before the first day to the baseline's end."""
    clock, length = baseline.plan.clock, baseline.plan.normal.length
    factor = Fraction(money_scale, current.side.money_scale)
    yield MoneyPoint(baseline.side.start - ONE_DAY, 0)
    step = max(1, -(-length // MOST_PERIODS))
    times = [*range(step, length, step), length]
    packages = measured_packages(current, baseline)
    values = planned_values(all_pieces(list(packages.values())), times)
    points = {clock.end_moment(time).date(): value for time, value in zip(times, values)}
    for day, value in points.items():
        yield MoneyPoint(day, round(value * factor))


def _earned(
    states: Sequence[ProjectState],
    baseline: ProjectState,
    packages: Collection[str],
    money_scale: int,
) -> Iterator[MoneyPoint]:
    """Yields what was earned by the evening before the as-of date of each state."""
    first = baseline.side.start - ONE_DAY
    yield MoneyPoint(first, 0)
    for state in states:
        if state.has_begun and state.as_of - ONE_DAY > first:
            factor = money_scale // state.side.money_scale
            amount = _sum_of(earned_value(state, baseline), packages)
            yield MoneyPoint(state.as_of - ONE_DAY, amount * factor)


def _sum_of(earned: EarnedValue, packages: Collection[str]) -> int:
    return sum(it.figures.ev for it in earned.packages if it.code in packages)


def packages_apart(current: ProjectState, earned: EarnedValue) -> tuple[Apart, ...]:
    """Returns the packages with accounts whose work has no measure, in card order."""
    summary = current.plan.summary
    listed = {account.item for account in current.deck.accounts}
    found = []
    for package in earned.packages:
        if not package.is_measured and package.code in listed:
            row = summary[package.code]
            found.append(Apart(package.code, package.title, row.budget, row.actual, row.latest))
    return tuple(found)
