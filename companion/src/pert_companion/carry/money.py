"""Costs, slopes and amounts of a plan in whole units of money, and its accounts."""

import math
from collections.abc import Sequence
from dataclasses import dataclass
from datetime import date
from decimal import Decimal
from fractions import Fraction

from pert_companion.carry.model import Node
from pert_companion.carry.units import Rounding
from pert_companion.model.calendar import Calendar
from pert_companion.model.cards import AccountCard, ChargeCard, ToGoCard
from pert_companion.model.figures import money_text
from pert_companion.model.losses import Loss, LossKind
from pert_companion.model.plan import Crash, Task

MAX_AMOUNT = 10**12
MAX_SLOPE = 10**8


@dataclass
class Money:
    """Turns amounts of the plan's currency into whole units of money; each change is a loss."""

    scale: int
    """How many units of money one of the currency is: 1, or 100 to keep cents."""
    losses: list[Loss]

    def whole(self, task: Task, field: str, amount: Decimal | Fraction, most: int) -> int:
        """Returns an amount rounded up to whole units; 0 if a deck cannot have it."""
        value = Fraction(amount) * self.scale
        if not 0 <= value <= most:
            why = f"a deck has amounts from 0 to {money_text(most, self.scale)}; 0 is taken"
            self._lose(LossKind.COST, task, field, amount, why)
            return 0
        units = math.ceil(value)
        if units != value:
            rounded = money_text(units, self.scale)
            self._lose(LossKind.FRACTION, task, field, amount, f"rounded up to {rounded}")
        return units

    def set_cost(self, node: Node, calendar: Calendar, rounding: Rounding) -> None:
        """Gives a node its cost, its shortest duration and its slope."""
        task = node.task
        if task is None:
            return
        if task.cost is not None:
            node.cost = self.whole(task, "cost", task.cost, MAX_AMOUNT)
        if task.crash is None:
            return
        if not 0 <= task.crash.minutes <= task.minutes:
            self._refuse_crash(task, "it is longer than the normal duration")
            return
        shortest = node.plan_minutes(task.crash.minutes)
        crash = rounding.units(shortest, node.where, node.name, "crash")
        slope = self._slope(task, node, crash, calendar, rounding.unit_minutes)
        if slope is not None:
            node.crash, node.slope = crash, slope
            node.shortening = _shortening(task.crash, node, calendar)

    def _slope(
        self, task: Task, node: Node, crash: int, calendar: Calendar, unit_minutes: int
    ) -> int | None:
        """Returns the cost of each unit that a task is shorter, or None if there is none."""
        given = task.crash
        assert given is not None
        if crash == node.normal:
            return 0
        exact = _exact_slope(given, node, node.normal - crash, calendar, unit_minutes)
        if exact is None:
            self._refuse_crash(task, "nothing says what shortening costs")
            return None
        if not 0 <= exact * self.scale <= MAX_SLOPE:
            self._refuse_crash(task, f"a slope of {float(exact):.10g} is not from 0 to {MAX_SLOPE}")
            return None
        return self.whole(task, "slope", exact, MAX_SLOPE)

    def _refuse_crash(self, task: Task, why: str) -> None:
        crash = task.crash
        assert crash is not None
        text = f"{crash.minutes} working minutes"
        why = f"{why}; the task is not shortened"
        self.losses.append(Loss(LossKind.CRASH, task.where, task.name, "crash", text, why))

    def _lose(
        self,
        kind: LossKind,
        task: Task,
        field: str,
        amount: Decimal | Fraction,
        why: str,
    ) -> None:
        text = f"{float(amount):.10g}" if isinstance(amount, Fraction) else f"{amount:f}"
        self.losses.append(Loss(kind, task.where, task.name, field, text, why))


def _exact_slope(
    crash: Crash, node: Node, units: int, calendar: Calendar, unit_minutes: int
) -> Fraction | None:
    """Returns the cost of one unit less in the plan's currency.

    A task with a calendar of its own has as much of its own time to gain as these units are.
    """
    if crash.slope is not None and node.own is None:
        return Fraction(crash.slope) * unit_minutes / calendar.day_minutes
    total = _shortening(crash, node, calendar)
    return None if total is None else total / units


def _shortening(crash: Crash, node: Node, calendar: Calendar) -> Fraction | None:
    """Returns what the shortest duration of a task costs more, in the plan's currency.

    A slope counts for each day of the task's own calendar.
    """
    task = node.task
    assert task is not None
    if crash.slope is not None:
        own = calendar if node.own is None else node.own.calendar
        return Fraction(crash.slope) * Fraction(task.minutes - crash.minutes, own.day_minutes)
    if crash.cost is not None:
        return Fraction(crash.cost) - Fraction(task.cost or 0)
    return None


def accounts(nodes: Sequence[Node]) -> tuple[AccountCard, ...]:
    """Returns an account for each item that has tasks, with the sum of their costs as budget."""
    budgets: dict[str, int] = {}
    for node in nodes:
        budgets[node.item] = budgets.get(node.item, 0) + node.cost
    return tuple(AccountCard(item, item, budget) for item, budget in budgets.items())


@dataclass
class _Spent:
    """What the tasks of one item have cost and still need."""

    actual: int = 0
    to_go: int = 0
    is_reported: bool = False


def charges(
    nodes: Sequence[Node], day: date, money: Money
) -> tuple[tuple[ChargeCard, ...], tuple[ToGoCard, ...]]:
    """Returns what was spent on each account, and what those with any progress still need."""
    spent: dict[str, _Spent] = {}
    for node in nodes:
        if node.task is not None:
            _add(spent.setdefault(node.item, _Spent()), node, node.task, money)
    charged = [(item, entry.actual) for item, entry in spent.items() if entry.actual > 0]
    reported = [(item, entry.to_go) for item, entry in spent.items() if entry.is_reported]
    return (
        tuple(ChargeCard(item, day, amount) for item, amount in charged),
        tuple(ToGoCard(item, day, amount) for item, amount in reported),
    )


def _add(entry: _Spent, node: Node, task: Task, money: Money) -> None:
    progress = task.progress
    if progress.actual_cost is not None:
        entry.actual += money.whole(task, "actual cost", progress.actual_cost, MAX_AMOUNT)
    percent = done_percent(task)
    if progress.remaining_cost is not None:
        entry.to_go += money.whole(task, "remaining cost", progress.remaining_cost, MAX_AMOUNT)
    else:
        entry.to_go += math.ceil(node.cost * (100 - Fraction(percent)) / 100)
    has_begun = percent > 0 or progress.actual_start is not None
    entry.is_reported = entry.is_reported or has_begun or bool(progress.actual_cost)


def done_percent(task: Task) -> Decimal:
    """Returns percent complete; 100 for a task with an actual finish, 0 if nothing is said."""
    if task.progress.actual_finish is not None:
        return Decimal(100)
    return task.progress.percent or Decimal(0)
