"""Budgets that moved since the baseline, and the change log that says why."""

from collections.abc import Iterator
from dataclasses import dataclass
from fractions import Fraction

from pert_companion.model.deck import Deck, leaves
from pert_companion.model.registers import BudgetChange
from pert_companion.state.matching import match_states
from pert_companion.state.project import ProjectState


@dataclass(frozen=True)
class BudgetMove:
    """A package whose budget is not that of the baseline, in units of money."""

    item: str
    before: int
    now: int
    logged: int
    """What the change log says that it got, less what was taken from it."""

    @property
    def unlogged(self) -> int:
        """Returns what moved without a row in the change log."""
        return self.now - self.before - self.logged


def budget_moves(current: ProjectState, baseline: ProjectState) -> Iterator[BudgetMove]:
    """Yields each package whose budget moved, or should have by the change log, in card order.

    A package is the one that most of its budget came from: that of its tasks, or by its code.
    """
    before = _budgets_before(current, baseline)
    now = _budgets(current.deck)
    logged = logged_moves(current, baseline)
    for item in [*now, *(code for code in before if code not in now)]:
        move = BudgetMove(item, before.get(item, 0), now.get(item, 0), logged.get(item, 0))
        if move.before != move.now or move.logged:
            yield move


def unlogged_moves(current: ProjectState, baseline: ProjectState) -> Iterator[BudgetMove]:
    """Yields the packages whose budget moved by another amount than the change log says."""
    return (move for move in budget_moves(current, baseline) if move.unlogged)


def changes_until(current: ProjectState, baseline: ProjectState) -> tuple[BudgetChange, ...]:
    """Returns the changes after the baseline's close of business and up to the current one."""
    first, last = baseline.close, current.close
    is_plan = not baseline.has_begun
    changes = current.registers.changes
    return tuple(c for c in changes if (is_plan or first < c.day) and c.day <= last)


def _budgets(deck: Deck) -> dict[str, int]:
    """Returns the sum of the accounts of each package."""
    found = {item.code: 0 for item in leaves(deck.items)}
    for account in deck.accounts:
        found[account.item] = found.get(account.item, 0) + account.budget
    return {code: budget for code, budget in found.items() if budget}


def _budgets_before(current: ProjectState, baseline: ProjectState) -> dict[str, int]:
    """Returns the budgets of the baseline, by the packages' codes of today, in today's money."""
    names = current.registers.renames.names_of(item.code for item in current.deck.items)
    items_now = {card.code: card.item for card in current.deck.work}
    items_then = {card.code: card.item for card in baseline.deck.work}
    for old, new in match_states(baseline, current).pairs:
        names.setdefault(items_then[old.parts[0]], items_now[new.parts[0]])
    scale = Fraction(current.side.money_scale, baseline.side.money_scale)
    found: dict[str, int] = {}
    for item, budget in _budgets(baseline.deck).items():
        code = names.get(item, item)
        found[code] = found.get(code, 0) + round(budget * scale)
    return found


def logged_moves(current: ProjectState, baseline: ProjectState) -> dict[str, int]:
    """Returns what the change log moved to each package since the baseline, less what it took."""
    found: dict[str, int] = {}
    apart = {rule.item for rule in current.registers.packages if rule.technique.is_budget_alone}
    apart |= {"", "reserve", "undistributed"}
    names = current.registers.renames.names_of(item.code for item in current.deck.items)
    for change in changes_until(current, baseline):
        amount = round(Fraction(change.amount) * current.side.money_scale)
        for place, moved in ((change.target, amount), (change.source, -amount)):
            if place not in apart:
                code = names.get(place, place)
                found[code] = found.get(code, 0) + moved
    return found
