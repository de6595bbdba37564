"""The bridges between two states: of the end by cause and by task, of the estimate by account.

Each adds up exactly to the move between the two figures that the page shows.
"""

from collections.abc import Iterator, Sequence
from dataclasses import dataclass, replace
from datetime import date

from pert_companion.analysis.bridges import EndStep
from pert_companion.analysis.changes import finish_day, status_days
from pert_companion.analysis.compare import Comparison, History, StateFigures
from pert_companion.analysis.end_moves import EndMoves, TaskMove
from pert_companion.model.sidefile import SideTask
from pert_companion.page.view import Line, Row, Table, plain, signed, title
from pert_companion.page.words import Words, day_text, number_text, shown
from pert_companion.state.matching import match_accounts

MOST_ROWS = 10
"""Tasks or accounts that have a row of their own."""


@dataclass(frozen=True)
class StateMoney:
    """Writes amounts of a comparison, whose unit of money may be smaller than the page's."""

    history: History
    words: Words

    def text(self, amount: int) -> Line:
        """Returns an amount."""
        words = replace(self.words, money_scale=self.history.money_scale)
        return plain(words.digits(amount))

    def change(self, amount: int) -> Line:
        """Returns a difference of amounts with its sign."""
        words = replace(self.words, money_scale=self.history.money_scale)
        return plain(signed(words.digits(amount)))


def task_name(code: str, name: str) -> Line:
    """Returns the name of a task or account with its code, or the code alone."""
    return (
        *title(shown(name or code)),
        *plain(f" {code}" if name and name != code else ""),
    )


def end_table(steps: Sequence[EndStep], comparison: Comparison) -> Table:
    """Returns the bridge of the end date by cause."""
    calendar = comparison.new.state.side.calendar
    rows = [Row(plain("Last report"), (plain(day_text(steps[0].end)), plain("")))]
    for before, step in zip(steps, steps[1:]):
        days = calendar.count_days(before.end, step.end)
        rows.append(Row(plain(step.cause), (plain(day_text(step.end)), _days(days))))
    rows.append(Row(plain("Now"), (plain(day_text(comparison.new.end)), plain("")), is_sum=True))
    heads = ("Cause", "End with it", "Working days")
    return Table("From the last forecast of the end to this one, by cause", heads, tuple(rows))


def task_table(moves: EndMoves, comparison: Comparison) -> Table:
    """Returns the bridge of the end date by task, the greatest move first."""
    old, new = comparison.old, comparison.new
    before, after = _TaskEnds(old), _TaskEnds(new)
    rows = []
    for move in moves.tasks[:MOST_ROWS]:
        ends = before.text(move.old), after.text(move.new)
        rows.append(Row(_moved_name(move), (*ends, _days(move.days))))
    others = moves.tasks[MOST_ROWS:]
    if others:
        name = f"Other tasks together: {number_text(len(others))}"
        rows.append(Row(plain(name), (*_blank(2), _days(sum(move.days for move in others)))))
    if moves.others:
        rows.append(Row(plain("Links, waits and calendar"), (*_blank(2), _days(moves.others))))
    ends = plain(day_text(old.end)), plain(day_text(new.end))
    rows.append(Row(plain("All together"), (*ends, _days(moves.days)), is_sum=True))
    heads = ("Task", "Its end in the last report", "Its end now", "Working days")
    return Table("From the last forecast of the end to this one, by task", heads, tuple(rows))


def _moved_name(move: TaskMove) -> Line:
    task = move.new or move.old
    assert task is not None
    name = task_name(task.code, task.name)
    if move.old is None:
        return (*name, *plain(" (new)"))
    return (*name, *plain(" (dropped)")) if move.new is None else name


def _days(days: int) -> Line:
    return plain(signed(number_text(days)))


class _TaskEnds:
    """The last days of the tasks of a state."""

    def __init__(self, state: StateFigures) -> None:
        self._side = state.state.side
        self._forecast = {task.code: task.last_day for task in state.forecast.tasks}
        self._finished = status_days(state.state.deck, "F")

    def text(self, task: SideTask | None) -> Line:
        """Returns the day on which a task ends or has ended, or a dash if there is no such task."""
        if task is None:
            return plain("\u2013")
        if task.code in self._forecast:
            return plain(day_text(self._forecast[task.code]))
        return plain(f"{day_text(finish_day(task, self._side, self._finished))}, finished")


@dataclass(frozen=True)
class AccountMove:
    """How much the latest estimate of an account moved, by cause, in units of the comparison."""

    code: str
    title: str
    scope: int
    """By the budget."""
    restated: int
    """By charges of the time before the last report."""
    estimate: int
    """By all other charges, and by what is to go."""
    note: str = ""

    @property
    def amounts(self) -> tuple[int, int, int, int]:
        """Returns the amounts by cause, and their sum."""
        total = self.scope + self.restated + self.estimate
        return self.scope, self.restated, self.estimate, total


def estimate_table(comparison: Comparison, money: StateMoney) -> Table:
    """Returns the bridge of the latest estimate by account, the largest amount first."""
    moves = list(account_moves(comparison, money.history.money_scale))
    moves.sort(key=lambda move: -max(abs(amount) for amount in move.amounts))
    rows = [Row(plain("Last report"), (*_blank(3), money.text(comparison.old.latest)))]
    for move in moves[:MOST_ROWS]:
        name = (*plain(f"{move.code} "), *title(shown(move.title)), *plain(move.note))
        rows.append(Row(name, _changes([move], money)))
    others = moves[MOST_ROWS:]
    if others:
        name = plain(f"Other accounts together: {number_text(len(others))}")
        rows.append(Row(name, _changes(others, money)))
    rows.append(Row(plain("All accounts"), _changes(moves, money), is_sum=True))
    now = (*_blank(3), money.text(comparison.new.latest))
    rows.append(Row(plain("Now"), now, is_sum=True))
    heads = ("Account", "Scope", "Restated past", "Re-estimate", "Latest estimate")
    return Table(
        "From the estimate of the last report to this one, by account",
        heads,
        tuple(rows),
    )


def budgets_table(comparison: Comparison, money: StateMoney) -> Table:
    """Returns by how much the estimate is over each budget: of now, of last time, and the first."""
    old, new, history = comparison.old, comparison.new, money.history
    budgets = [("Now", new.budget), ("Last report", old.budget)]
    if history.baseline is not history.states[0]:
        budgets.append(("Baseline", history.baseline.budget))
    rows = []
    for name, budget in budgets:
        over = money.change(new.latest - budget)
        rows.append(Row(plain(name), (money.text(budget), over)))
    heads = ("Budget of", "Budget", "Estimate over it")
    return Table("Today’s estimate against each budget", heads, tuple(rows))


def _changes(moves: Sequence[AccountMove], money: StateMoney) -> tuple[Line, ...]:
    """Returns the sums of moves by cause, and of all causes."""
    columns = zip(*(move.amounts for move in moves))
    sums = [sum(column) for column in columns] or [0] * 4
    return tuple(money.change(amount) for amount in sums)


def account_moves(comparison: Comparison, money_scale: int) -> Iterator[AccountMove]:
    """Yields the accounts whose latest estimate moved, by any cause, in the order of the decks.

    A renamed account is one account, with the code that it has now; so are several that became one.
    """
    old, new = comparison.old.state.deck, comparison.new.state.deck
    before, after = _accounts_by_now(comparison, money_scale), _accounts(
        comparison.new, money_scale
    )
    past = _restated_charges(comparison)
    titles = {card.code: card.title for card in (*old.accounts, *new.accounts)}
    for code in {**before, **after}:
        budget, latest = before.get(code, (0, 0))
        budget_now, latest_now = after.get(code, (0, 0))
        scope, restated = budget_now - budget, past.get(code, 0)
        rest = latest_now - latest - scope - restated
        if scope or restated or rest:
            note = "" if code in before else " (new)"
            note = note if code in after else " (dropped)"
            yield AccountMove(code, titles[code], scope, restated, rest, note)


def _accounts_by_now(comparison: Comparison, money_scale: int) -> dict[str, tuple[int, int]]:
    """Returns budget and latest estimate of each account of the last report, by its code now."""
    old, new = comparison.old.state, comparison.new.state
    names = match_accounts(old.deck, new.deck, new.registers.renames)
    found: dict[str, tuple[int, int]] = {}
    for code, (budget, latest) in _accounts(comparison.old, money_scale).items():
        held = found.get(names.get(code, code), (0, 0))
        found[names.get(code, code)] = held[0] + budget, held[1] + latest
    return found


def _blank(count: int) -> tuple[Line, ...]:
    return tuple(plain("") for _ in range(count))


def _accounts(state: StateFigures, money_scale: int) -> dict[str, tuple[int, int]]:
    """Returns budget and latest estimate of each account, in units of the comparison."""
    deck = state.state.deck
    factor = money_scale // state.state.side.money_scale
    spent: dict[str, int] = {}
    for charge in deck.charges:
        if charge.day <= deck.as_of_day:
            spent[charge.account] = spent.get(charge.account, 0) + charge.amount
    to_go: dict[str, tuple[date, int]] = {}
    for card in deck.to_go:
        if card.day <= deck.as_of_day and card.day >= to_go.get(card.account, (date.min, 0))[0]:
            to_go[card.account] = card.day, card.amount
    found = {}
    for account in deck.accounts:
        paid = spent.get(account.code, 0)
        left = to_go.get(account.code, (date.min, max(0, account.budget - paid)))[1]
        found[account.code] = account.budget * factor, (paid + left) * factor
    return found


def _restated_charges(comparison: Comparison) -> dict[str, int]:
    """Returns by account how much more was charged before the last report than it said."""
    found: dict[str, int] = {}
    for entry in comparison.restated:
        if entry.what == "charges":
            found[entry.subject] = found.get(entry.subject, 0) + entry.moved
    return found
