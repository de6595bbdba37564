"""What of a state is hard to believe, before it is reported: by row, figure and effect.

Nothing here is wrong in itself. Each doubt says what the estimate would be without it, so that
somebody can decide.
"""

from collections.abc import Iterator, Mapping
from dataclasses import dataclass
from datetime import date
from enum import Enum
from fractions import Fraction

from pert_companion.analysis.budgets import unlogged_moves
from pert_companion.analysis.changes import percent_text, status_days
from pert_companion.analysis.forecast import forecast
from pert_companion.analysis.performance import charges_by_account, latest_by_account
from pert_companion.model.cards import AccountCard
from pert_companion.model.deck import Deck
from pert_companion.model.plan import LinkKind
from pert_companion.model.predecessors import real_links
from pert_companion.model.sidefile import SideTask
from pert_companion.model.text_form import TextForm
from pert_companion.state.matching import match_accounts, match_states
from pert_companion.state.project import ProjectState

PERCENT_APART = 10
"""A percent complete and a remaining duration may differ by so many percent of the duration."""


class DoubtKind(Enum):
    """What is hard to believe."""

    NOTHING_TO_GO = "nothing to go on work that has not begun"
    FINISHED_TO_GO = "amount to go on finished work"
    TO_GO_STAYS = "amount to go did not fall by what was spent"
    SPENT_BEFORE = "spent on work that has not begun"
    FINISHED_LEFT = "finished with remaining duration"
    OUT_OF_SEQUENCE = "out of sequence"
    PERCENT_APART = "percent and remaining duration disagree"
    STANDS_STILL = "critical without progress"
    UNLOGGED = "budget and log of changes disagree"


@dataclass(frozen=True)
class Doubt:
    """One thing that is hard to believe."""

    kind: DoubtKind
    code: str
    """The task, account or package."""
    row: int | None
    """The row in the source of the task, or of the group or the first task of an account."""
    name: str
    figure: str
    """What the state says, as a text."""
    effect: str
    """What that does to the estimate or the forecast, as a text."""
    amount: int | None = None
    """What the estimate at the end has too much, or too little if it is negative; in money."""


def doubts(
    state: ProjectState,
    previous: ProjectState | None = None,
    baseline: ProjectState | None = None,
    on_terminal: bool = False,
) -> tuple[Doubt, ...]:
    """Returns what is hard to believe of a state: of its money, then of its tasks.

    `previous` is the state before it; without it, what compares two states is left out.
    `on_terminal` says whether the texts are for a terminal.
    """
    form = TextForm(on_terminal, state.side.money_scale)
    finder = _Finder(state, previous, form)
    found = [*finder.of_accounts(), *finder.of_tasks()]
    if previous is not None:
        found.extend(_standing_still(state, previous))
    if baseline is not None:
        found.extend(_unlogged(state, baseline, form))
    return tuple(found)


class _Finder:
    """Looks at one state."""

    def __init__(self, state: ProjectState, previous: ProjectState | None, form: TextForm) -> None:
        self.state = state
        self.form = form
        self.started = status_days(state.deck, "S")
        self.finished = status_days(state.deck, "F")
        self.spent = charges_by_account(state.deck)
        self.latest = latest_by_account(state.deck)
        self.said = {card.account for card in state.deck.to_go if card.day <= state.as_of}
        self.tasks: dict[str, list[SideTask]] = {}
        items = {card.code: card.item for card in state.deck.work}
        for task in state.side.tasks:
            self.tasks.setdefault(items[task.parts[0]], []).append(task)
        self.rows = _rows_of_items(state)
        self.before = {} if previous is None else _money_before(state, previous)

    def money(self, amount: int) -> str:
        """Returns an amount of the deck in the currency."""
        return self.form.money(amount)

    def of_accounts(self) -> Iterator[Doubt]:
        """Yields the doubts about the money of each account."""
        for account in self.state.deck.accounts:
            tasks = self.tasks.get(account.item, [])
            spent = self.spent.get(account.code, 0)
            to_go = self.latest[account.code] - spent
            if tasks and all(task.parts[0] not in self.started for task in tasks):
                yield from self._of_waiting(account, spent, to_go)
            if tasks and all(task.parts[-1] in self.finished for task in tasks):
                yield from self._of_finished(account, to_go)
            elif account.code in self.before and account.code in self.said:
                yield from self._of_to_go(account, spent, to_go)

    def _doubt(
        self,
        kind: DoubtKind,
        account: AccountCard,
        figure: str,
        effect: str,
        amount: int,
    ) -> Doubt:
        row = self.rows.get(account.item)
        return Doubt(kind, account.code, row, account.title, figure, effect, amount)

    def _of_waiting(self, account: AccountCard, spent: int, to_go: int) -> Iterator[Doubt]:
        missing = account.budget - spent
        if account.code in self.said and to_go == 0 and missing > 0:
            figure = f"0 to go of {self.money(account.budget)}"
            effect = f"the estimate is lower by {self.money(missing)}"
            yield self._doubt(DoubtKind.NOTHING_TO_GO, account, figure, effect, -missing)
        if spent:
            figure = f"{self.money(spent)} spent"
            effect = "the work is begun, or the money belongs to another account"
            yield self._doubt(DoubtKind.SPENT_BEFORE, account, figure, effect, 0)

    def _of_finished(self, account: AccountCard, to_go: int) -> Iterator[Doubt]:
        if to_go:
            said = "said" if account.code in self.said else "budget not spent"
            figure = f"{self.money(to_go)} to go ({said})"
            effect = f"the estimate is higher by {self.money(to_go)}"
            yield self._doubt(DoubtKind.FINISHED_TO_GO, account, figure, effect, to_go)

    def _of_to_go(self, account: AccountCard, spent: int, to_go: int) -> Iterator[Doubt]:
        old_spent, old_to_go = self.before[account.code]
        newly = spent - old_spent
        rise = to_go - (old_to_go - newly)
        if newly > 0 and rise > 0:
            figure = (
                f"{self.money(newly)} spent; to go {self.money(old_to_go)} before,"
                f" {self.money(to_go)} now"
            )
            effect = f"the estimate rose by {self.money(rise)}"
            yield self._doubt(DoubtKind.TO_GO_STAYS, account, figure, effect, rise)

    def of_tasks(self) -> Iterator[Doubt]:
        """Yields the doubts about the progress of each task."""
        links = real_links(self.state.deck, self.state.side)
        by_code = {task.code: task for task in self.state.side.tasks}
        for task in self.state.side.tasks:
            if task.parts[-1] in self.finished:
                yield from self._of_done(task)
            elif task.parts[0] in self.started:
                yield from self._of_percent(task)
            if task.parts[0] not in self.started:
                continue
            for link in links.get(task.code, []):
                if link.kind is LinkKind.FINISH_START and link.lag >= 0:
                    yield from self._of_order(by_code[link.predecessor], task)

    def _of_done(self, task: SideTask) -> Iterator[Doubt]:
        if task.remaining:
            figure = f"{self.day_words(task.remaining)} left"
            effect = "they are in no forecast"
            yield Doubt(DoubtKind.FINISHED_LEFT, task.code, task.row, task.name, figure, effect)

    def days(self, minutes: int) -> str:
        """Returns working minutes in days."""
        return self.form.days(minutes, self.state.side.calendar.day_minutes)

    def day_words(self, minutes: int) -> str:
        """Returns working minutes as `1 day` or `2.5 days`."""
        return self.form.day_words(minutes, self.state.side.calendar.day_minutes)

    def _of_percent(self, task: SideTask) -> Iterator[Doubt]:
        if task.percent is None or task.remaining is None or not task.minutes:
            return
        if task.percent == 100 and task.remaining == 0:
            figure, effect = (
                "100 % and not finished",
                "one unit of work remains in the forecast",
            )
            yield Doubt(DoubtKind.FINISHED_LEFT, task.code, task.row, task.name, figure, effect)
            return
        by_percent = round(task.minutes * (100 - Fraction(task.percent)) / 100)
        apart = task.remaining - by_percent
        if abs(apart) * 100 <= PERCENT_APART * task.minutes:
            return
        figure = (
            f"{percent_text(task.percent)} done; {self.days(task.remaining)} of"
            f" {self.day_words(task.minutes)} left"
        )
        way = "later" if apart > 0 else "earlier"
        effect = f"it ends {self.day_words(abs(apart))} {way} than by its percent"
        yield Doubt(DoubtKind.PERCENT_APART, task.code, task.row, task.name, figure, effect)

    def _of_order(self, before: SideTask, task: SideTask) -> Iterator[Doubt]:
        start = self.started[task.parts[0]]
        finish = self.finished.get(before.parts[-1])
        if finish is not None and finish <= start:
            return
        ended = "is not finished" if finish is None else "was finished later"
        figure = f"began {start}; {before.code}, which it comes after, {ended}"
        effect = "what is left of it waits" if finish is None else "the plan had another order"
        yield Doubt(DoubtKind.OUT_OF_SEQUENCE, task.code, task.row, task.name, figure, effect)


def _money_before(state: ProjectState, previous: ProjectState) -> dict[str, tuple[int, int]]:
    """Returns what accounts had spent and to go in the previous state, by their codes of today."""
    names = match_accounts(previous.deck, state.deck, state.registers.renames)
    scale = Fraction(state.side.money_scale, previous.side.money_scale)
    spent, latest = charges_by_account(previous.deck), latest_by_account(previous.deck)
    found = {}
    for old, code in names.items():
        actual = spent.get(old, 0)
        found[code] = round(actual * scale), round((latest[old] - actual) * scale)
    return found


def _standing_still(state: ProjectState, previous: ProjectState) -> Iterator[Doubt]:
    """Yields the tasks that were critical and are where they were."""
    critical = {task.code: task for task in forecast(previous).tasks if task.is_critical}
    held, before = _progress_of(state), _progress_of(previous)
    for old, new in match_states(previous, state).pairs:
        waits = critical.get(old.code)
        if waits is None or held[new.code] != before[old.code]:
            continue
        if waits.first_day > state.data_day:
            continue
        figure = f"as on {previous.data_day}: {held[new.code][0]}"
        effect = "it was critical: the end moves with it"
        yield Doubt(DoubtKind.STANDS_STILL, new.code, new.row, new.name, figure, effect)


def _progress_of(
    state: ProjectState,
) -> Mapping[str, tuple[str, int | None, date | None]]:
    """Returns how far each task is: in words, its remaining minutes, and its finish."""
    started, finished = status_days(state.deck, "S"), status_days(state.deck, "F")
    found = {}
    for task in state.side.tasks:
        words = "not begun"
        if task.parts[0] in started:
            words = "begun" if task.percent is None else f"{percent_text(task.percent)} done"
        found[task.code] = words, task.remaining, finished.get(task.parts[-1])
    return found


def _unlogged(state: ProjectState, baseline: ProjectState, form: TextForm) -> Iterator[Doubt]:
    titles, rows = _titles(state.deck) | _titles(baseline.deck), _rows_of_items(state)
    for move in unlogged_moves(state, baseline):
        figure = (
            f"budget {form.money(move.before)} before, {form.money(move.now)} now;"
            f" changes have {form.money(move.logged)}"
        )
        effect = f"{form.money(move.unlogged)} without a row in changes.csv"
        if move.now == move.before:
            effect = f"{form.money(move.logged)} of changes.csv are not in its budget"
        kind = DoubtKind.UNLOGGED
        yield Doubt(
            kind,
            move.item,
            rows.get(move.item),
            titles.get(move.item, ""),
            figure,
            effect,
            move.unlogged,
        )


def _rows_of_items(state: ProjectState) -> dict[str, int]:
    """Returns the row of each item in the source: that of its group, or of its first task."""
    items = {card.code: card.item for card in state.deck.work}
    found: dict[str, int] = {}
    for task in state.side.tasks:
        if task.row is not None:
            found.setdefault(items[task.parts[0]], task.row)
    found.update({group.code: group.row for group in state.side.groups if group.row is not None})
    return found


def _titles(deck: Deck) -> dict[str, str]:
    return {item.code: item.title for item in deck.items}
