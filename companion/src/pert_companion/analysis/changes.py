"""What differs between two states of a project, task by task, and what of the past was restated.

Tasks are matched by source id, then by code. Texts are for people: durations in planner's days,
finishes as the last day of work, amounts in the unit of money of the comparison.
"""

from collections.abc import Callable, Iterator, Mapping
from dataclasses import dataclass
from datetime import date
from decimal import Decimal
from enum import Enum
from fractions import Fraction

from pert_companion.model.cards import ActivityCard, PieceCard, TaskCard
from pert_companion.model.deck import Deck
from pert_companion.model.moments import last_day_before
from pert_companion.model.predecessors import RealLink, real_links
from pert_companion.model.sidefile import SideFile, SideTask
from pert_companion.model.text_form import TextForm
from pert_companion.state.matching import Matching, match_accounts
from pert_companion.state.project import ProjectState


class ChangeKind(Enum):
    """What differs between two states of a task or account."""

    NEW = "new"
    GONE = "gone"
    NAME = "name"
    NORMAL = "normal duration"
    CRASH = "shortest duration"
    ESTIMATES = "estimates"
    COST = "cost"
    SLOPE = "cost of a day less"
    LINKS = "links"
    PACKAGE = "package"
    STATUS = "status"
    BUDGET = "budget"
    RESOURCES = "resources"


@dataclass(frozen=True)
class Change:
    """One difference between an older and a newer state, as texts for people."""

    kind: ChangeKind
    code: str
    """The code in the newer state, or in the older one if it is gone; of a task or account."""
    name: str
    old: str
    new: str


@dataclass(frozen=True)
class Restated:
    """Something of the time before the older as-of date that the newer state says differently."""

    subject: str
    """The task or account."""
    name: str
    what: str
    """`start`, `finish`, `percent complete`, `charges` or `amount to go`."""
    old: str
    new: str
    day: date
    """The day that it is about: a first or last day of work, or a day of money."""
    moved: int = 0
    """By how much charges or an amount to go rose, in units of money of the comparison."""


@dataclass(frozen=True)
class Side:
    """One of the two states, with its amounts brought to the common unit of money."""

    state: ProjectState
    factor: int
    """How many units of money of the comparison one of the deck is."""
    form: TextForm
    """How texts look, with the units of money of the comparison."""

    def amount(self, amount: int) -> int:
        """Returns an amount of the deck in units of the comparison."""
        return amount * self.factor

    def money(self, amount: int) -> str:
        """Returns an amount of the deck in the currency."""
        return self.form.money(self.amount(amount))


def task_changes(old: Side, new: Side, matching: Matching) -> tuple[Change, ...]:
    """Returns the differences between two states, by kind, then in the order of the newer state."""
    before, after = _Facts(old), _Facts(new)
    names = {older.code: newer.code for older, newer in matching.pairs}
    found = [Change(ChangeKind.NEW, t.code, t.name, "", after.brief(t)) for t in matching.new]
    found += [Change(ChangeKind.GONE, t.code, t.name, before.brief(t), "") for t in matching.gone]
    for older, newer in matching.pairs:
        found.extend(_differences(before, after, older, newer, names))
    found.extend(_budget_changes(old, new))
    order = {kind: at for at, kind in enumerate(ChangeKind)}
    return tuple(sorted(found, key=lambda change: order[change.kind]))


def _differences(
    before: "_Facts",
    after: "_Facts",
    older: SideTask,
    newer: SideTask,
    names: Mapping[str, str],
) -> Iterator[Change]:
    for kind, text in _TEXTS.items():
        old, new = text(before, older), text(after, newer)
        if old != new:
            yield Change(kind, newer.code, newer.name, old, new)
    old_links = before.links(older, names)
    new_links = after.links(newer, {})
    if set(old_links) != set(new_links):
        gone = [link for link in old_links if link not in new_links]
        come = [link for link in new_links if link not in old_links]
        yield Change(ChangeKind.LINKS, newer.code, newer.name, ", ".join(gone), ", ".join(come))


class _Facts:
    """The texts of one state, by task."""

    def __init__(self, side: Side) -> None:
        self.scale = side
        self.form = side.form
        self.side = side.state.side
        deck = side.state.deck
        self.cards: dict[str, TaskCard | ActivityCard] = {card.code: card for card in deck.work}
        self.pieces: dict[str, list[PieceCard]] = {}
        for piece in deck.pieces:
            self.pieces.setdefault(piece.activity, []).append(piece)
        self.all_links = real_links(deck, self.side)
        self.started = status_days(deck, "S")
        self.finished = status_days(deck, "F")
        self.resources = _quantities(deck)

    def parts(self, task: SideTask) -> list[TaskCard | ActivityCard]:
        """Returns the cards of the work of a task."""
        return [self.cards[part] for part in task.parts]

    def days(self, units: int) -> str:
        """Returns a duration in planner's days."""
        return self.form.days(units * self.side.unit_minutes, self.side.calendar.day_minutes)

    def name(self, task: SideTask) -> str:
        """Returns the name."""
        return task.name

    def normal(self, task: SideTask) -> str:
        """Returns the normal duration."""
        return self.days(sum(card.normal for card in self.parts(task)))

    def crash(self, task: SideTask) -> str:
        """Returns the shortest duration."""
        return self.days(sum(card.crash for card in self.parts(task)))

    def estimates(self, task: SideTask) -> str:
        """Returns the three estimates, or nothing if they are the normal duration."""
        parts = self.parts(task)
        if all({c.optimistic, c.likely, c.pessimistic} == {c.normal} for c in parts):
            return ""
        optimistic = self.days(sum(card.optimistic for card in parts))
        likely = self.days(sum(card.likely for card in parts))
        pessimistic = self.days(sum(card.pessimistic for card in parts))
        return f"{optimistic} {likely} {pessimistic}"

    def cost(self, task: SideTask) -> str:
        """Returns the cost at the normal duration."""
        return self.scale.money(sum(card.cost for card in self.parts(task)))

    def slope(self, task: SideTask) -> str:
        """Returns what a day less costs, with the further pieces; nothing if it cannot be had."""
        texts = []
        for card in self.parts(task):
            if card.normal > card.crash:
                texts.append(self.price(card.slope))
            for piece in self.pieces.get(card.code, []):
                texts.append(f"then {self.price(piece.slope)} for {self.days(piece.units)}")
        return ", ".join(dict.fromkeys(texts))

    def price(self, slope: int) -> str:
        """Returns the price of a planner's day from that of a unit, with at most two decimals."""
        day = Fraction(self.scale.amount(slope) * self.side.calendar.day_minutes)
        return self.form.days(round(day), self.side.unit_minutes * self.form.money_scale)

    def package(self, task: SideTask) -> str:
        """Returns the names of the groups above it."""
        return " / ".join(task.outline)

    def status(self, task: SideTask) -> str:
        """Returns how far it is, with its days and its percent."""
        started, finished = self.first_day(task), self.end_day(task)
        if finished is not None:
            return f"finished {finished}"
        if started is None:
            return "waiting"
        percent = "" if task.percent is None else f", {percent_text(task.percent)}"
        return f"begun {started}{percent}"

    def first_day(self, task: SideTask) -> date | None:
        """Returns the day on which it began, or None while it waits."""
        started = self.started.get(task.parts[0])
        return None if started is None else task.actual_start or started

    def end_day(self, task: SideTask) -> date | None:
        """Returns the last day of work of a finished task, or None."""
        return finish_day(task, self.side, self.finished)

    def resource_text(self, task: SideTask) -> str:
        """Returns what it uses of each resource in all."""
        sums: dict[str, int] = {}
        for part in task.parts:
            for name, quantity in self.resources.get(part, []):
                sums[name] = sums.get(name, 0) + quantity
        return ", ".join(f"{name} {self.form.count(sums[name])}" for name in sorted(sums))

    def links(self, task: SideTask, names: Mapping[str, str]) -> list[str]:
        """Returns its links, the predecessors by the names of the other state."""
        return [self.link_text(link, names) for link in self.all_links.get(task.code, [])]

    def link_text(self, link: RealLink, names: Mapping[str, str]) -> str:
        """Returns a link as planners write it, its lag in days."""
        lag = self.lag_text(link.lag)
        kind = link.kind.value if lag or link.kind.value != "FS" else ""
        return f"{names.get(link.predecessor, link.predecessor)}{kind}{lag}"

    def lag_text(self, lag: int) -> str:
        """Returns a lag in days with its sign, or an empty text if there is none."""
        if lag == 0:
            return ""
        sign = "+" if lag > 0 else ""
        return f"{sign}{self.days(lag)}d"

    def brief(self, task: SideTask) -> str:
        """Returns what a new or gone task is: its duration and cost."""
        return f"{self.normal(task)} days, cost {self.cost(task)}"


_TEXTS: dict[ChangeKind, Callable[[_Facts, SideTask], str]] = {
    ChangeKind.NAME: _Facts.name,
    ChangeKind.NORMAL: _Facts.normal,
    ChangeKind.CRASH: _Facts.crash,
    ChangeKind.ESTIMATES: _Facts.estimates,
    ChangeKind.COST: _Facts.cost,
    ChangeKind.SLOPE: _Facts.slope,
    ChangeKind.PACKAGE: _Facts.package,
    ChangeKind.STATUS: _Facts.status,
    ChangeKind.RESOURCES: _Facts.resource_text,
}


def status_days(deck: Deck, letter: str) -> dict[str, date]:
    """Returns the dates of the STATUS cards with a letter, by activity."""
    return {card.activity: card.day for card in deck.statuses if card.letter == letter}


def finish_day(task: SideTask, side: SideFile, finished: Mapping[str, date]) -> date | None:
    """Returns the last day of work of a task, whose deck date is a morning; None if unfinished.

    `finished` has the dates of the STATUS cards with an F, by activity.
    """
    morning = finished.get(task.parts[-1])
    if morning is None:
        return None
    if task.actual_finish is not None:
        return task.actual_finish
    return last_day_before(side.calendar, morning)


def _quantities(deck: Deck) -> dict[str, list[tuple[str, int]]]:
    titles = {resource.code: resource.title or resource.code for resource in deck.resources}
    found: dict[str, list[tuple[str, int]]] = {}
    for load in deck.loads:
        found.setdefault(load.activity, []).append((titles[load.resource], load.quantity))
    return found


def _budget_changes(old: Side, new: Side) -> Iterator[Change]:
    """Yields the changed budgets of packages without tasks; other budgets are costs of tasks."""
    names = match_accounts(old.state.deck, new.state.deck, new.state.registers.renames)
    before = {names.get(code, code): budget for code, budget in _free_budgets(old).items()}
    after = _free_budgets(new)
    for code in [*after, *(code for code in before if code not in after)]:
        was, is_now = before.get(code), after.get(code)
        if was != is_now:
            texts = old.form.money_cell(was), new.form.money_cell(is_now)
            yield Change(ChangeKind.BUDGET, code, _title(old, new, code), *texts)


def _free_budgets(side: Side) -> dict[str, int]:
    """Returns the budgets of the accounts of packages without activities."""
    deck = side.state.deck
    measured = {card.item for card in deck.work}
    return {a.code: side.amount(a.budget) for a in deck.accounts if a.item not in measured}


def _title(old: Side, new: Side, code: str) -> str:
    """Returns the title of an account, as the newer state has it."""
    titles = {account.code: account.title for account in old.state.deck.accounts}
    titles.update({account.code: account.title for account in new.state.deck.accounts})
    return titles[code]


def restatements(old: Side, new: Side, matching: Matching) -> tuple[Restated, ...]:
    """Returns what the newer state says differently of the work up to the older as-of date."""
    found = list(_restated_statuses(_Facts(old), _Facts(new), matching))
    found.extend(_restated_percents(old.state, matching))
    return tuple(found)


def _restated_statuses(before: "_Facts", after: "_Facts", matching: Matching) -> Iterator[Restated]:
    """Yields starts and finishes that moved, went or came in the time before the older as-of date.

    A start on the as-of date itself is no past yet; a finish on it was the evening before.
    """
    as_of = before.scale.state.as_of
    for older, newer in matching.pairs:
        start = before.started.get(older.parts[0]), after.started.get(newer.parts[0])
        if start[0] != start[1] and min(filter(None, start)) < as_of:
            days = before.first_day(older), after.first_day(newer)
            yield _restated_day(newer, "start", days)
        finish = before.finished.get(older.parts[-1]), after.finished.get(newer.parts[-1])
        if finish[0] != finish[1] and min(filter(None, finish)) <= as_of:
            days = before.end_day(older), after.end_day(newer)
            yield _restated_day(newer, "finish", days)


def _restated_day(task: SideTask, what: str, days: tuple[date | None, date | None]) -> Restated:
    day = days[0] or days[1]
    assert day is not None
    return Restated(task.code, task.name, what, or_none(days[0]), or_none(days[1]), day)


def _restated_percents(old: ProjectState, matching: Matching) -> Iterator[Restated]:
    day = old.data_day
    for older, newer in matching.pairs:
        percent = newer.percent or Decimal(0)
        if older.percent is not None and percent < older.percent:
            was, is_now = percent_text(older.percent), percent_text(percent)
            yield Restated(newer.code, newer.name, "percent complete", was, is_now, day)


def percent_text(percent: Decimal) -> str:
    """Returns a percent without zeros at its end, as `62.5 %`."""
    return f"{percent.normalize():f} %"


def or_none(value: object) -> str:
    """Returns a value as a text, or `none`."""
    return "none" if value is None else str(value)


def has_only_totals(deck: Deck) -> bool:
    """Says whether all charges up to the as-of date are dated on it, so that only sums are known.

    `pert-import` dates the actual costs of a file so, since the file does not say when they arose.
    """
    days = {charge.day for charge in deck.charges if charge.day <= deck.as_of_day}
    return days == {deck.as_of_day}


def has_dated_to_go(deck: Deck) -> bool:
    """Says whether amounts to go have days of their own, and not all that of the as-of date."""
    return any(card.day != deck.as_of_day for card in deck.to_go)
