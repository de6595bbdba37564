"""Earned value by the work breakdown structure, by account and by manager.

A line has one scope: PV, EV and AC of the same measured packages. What came since the previous
state stands next to what came in all. Within a package of several accounts, planned and earned
value are divided by the budgets of the accounts, and actual cost is each account's own. Earned
schedule is a figure of a total: a part of the work has no time of its own.
"""

from collections.abc import Iterator, Mapping, Sequence
from dataclasses import dataclass, replace
from datetime import date
from fractions import Fraction

from pert_companion.analysis.earned_value import (
    NO_FIGURES,
    EarnedValue,
    Figures,
    Package,
    Scope,
    earned_value,
    measured_packages,
    total_of,
)
from pert_companion.analysis.measuring import all_pieces, time_of_value
from pert_companion.model.deck import Deck
from pert_companion.model.parts import divided
from pert_companion.programs.results import preorder
from pert_companion.state.matching import match_accounts
from pert_companion.state.project import ProjectState

MEASURED = "all that is measured"
UNNAMED = "(nobody named)"


@dataclass(frozen=True)
class EarnedTime:
    """Earned schedule (Lipke 2003), in working days of the baseline."""

    earned: Fraction
    """The time at which the baseline planned what is earned now."""
    actual: Fraction
    """The time from the baseline's start to the data date, or to the last finish."""

    @property
    def variance(self) -> Fraction:
        """Returns SV(t): earned schedule less actual time."""
        return self.earned - self.actual

    @property
    def spi(self) -> Fraction | None:
        """Returns SPI(t): earned schedule / actual time; None before any time has passed."""
        return self.earned / self.actual if self.actual else None


@dataclass(frozen=True)
class Line:
    """One line of a report: of an item, an account, a manager or a total."""

    code: str
    title: str
    level: int
    """The level of an item, 1 for the project; 0 for other lines."""
    manager: str
    scope: str
    """What the figures are of: `work`, `level of effort`, `all that is measured`, .."""
    figures: Figures
    """Up to the data date."""
    period: Figures | None
    """Since the previous state; None without one."""
    latest: int | None
    """The latest estimate of the cost at the end: what was spent, and the amounts to go."""
    time: EarnedTime | None = None
    """Of the project and of totals alone."""

    @property
    def variance_at_completion(self) -> int | None:
        """Returns BAC less the latest estimate."""
        return None if self.latest is None else self.figures.bac - self.latest


@dataclass(frozen=True)
class Performance:
    """The earned value of a state by everything that reports ask for."""

    earned: EarnedValue
    structure: tuple[Line, ...]
    """Each item, before the items below it."""
    accounts: tuple[Line, ...]
    managers: tuple[Line, ...]
    totals: tuple[Line, ...]
    """Work, level of effort, all that is measured, undistributed, baseline, reserve, unmeasured."""
    previous: date | None
    """The data date of the state before it."""


def performance(
    current: ProjectState, baseline: ProjectState, previous: ProjectState | None = None
) -> Performance:
    """Returns the performance of a state against a baseline, in the current deck's money."""
    maker = _Maker(current, baseline, previous)
    return Performance(
        earned=maker.earned,
        structure=tuple(maker.structure()),
        accounts=tuple(maker.accounts()),
        managers=tuple(maker.managers()),
        totals=tuple(maker.totals()),
        previous=None if previous is None else previous.data_day,
    )


class _Maker:
    """Makes the lines of one state."""

    def __init__(
        self,
        current: ProjectState,
        baseline: ProjectState,
        previous: ProjectState | None,
    ) -> None:
        self.current = current
        self.previous = previous
        self.baseline = baseline
        self.earned = earned_value(current, baseline)
        self.packages = self.earned.packages
        self.measured = measured_packages(current, baseline)
        self.levels = dict(preorder(current.deck))
        self.before: dict[str, Figures] | None = None
        if previous is not None:
            self.before = figures_at(current, baseline, previous)
        summary = current.plan.summary
        self.latest = {p.code: summary[p.code].latest for p in self.packages if p.code in summary}

    def line(
        self, code: str, title: str, packages: Sequence[Package], scope: str = MEASURED
    ) -> Line:
        """Returns the line of some packages of one scope; its manager is theirs if it is one."""
        figures = total_of(package.figures for package in packages)
        known = [package.code for package in packages if package.code in self.latest]
        managers = {package.manager for package in packages}
        return Line(
            code=code,
            title=title,
            level=self.levels.get(code, 0),
            manager=managers.pop() if len(managers) == 1 else "",
            scope=scope,
            figures=figures,
            period=self.period(packages, figures),
            latest=sum(self.latest[code] for code in known) if known else None,
        )

    def period(self, packages: Sequence[Package], figures: Figures) -> Figures | None:
        """Returns what came since the previous state, or None without one."""
        if self.before is None:
            return None
        held = (self.before[p.code] for p in packages if p.code in self.before)
        return figures.since(total_of(held))

    def timed(self, line: Line, packages: Sequence[Package]) -> Line:
        """Returns the line of a total with its earned schedule."""
        held = [self.measured[each.code] for each in packages if each.code in self.measured]
        earned = time_of_value(all_pieces(held), Fraction(line.figures.ev))
        side = self.baseline.side
        day = Fraction(side.unit_minutes, side.calendar.day_minutes)
        return replace(line, time=EarnedTime(earned * day, self.earned.actual_time * day))

    def structure(self) -> Iterator[Line]:
        """Yields a line for each item with anything measured below it."""
        titles = {item.code: item.title for item in self.current.deck.items}
        below = _leaves_below(self.current.deck)
        measured = {package.code: package for package in self.packages if package.is_measured}
        for code in self.levels:
            packages = [measured[leaf] for leaf in below[code] if leaf in measured]
            scopes = {package.scope.value for package in packages}
            if packages:
                scope = scopes.pop() if len(scopes) == 1 else MEASURED
                made = self.line(code, titles[code], packages, scope)
                yield made if self.levels[code] > 1 else self.timed(made, packages)

    def managers(self) -> Iterator[Line]:
        """Yields a line for each manager with measured packages, in the order of the packages."""
        measured = [package for package in self.packages if package.is_measured]
        names = dict.fromkeys(package.manager for package in measured)
        if set(names) <= {""}:
            return
        for name in names:
            own = [package for package in measured if package.manager == name]
            yield self.line(name or UNNAMED, "", own)

    def accounts(self) -> Iterator[Line]:
        """Yields a line for each account of a measured package, in card order."""
        packages = {package.code: package for package in self.packages if package.is_measured}
        own = account_figures(self.current.deck, {c: p.figures for c, p in packages.items()})
        before: dict[str, Figures] = {}
        if self.previous is not None and self.before is not None:
            before = self.accounts_before(packages)
        latest = latest_by_account(self.current.deck)
        for account in self.current.deck.accounts:
            package = packages.get(account.item)
            if package is None:
                continue
            figures = own[account.code]
            period = None
            if self.before is not None:
                period = figures.since(before.get(account.code, NO_FIGURES))
            title = account.title or package.title
            scope, manager = package.scope.value, package.manager
            yield Line(
                account.code,
                title,
                0,
                manager,
                scope,
                figures,
                period,
                latest[account.code],
            )

    def accounts_before(self, packages: Mapping[str, Package]) -> dict[str, Figures]:
        """Returns the figures of accounts at the previous state, by their codes of today."""
        assert self.previous is not None and self.before is not None
        held = {code: figures for code, figures in self.before.items() if code in packages}
        shared = account_figures(self.current.deck, held)
        spent = self.charges_before()
        found = {}
        for code, figures in shared.items():
            found[code] = Figures(figures.bac, figures.pv, figures.ev, spent.get(code, 0))
        return found

    def charges_before(self) -> dict[str, int]:
        """Returns the charges of accounts at the previous state, by their codes of today."""
        assert self.previous is not None
        renames = self.current.registers.renames
        names = match_accounts(self.previous.deck, self.current.deck, renames)
        scale = Fraction(self.current.side.money_scale, self.previous.side.money_scale)
        found: dict[str, int] = {}
        for code, amount in charges_by_account(self.previous.deck).items():
            if code in names:
                found[names[code]] = round(amount * scale)
        return found

    def totals(self) -> Iterator[Line]:
        """Yields a line for each scope that has a package, and for the baseline as a whole."""
        for scope in (Scope.WORK, Scope.EFFORT):
            own = [package for package in self.packages if package.scope is scope]
            if own:
                line = self.line("", scope.value, own, scope.value)
                yield self.timed(line, own) if scope is Scope.WORK else line
        measured = [package for package in self.packages if package.is_measured]
        yield self.timed(self.line("", MEASURED, measured), measured)
        for scope in (Scope.UNDISTRIBUTED, Scope.RESERVE, Scope.UNMEASURED):
            own = [package for package in self.packages if package.scope is scope]
            if own:
                yield self.line("", scope.value, own, scope.value)


def figures_at(
    current: ProjectState, baseline: ProjectState, previous: ProjectState
) -> dict[str, Figures]:
    """Returns the figures of packages at an earlier state, by their codes and money of today."""
    before = earned_value(previous, baseline)
    scale = Fraction(current.side.money_scale, previous.side.money_scale)
    names = current.registers.renames.names_of(item.code for item in current.deck.items)
    found: dict[str, Figures] = {}
    for package in before.packages:
        figures = package.figures
        amounts = figures.bac, figures.pv, figures.ev, figures.ac
        scaled = Figures(*(round(amount * scale) for amount in amounts))
        code = names.get(package.code, package.code)
        found[code] = found.get(code, NO_FIGURES) + scaled
    return found


def _leaves_below(deck: Deck) -> dict[str, list[str]]:
    """Returns the leaves at and below each item, in card order."""
    parents = {item.code: item.parent for item in deck.items}
    with_children = set(parents.values())
    found: dict[str, list[str]] = {item.code: [] for item in deck.items}
    for item in deck.items:
        if item.code in with_children:
            continue
        above = item.code
        while above:
            found[above].append(item.code)
            above = parents[above]
    return found


def charges_by_account(deck: Deck) -> dict[str, int]:
    """Returns the charges up to the as-of date by account."""
    found: dict[str, int] = {}
    for charge in deck.charges:
        if charge.day <= deck.as_of_day:
            found[charge.account] = found.get(charge.account, 0) + charge.amount
    return found


def latest_by_account(deck: Deck) -> dict[str, int]:
    """Returns the latest estimate of each account, as `pert summary` defines it."""
    spent = charges_by_account(deck)
    to_go: dict[str, tuple[date, int]] = {}
    for card in deck.to_go:
        if card.day <= deck.as_of_day:
            to_go[card.account] = max(
                to_go.get(card.account, (date.min, 0)), (card.day, card.amount)
            )
    found = {}
    for account in deck.accounts:
        actual = spent.get(account.code, 0)
        rest = max(0, account.budget - actual)
        if account.code in to_go:
            rest = to_go[account.code][1]
        found[account.code] = actual + rest
    return found


def account_figures(deck: Deck, packages: Mapping[str, Figures]) -> dict[str, Figures]:
    """Returns the figures of the accounts of packages: shares by budget, and own charges."""
    spent = charges_by_account(deck)
    members: dict[str, list[str]] = {}
    budgets = {account.code: account.budget for account in deck.accounts}
    for account in deck.accounts:
        members.setdefault(account.item, []).append(account.code)
    found: dict[str, Figures] = {}
    for item, figures in packages.items():
        codes = members.get(item, [])
        if not codes:
            continue
        weights = [budgets[code] for code in codes]
        weights = weights if any(weights) else [1] * len(codes)
        shares = (divided(amount, weights) for amount in (figures.bac, figures.pv, figures.ev))
        for code, bac, pv, ev in zip(codes, *shares):
            found[code] = Figures(bac, pv, ev, spent.get(code, 0))
    return found
