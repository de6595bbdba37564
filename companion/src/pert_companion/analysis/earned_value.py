"""Earned value as the field defines it (terms of ANSI/EIA-748; earned schedule after Lipke 2003).

It is computed from the plan of the baseline, the progress of the current deck and its charges:

- PV, planned value: what of the budget was to be done by the data date. The cost of a task is
  spread evenly over its time in the baseline's schedule at normal durations.
- EV, earned value: the baseline's cost of each task times its share done: 1 if it is finished, its
  percent complete or else the part of its normal duration that is not left, and 0 if it waits. A
  milestone without status is reached when all work before it is finished.
- AC, actual cost: the charges up to the as-of date.

`packages.csv` gives a package another technique (`measuring`); then PV and EV both follow it. All
three figures of a line are of the same packages. Each figure of a package is rounded to whole units
of money; totals are sums of these, and ratios divide exactly them. Packages that nothing measures
are listed beside, and are in no ratio; undistributed budget is in the budget of the baseline alone,
and reserve in none. Work that the baseline does not have earns nothing until it is in a baseline;
it is named.

This is not the VALUE of `pert value`, which follows spending until a package is finished.
"""

from collections.abc import Iterable, Iterator, Mapping
from dataclasses import dataclass, replace
from datetime import date, timedelta
from decimal import Decimal
from enum import Enum
from fractions import Fraction

from pert_companion.analysis.budgets import logged_moves
from pert_companion.analysis.measuring import (
    Done,
    Measured,
    Planned,
    all_pieces,
    measured_as_planned,
    measured_by_milestones,
    measured_by_tasks,
    measured_like,
    time_of_value,
)
from pert_companion.analysis.as_late import delays
from pert_companion.analysis.spanning import span
from pert_companion.model.cards import ActivityCard, TaskCard
from pert_companion.model.clock import Clock
from pert_companion.model.deck import Deck, leaves
from pert_companion.model.errors import InputError
from pert_companion.model.predecessors import RealLink, real_links
from pert_companion.model.registers import PackageRule, Technique
from pert_companion.model.sidefile import SideTask
from pert_companion.programs.results import Point
from pert_companion.state.matching import Matching, match_states
from pert_companion.state.project import ProjectState
from pert_companion.state.remaining import Left, State


@dataclass(frozen=True)
class Figures:
    """The figures of a package or of the project, in units of money."""

    bac: int
    """Budget at completion of the measured work."""
    pv: int
    ev: int
    ac: int

    def scaled(self, factor: int) -> "Figures":
        """Returns the same figures in units of money that are so many times smaller."""
        return Figures(self.bac * factor, self.pv * factor, self.ev * factor, self.ac * factor)

    def __add__(self, other: "Figures") -> "Figures":
        """Returns the figures of two scopes that have nothing in common."""
        bac, pv = self.bac + other.bac, self.pv + other.pv
        return Figures(bac, pv, self.ev + other.ev, self.ac + other.ac)

    def since(self, before: "Figures") -> "Figures":
        """Returns what came after earlier figures of the same scope; BAC is that of today."""
        return Figures(self.bac, self.pv - before.pv, self.ev - before.ev, self.ac - before.ac)

    def performance(self) -> tuple[int, int, int, int, int]:
        """Returns PV, EV, AC, SV and CV."""
        return self.pv, self.ev, self.ac, self.sv, self.cv

    def amounts(self) -> tuple[int, ...]:
        """Returns BAC, PV, EV, AC, SV and CV."""
        return self.bac, *self.performance()

    @property
    def sv(self) -> int:
        """Returns EV - PV: the work done beyond what was planned."""
        return self.ev - self.pv

    @property
    def cv(self) -> int:
        """Returns EV - AC: the work done beyond what was spent."""
        return self.ev - self.ac

    @property
    def cpi(self) -> Fraction | None:
        """Returns EV / AC: the work done for each unit of money spent."""
        return _ratio(self.ev, self.ac)

    @property
    def spi(self) -> Fraction | None:
        """Returns EV / PV: the work done for each unit of work planned."""
        return _ratio(self.ev, self.pv)

    @property
    def eac_by_cpi(self) -> Fraction | None:
        """Returns BAC / CPI: the rest costs as the work so far did."""
        return _ratio(self.bac * self.ac, self.ev)

    @property
    def eac_by_plan(self) -> int:
        """Returns AC + (BAC - EV): the rest costs what was planned."""
        return self.ac + self.bac - self.ev

    @property
    def eac_by_both(self) -> Fraction | None:
        """Returns AC + (BAC - EV) / (CPI * SPI): cost and time go on as they did."""
        cpi, spi = self.cpi, self.spi
        if cpi is None or spi is None or not cpi * spi:
            return None
        return self.ac + (self.bac - self.ev) / (cpi * spi)

    @property
    def vac(self) -> Fraction | None:
        """Returns BAC - EAC at the CPI so far: what will be left of the budget."""
        return None if self.eac_by_cpi is None else self.bac - self.eac_by_cpi

    @property
    def tcpi(self) -> Fraction | None:
        """Returns (BAC - EV) / (BAC - AC): the CPI that the rest needs to end at the budget."""
        return _ratio(self.bac - self.ev, self.bac - self.ac)


NO_FIGURES = Figures(0, 0, 0, 0)
ONE_DAY = timedelta(days=1)


class Scope(Enum):
    """What a package is to the totals."""

    WORK = "work"
    EFFORT = "level of effort"
    UNMEASURED = "not measured"
    UNDISTRIBUTED = "undistributed"
    RESERVE = "reserve"


@dataclass(frozen=True)
class Package:
    """A leaf of the work breakdown structure, or a budget apart, with its figures."""

    code: str
    title: str
    figures: Figures
    scope: Scope = Scope.WORK
    technique: Technique = Technique.PERCENT
    manager: str = ""

    @property
    def is_measured(self) -> bool:
        """Says whether its figures are in the totals: something measures its work."""
        return self.scope in (Scope.WORK, Scope.EFFORT)


@dataclass(frozen=True)
class EarnedValue:
    """The earned value of a project at its as-of date."""

    packages: tuple[Package, ...]
    total: Figures
    """Of the measured packages alone, level of effort included."""
    actual_time: Fraction
    """Units of the baseline from its start to the as-of date, or to the last finish."""
    earned_schedule: Fraction
    """The time at which the baseline planned what is earned now, in units."""
    unit_minutes: int
    """The working minutes of a unit of the baseline."""
    notes: tuple[str, ...]
    changed: int = 0
    """What the change log moved to packages since the baseline, so that it is not in BAC yet."""

    def scaled(self, factor: int) -> "EarnedValue":
        """Returns the same with all amounts in units of money that are so many times smaller."""
        packages = tuple(replace(p, figures=p.figures.scaled(factor)) for p in self.packages)
        total, changed = self.total.scaled(factor), self.changed * factor
        return replace(self, packages=packages, total=total, changed=changed)

    def of(self, *scopes: Scope) -> Figures:
        """Returns the sum of the packages of these scopes."""
        return total_of(package.figures for package in self.packages if package.scope in scopes)

    @property
    def baseline_budget(self) -> int:
        """Returns the budget of the baseline: measured work, undistributed budget, and changes."""
        return self.total.bac + self.of(Scope.UNDISTRIBUTED).bac + self.changed

    @property
    def schedule_variance(self) -> Fraction:
        """Returns SV(t) in units: earned schedule less actual time."""
        return self.earned_schedule - self.actual_time

    @property
    def spi_of_time(self) -> Fraction | None:
        """Returns SPI(t): earned schedule / actual time."""
        return _ratio(self.earned_schedule, self.actual_time)


def earned_value(current: ProjectState, baseline: ProjectState) -> EarnedValue:
    """Returns the earned value of the current state against the baseline.

    Amounts are in the current deck's units of money.
    """
    measurer = _Measurer(current, baseline)
    measured = measurer.packages()
    packages = tuple(_packages(current, measured, measurer.time))
    packages += tuple(budgets_alone(current))
    total = total_of(package.figures for package in packages if package.is_measured)
    shares = {code: done.share for code, done in measurer.done.items()}
    finish = last_finish(current, shares)
    time = measurer.time
    if finish is not None:
        time = min(time, time_passed(baseline.plan.clock, finish))
    return EarnedValue(
        packages=packages,
        total=total,
        actual_time=time,
        earned_schedule=time_of_value(all_pieces(list(measured.values())), Fraction(total.ev)),
        unit_minutes=baseline.side.unit_minutes,
        notes=tuple(_notes(measurer.matching, packages, current)),
        changed=sum(logged_moves(current, baseline).values()),
    )


def measured_packages(current: ProjectState, baseline: ProjectState) -> dict[str, Measured]:
    """Returns the packages that something measures, by item of the current deck."""
    return _Measurer(current, baseline).packages()


class _Measurer:
    """Measures the packages of a state by the plan of the baseline."""

    def __init__(self, current: ProjectState, baseline: ProjectState) -> None:
        self.current = current
        self.baseline = baseline
        self.matching = match_states(baseline, current)
        self.scale = Fraction(current.side.money_scale, baseline.side.money_scale)
        self.done = done_tasks(current)
        self.time = time_passed(baseline.plan.clock, current.as_of)
        plan = planned_tasks(baseline)
        self.tasks: dict[str, tuple[Planned, Done]] = {}
        for old, new in self.matching.pairs:
            self.tasks[new.code] = (
                plan[old.code].scaled(self.scale),
                self.done[new.code],
            )
        self.members: dict[str, list[str]] = {}
        items = task_items(current)
        for code in self.tasks:
            self.members.setdefault(items[code], []).append(code)

    def packages(self) -> dict[str, Measured]:
        """Returns the measured packages, in card order."""
        rules = package_rules(self.current)
        found: dict[str, Measured] = {}
        later: list[PackageRule] = []
        for item in leaves(self.current.deck.items):
            rule = rules[item.code]
            if rule.technique is Technique.APPORTIONED:
                later.append(rule)
                continue
            measured = self._measured(rule)
            if measured is not None:
                found[item.code] = measured
        for rule in later:
            if rule.base not in found:
                raise InputError(f"{rule.place}: nothing measures its base, {rule.base[:40]!r}")
            found[rule.item] = measured_like(rule, self._budget(rule), found[rule.base])
        return found

    def _measured(self, rule: PackageRule) -> Measured | None:
        """Returns a package by its own technique, or None if it has no measure of work."""
        if rule.technique is Technique.EFFORT:
            budget = self._budget(rule)
            return measured_as_planned(rule, budget, self._span(rule), self.time)
        if rule.technique is Technique.MILESTONES:
            for code, _ in rule.weights:
                if code not in self.tasks:
                    raise InputError(f"{rule.place}: {code[:40]!r} is no task of the baseline")
            return measured_by_milestones(rule, self._budget(rule), self.tasks)
        if rule.technique.is_budget_alone or rule.item not in self.members:
            return None
        tasks = [self.tasks[code] for code in self.members[rule.item]]
        return measured_by_tasks(rule, tasks)

    def _budget(self, rule: PackageRule) -> Fraction:
        """Returns the budget of a package: as its rule says, of its tasks, or of its accounts."""
        if rule.budget is not None:
            return Fraction(rule.budget) * self.current.side.money_scale
        if rule.item in self.members:
            return sum(
                (self.tasks[code][0].cost for code in self.members[rule.item]),
                Fraction(0),
            )
        names = {rule.item, *self.current.registers.renames.others(rule.item)}
        accounts = self.baseline.deck.accounts
        budget = sum(account.budget for account in accounts if account.item in names)
        return budget * self.scale

    def _span(self, rule: PackageRule) -> tuple[Fraction, Fraction]:
        """Returns when level of effort begins and ends, in units of the baseline."""
        clock, unit = self.baseline.plan.clock, self.baseline.side.unit_minutes
        begin, end = Fraction(0), Fraction(self.baseline.plan.normal.length)
        if rule.start is not None:
            begin = time_passed(clock, rule.start)
        if rule.finish is not None:
            end = Fraction(max(0, clock.minutes_until(rule.finish + ONE_DAY)), unit)
        return begin, max(begin, end)


def package_rules(state: ProjectState) -> dict[str, PackageRule]:
    """Returns the rule of each leaf; a manager answers for what is below an item too.

    A rule may have a code that the item had before.
    """
    own = _rules_of_items(state)
    parents = {item.code: item.parent for item in state.deck.items}
    found = {}
    for item in leaves(state.deck.items):
        rule = own.get(item.code, PackageRule(item.code))
        above = item.code
        while not rule.manager and parents.get(above):
            above = parents[above]
            rule = replace(rule, manager=own[above].manager if above in own else "")
        found[item.code] = rule
    return found


def _rules_of_items(state: ProjectState) -> dict[str, PackageRule]:
    """Returns the rules by the codes of today of the deck's items."""
    names = state.registers.renames.names_of(item.code for item in state.deck.items)
    found = {}
    for rule in state.registers.packages:
        if rule.item in names:
            base = names.get(rule.base, rule.base)
            found[names[rule.item]] = replace(rule, item=names[rule.item], base=base)
    return found


def planned_tasks(baseline: ProjectState) -> dict[str, Planned]:
    """Returns the tasks of the baseline in its schedule at normal durations, by code."""
    point, network = baseline.plan.normal, baseline.plan.network
    cards = {card.code: card for card in network.activities}
    late = delays(network, baseline.side, point.events, point.durations)
    return {
        task.code: _planned(task, cards, point, late.get(task.code, 0))
        for task in baseline.side.tasks
    }


def _planned(
    task: SideTask, cards: Mapping[str, ActivityCard], point: Point, delay: int
) -> Planned:
    parts = [cards[part] for part in task.parts]
    cost = Fraction(sum(card.cost for card in parts))
    start, finish = span(task, cards, point.events, point.durations)
    return Planned(parts[0].item, cost, start + delay, finish + delay)


def done_shares(current: ProjectState) -> dict[str, Fraction]:
    """Returns the share done of each real task, from 0 to 1, by code."""
    return {code: done.share for code, done in done_tasks(current).items()}


def done_tasks(current: ProjectState) -> dict[str, Done]:
    """Returns how far each real task is, by code."""
    lefts = {left.code: left for left in current.remaining.left}
    cards = {card.code: card for card in current.deck.work}
    shares = {task.code: _done_share(task, lefts, cards) for task in current.side.tasks}
    _reach_milestones(current, shares)
    found = {}
    for task in current.side.tasks:
        has_begun = any(lefts[part].state is not State.WAITING for part in task.parts)
        found[task.code] = Done(shares[task.code], has_begun or shares[task.code] == 1)
    return found


def _done_share(
    task: SideTask,
    lefts: Mapping[str, Left],
    cards: Mapping[str, TaskCard | ActivityCard],
) -> Fraction:
    states = {lefts[part].state for part in task.parts}
    if states == {State.FINISHED}:
        return Fraction(1)
    if states == {State.WAITING}:
        return Fraction(0)
    if task.percent is not None:
        return Fraction(task.percent) / 100
    normal = sum(cards[part].normal for part in task.parts)
    left = sum(lefts[part].normal for part in task.parts)
    return max(Fraction(0), Fraction(normal - left, normal)) if normal else Fraction(0)


def _reach_milestones(current: ProjectState, shares: dict[str, Fraction]) -> None:
    """Sets the share of milestones without status to 1 if all work before them is finished."""
    reported = {card.activity for card in current.deck.statuses}
    waiting = [t for t in current.side.tasks if t.normal == 0 and t.parts[0] not in reported]
    links = real_links(current.deck, current.side)
    before = {task.code: _predecessors(links[task.code]) for task in waiting}
    reached = True
    while reached:
        reached = False
        for code, codes in before.items():
            if shares[code] == 0 and codes and all(shares[each] == 1 for each in codes):
                shares[code] = Fraction(1)
                reached = True


def _predecessors(links: Iterable[RealLink]) -> list[str]:
    return [link.predecessor for link in links]


def last_finish(current: ProjectState, shares: Mapping[str, Fraction]) -> date | None:
    """Returns the morning by which all work was finished, or None if there is work left."""
    if any(share < 1 for share in shares.values()):
        return None
    days = [card.day for card in current.deck.statuses if card.letter == "F"]
    return max(days, default=None)


def time_passed(clock: Clock, day: date) -> Fraction:
    """Returns the units of a clock from its start to a morning."""
    return Fraction(max(0, clock.minutes_until(day)), clock.side.unit_minutes)


def _packages(
    current: ProjectState, measured: Mapping[str, Measured], time: Fraction
) -> Iterator[Package]:
    """Yields the packages of the current deck, in card order."""
    charged = actual_costs(current.deck)
    rules = package_rules(current)
    for item in leaves(current.deck.items):
        rule = rules[item.code]
        if rule.technique.is_budget_alone:
            continue
        spent = charged.get(item.code, 0)
        figures, scope = Figures(0, 0, 0, spent), Scope.UNMEASURED
        found = measured.get(item.code)
        if found is not None:
            budget, planned = round(found.budget), round(found.planned_at(time))
            figures = Figures(budget, planned, round(found.earned), spent)
            scope = Scope.EFFORT if rule.technique is Technique.EFFORT else Scope.WORK
        yield Package(item.code, item.title, figures, scope, rule.technique, rule.manager)


def budgets_alone(current: ProjectState) -> Iterator[Package]:
    """Yields undistributed budget and reserve as they are at the data date."""
    scopes = {
        Technique.UNDISTRIBUTED: Scope.UNDISTRIBUTED,
        Technique.RESERVE: Scope.RESERVE,
    }
    titles = {item.code: item.title for item in current.deck.items}
    for rule in current.registers.packages:
        if rule.technique in scopes and rule.budget is not None:
            budget = Fraction(rule.budget + moved_to(current, rule)) * current.side.money_scale
            figures = Figures(round(budget), 0, 0, 0)
            scope, title = scopes[rule.technique], rule.title or titles.get(rule.item, "")
            yield Package(rule.item, title, figures, scope, rule.technique, rule.manager)


def moved_to(current: ProjectState, rule: PackageRule) -> Decimal:
    """Returns what the change log moved to a budget apart by the data date, less what it took."""
    names = {rule.item, rule.technique.value}
    moved = Decimal(0)
    for change in current.registers.changes:
        if change.day <= current.close:
            moved += change.amount if change.target in names else 0
            moved -= change.amount if change.source in names else 0
    return moved


def task_items(state: ProjectState) -> dict[str, str]:
    """Returns the package of each real task."""
    items = {card.code: card.item for card in state.deck.work}
    return {task.code: items[task.parts[0]] for task in state.side.tasks}


def actual_costs(deck: Deck) -> dict[str, int]:
    """Returns the charges up to the as-of date by package."""
    items = {account.code: account.item for account in deck.accounts}
    sums: dict[str, int] = {}
    for charge in deck.charges:
        if charge.day <= deck.as_of_day:
            item = items[charge.account]
            sums[item] = sums.get(item, 0) + charge.amount
    return sums


def _notes(matching: Matching, packages: Iterable[Package], current: ProjectState) -> Iterator[str]:
    for task in matching.new:
        yield f"{task.code}: not in the baseline, so it earns nothing, though its money is in AC"
    for task in matching.gone:
        yield f"{task.code}: in the baseline alone, so its budget is in no figure"
    for package in packages:
        if package.scope is Scope.UNMEASURED:
            yield f"{package.code}: no tasks of the baseline, so its money is in no ratio"
    known = {rule.place for rule in _rules_of_items(current).values()}
    for rule in current.registers.packages:
        if rule.place not in known and not rule.technique.is_budget_alone:
            yield f"{rule.place}: the deck has no item {rule.item}"
    reported = {card.activity for card in current.deck.statuses}
    costs = {card.code: card.cost for card in current.deck.work}
    for task in current.side.tasks:
        if task.normal == 0 and task.parts[0] not in reported and costs[task.parts[0]]:
            yield (
                f"{task.code}: a milestone without status; it is reached when all work before it is"
                " finished"
            )


def total_of(figures: Iterable[Figures]) -> Figures:
    """Returns the sum of the figures of several scopes that have nothing in common."""
    return sum(figures, NO_FIGURES)


def _ratio(above: Fraction | int, below: Fraction | int) -> Fraction | None:
    """Returns a quotient, or None where there is none."""
    return Fraction(above) / below if below else None
