"""Planned value, earned value and actual cost by account and month.

Planned value is that of the baseline to its end. Actual cost is that of the ledger by the days of
vouchers, or of the deck's charges by theirs; where a deck has totals alone it is known at states.
Earned value is known where a state is. Nothing is put between two states. A state that was reported
by an older baseline keeps what was reported next to what it is by the one in force now.
"""

from collections.abc import Callable, Iterator, Mapping, Sequence
from dataclasses import dataclass
from datetime import date, timedelta
from fractions import Fraction

from pert_companion.analysis.changes import has_only_totals
from pert_companion.analysis.compare import in_force
from pert_companion.analysis.earned_value import Figures, measured_packages, time_passed
from pert_companion.analysis.performance import (
    account_figures,
    charges_by_account,
    figures_at,
)
from pert_companion.model.deck import Deck
from pert_companion.model.ledger import Ledger
from pert_companion.state.matching import match_accounts
from pert_companion.state.project import ProjectState

ONE_DAY = timedelta(days=1)
_Spent = Callable[[str, date], int | None]
"""The actual cost of an account by a morning, in units of money; None where it is not known."""


@dataclass(frozen=True)
class Month:
    """What an account was planned to earn, has earned and has cost up to the close of a month."""

    account: str
    close: date
    """The last day of the month, or the data date of a state."""
    pv: int
    ev: int | None
    """None if no state is known at this close."""
    ac: int | None
    """None after the data date, and where it is not known."""
    reported_pv: int | None = None
    """By the baseline in force then, as it was reported; None where that is the one of today."""
    reported_ev: int | None = None


def time_phased(
    states: Sequence[ProjectState], baselines: Sequence[ProjectState]
) -> tuple[Month, ...]:
    """Returns cumulative PV, EV and AC by account and month; the last state is the current one.

    `baselines` are in the order in which they replaced one another. Planned value is that of the
    one in force for the current state, to its end. Actual cost is that of the ledger, or else of
    the deck's charges. Earned value is known where a state is: nothing is put between two states.
    """
    current = states[-1]
    baseline = in_force(current, baselines)
    known = {state.as_of: state for state in states if state.has_begun}
    measured = measured_packages(current, baseline)
    clock = baseline.plan.clock
    found: list[Month] = []
    spent = _spent_until(current, known)
    reported = dict(_reported(known, current, baselines))
    for morning, close in _closes(current, baseline, known).items():
        time = time_passed(clock, morning)
        planned = {code: round(package.planned_at(time)) for code, package in measured.items()}
        earned = _earned_at(known.get(morning), current, baseline)
        figures = {code: Figures(0, pv, earned.get(code, 0), 0) for code, pv in planned.items()}
        before = reported.get(morning, {})
        for account, shares in account_figures(current.deck, figures).items():
            ev = shares.ev if morning in known else None
            ac = spent(account, morning) if morning <= current.as_of else None
            held = before.get(account)
            then = (None, None) if held is None else (held.pv, held.ev)
            found.append(Month(account, close, shares.pv, ev, ac, *then))
    return tuple(found)


def _reported(
    known: Mapping[date, ProjectState],
    current: ProjectState,
    baselines: Sequence[ProjectState],
) -> Iterator[tuple[date, dict[str, Figures]]]:
    """Yields the figures by account of each state that an older baseline measured."""
    newest = in_force(current, baselines)
    for morning, state in known.items():
        own = in_force(state, baselines)
        if own is not newest:
            yield morning, account_figures(current.deck, figures_at(current, own, state))


def _closes(
    current: ProjectState, baseline: ProjectState, known: Mapping[date, ProjectState]
) -> dict[date, date]:
    """Returns the ends of months of the baseline, and the data dates, by the mornings after them.

    A state at the end of a month is called by its data date, as in every other table.
    """
    last = max(baseline.plan.end or current.close, current.close)
    found: dict[date, date] = {}
    close = end_of_month(baseline.side.start)
    while close < last:
        found[close + ONE_DAY] = close
        close = end_of_month(close + ONE_DAY)
    found[close + ONE_DAY] = close
    for morning, state in known.items():
        if morning > baseline.side.start:
            found[morning] = state.data_day
    return dict(sorted(found.items()))


def end_of_month(day: date) -> date:
    """Returns the last day of a day's month."""
    first = date(day.year + day.month // 12, day.month % 12 + 1, 1)
    return first - ONE_DAY


def _earned_at(
    state: ProjectState | None, current: ProjectState, baseline: ProjectState
) -> dict[str, int]:
    if state is None:
        return {}
    return {code: found.ev for code, found in figures_at(current, baseline, state).items()}


def _spent_until(current: ProjectState, known: Mapping[date, ProjectState]) -> _Spent:
    """Returns what gives the actual cost of an account by a morning."""
    if current.ledger is not None:
        return _by_vouchers(current, current.ledger)
    if has_only_totals(current.deck):
        return _by_states(current, known)
    return _by_charges(current.deck)


def _by_charges(deck: Deck) -> _Spent:
    charged: dict[str, dict[date, int]] = {}
    for charge in deck.charges:
        days = charged.setdefault(charge.account, {})
        days[charge.day] = days.get(charge.day, 0) + charge.amount

    def by_charges(account: str, morning: date) -> int:
        days = charged.get(account, {})
        return sum(amount for day, amount in days.items() if day <= morning)

    return by_charges


def _by_vouchers(current: ProjectState, ledger: Ledger) -> _Spent:
    codes = (account.code for account in current.deck.accounts)
    movements = ledger.renamed(current.registers.renames.names_of(codes)).movements()

    def by_vouchers(account: str, morning: date) -> int:
        days = movements.get(account, {})
        balance = sum(
            (Fraction(moved) for day, moved in days.items() if day < morning),
            Fraction(0),
        )
        return max(0, round(balance * current.side.money_scale))

    return by_vouchers


def _by_states(current: ProjectState, known: Mapping[date, ProjectState]) -> _Spent:
    spent: dict[tuple[str, date], int] = {}
    for morning, state in known.items():
        names = match_accounts(state.deck, current.deck, current.registers.renames)
        scale = Fraction(current.side.money_scale, state.side.money_scale)
        charged = charges_by_account(state.deck)
        for old, code in names.items():
            spent[code, morning] = round(charged.get(old, 0) * scale)

    def by_states(account: str, morning: date) -> int | None:
        return spent.get((account, morning))

    return by_states
