"""Compares states of one project: what changed, what it costs to recover, what was restated.

A state is a deck with its side file as of one day. Each is compared by the work that is left of it
(`remaining`, `forecast`): its end, critical path, slack, and the curve of recovering time. Tasks
are matched by source id, then by code. Amounts of all states are in one unit of money.
"""

from collections.abc import Iterator, Sequence
from dataclasses import dataclass, replace
from datetime import date, datetime
from math import lcm

from pert_companion.analysis.changes import (
    Change,
    Restated,
    Side,
    restatements,
    task_changes,
)
from pert_companion.analysis.earned_value import EarnedValue, earned_value
from pert_companion.analysis.forecast import (
    ONE_DAY,
    Forecast,
    end_of_sixths,
    forecast,
    late_minutes,
)
from pert_companion.analysis.renaming import Renaming, renamings
from pert_companion.analysis.restated_money import (
    CreditNote,
    credit_notes,
    restated_money,
)
from pert_companion.analysis.total_float import SIXTHS
from pert_companion.model.errors import UsageError
from pert_companion.model.moments import midnight
from pert_companion.model.text_form import TextForm
from pert_companion.programs.results import Breakpoint, cost_at
from pert_companion.state.matching import Matching, match_states
from pert_companion.state.project import ProjectState


@dataclass(frozen=True)
class StateFigures:
    """One state of a project with its figures, amounts in the unit of money of the comparison."""

    state: ProjectState
    forecast: Forecast
    end: date
    """The last day of work, forecast by what is left."""
    left_minutes: int
    """Working minutes from the as-of date to the end."""
    day_minutes: int
    critical: tuple[str, ...]
    """The codes of the critical unfinished tasks, in the order of the plan."""
    curve: tuple[Breakpoint, ...]
    """The certified curve of the remaining deck; lengths in its units, costs in all."""
    budget: int
    actual: int
    to_go: int
    latest: int
    """The latest estimate of the cost at the end: actual + to go."""
    value: int
    """The VALUE of `pert value`, which follows spending until a package is finished."""
    earned: EarnedValue | None
    """Earned value by work done, as it was reported: against the baseline that was in force.

    It is None for the baseline itself.
    """
    by_newest: EarnedValue | None
    """The same against the newest baseline, if that is another one."""
    directed: date | None
    """The last day that the directed end allows, or that is asked for; None if there is none."""

    @property
    def name(self) -> str:
        """Returns the file name of its deck."""
        return self.state.name

    @property
    def as_of(self) -> date:
        """Returns the first day of the work that is left."""
        return self.state.as_of

    @property
    def data_day(self) -> date:
        """Returns the day that people know it by: the source's data date, or the as-of date."""
        return self.state.data_day

    @property
    def earliest_end(self) -> date:
        """Returns the last day of work if everything is as short as it can be."""
        return min(curve_days(self))

    @property
    def recovery_cost(self) -> int | None:
        """Returns what ending by the directed day costs; None if it cannot be had or is not set."""
        if self.directed is None:
            return None
        directed = curve_side(self, self.directed)
        return None if directed is None else directed.cost - self.curve[0].cost


@dataclass(frozen=True)
class FloatChange:
    """An unfinished task with less slack than before, in working minutes."""

    code: str
    name: str
    old_minutes: int
    new_minutes: int

    @property
    def is_used_up(self) -> bool:
        """Says whether it had slack and has none any more."""
        return self.old_minutes > 0 >= self.new_minutes


@dataclass(frozen=True)
class CriticalChange:
    """A task that joined or left the critical path, and why it left."""

    code: str
    name: str
    why: str
    """For one that left: `finished`, `gone`, or its slack; for one that joined: `new` or empty."""


@dataclass(frozen=True)
class CurveSide:
    """The least cost of finishing by a day in one state."""

    cost: int
    next_day_cost: int | None
    """What finishing a working day earlier costs; None if that cannot be had."""


@dataclass(frozen=True)
class CurveRow:
    """The two curves at one last day of work; None where a state cannot finish by then."""

    end: date
    old: CurveSide | None
    new: CurveSide | None


@dataclass(frozen=True)
class Comparison:
    """What changed from one state to the next."""

    old: StateFigures
    new: StateFigures
    end_moved_minutes: int
    """Working minutes from the older end to the newer one; negative if it is earlier."""
    joined: tuple[CriticalChange, ...]
    left: tuple[CriticalChange, ...]
    changes: tuple[Change, ...]
    """By kind, then in the order of the newer state."""
    restated: tuple[Restated, ...]
    credits: tuple[CreditNote, ...]
    """The credits that were booked since the older state, where there is a ledger."""
    renamed: tuple[Renaming, ...]
    """What went, each with the one that came and is like it: proposals for `renames.csv`."""
    slack_used: tuple[FloatChange, ...]
    curves: tuple[CurveRow, ...]
    """From the latest end of either curve to the earliest one."""


@dataclass(frozen=True)
class History:
    """The states of a project in the order of their as-of dates, and what changed each time."""

    baseline: StateFigures
    """The newest baseline."""
    baselines: tuple[str, ...]
    """The file names of all baselines, by their as-of dates."""
    states: tuple[StateFigures, ...]
    comparisons: tuple[Comparison, ...]
    """One for each two neighbouring states."""
    money_scale: int
    """How many units of the amounts one of the currency is."""
    currency: str


def compare(
    states: Sequence[ProjectState],
    baseline: ProjectState | None = None,
    by: date | None = None,
    later: Sequence[ProjectState] = (),
    on_terminal: bool = False,
) -> History:
    """Returns the history of one or more states, which are in the order of their as-of dates.

    The first one is the baseline unless another one is given, and `later` ones replaced it. Each
    state is measured by the baseline that was in force then, and by the newest one too. `by` is the
    last day that the end is measured by; without it, that is what the directed end of each deck
    allows. `on_terminal` says whether texts of what changed are for a terminal. Raises `UsageError`
    if the states are not in order.
    """
    _check_order(states)
    baselines = baselines_of(states, baseline, later)
    scale = lcm(*(state.side.money_scale for state in (*baselines, *states)))
    figures = []
    for state in states:
        found = _figures(state, baselines, scale)
        figures.append(found if by is None else replace(found, directed=by))
    form = TextForm(on_terminal, scale)
    newest = [found for found in figures if found.state is baselines[-1]]
    return History(
        baseline=newest[0] if newest else _figures(baselines[-1], baselines[-1:], scale),
        baselines=tuple(state.name for state in baselines),
        states=tuple(figures),
        comparisons=tuple(_comparison(old, new, form) for old, new in zip(figures, figures[1:])),
        money_scale=scale,
        currency=states[-1].side.currency,
    )


def baselines_of(
    states: Sequence[ProjectState],
    baseline: ProjectState | None,
    later: Sequence[ProjectState],
) -> list[ProjectState]:
    """Returns the baselines by their as-of dates.

    States before the first that is named were measured by the first state.
    """
    named = sorted([*([baseline] if baseline else []), *later], key=lambda state: state.as_of)
    if not named or any(states[0].as_of < each.as_of <= named[0].as_of for each in states[1:]):
        return [states[0], *named]
    return named


def in_force(state: ProjectState, baselines: Sequence[ProjectState]) -> ProjectState:
    """Returns the baseline that a state was reported by: the latest one before its as-of date.

    It is the first one if none is before.
    """
    earlier = [baseline for baseline in baselines if baseline.as_of < state.as_of]
    return earlier[-1] if earlier else baselines[0]


def _check_order(states: Sequence[ProjectState]) -> None:
    for old, new in zip(states, states[1:]):
        if new.as_of < old.as_of:
            raise UsageError(
                f"{new.path} is as of {new.as_of}, before {old.path}, which is as of {old.as_of};"
                " name the earlier state first"
            )


def _figures(state: ProjectState, baselines: Sequence[ProjectState], scale: int) -> StateFigures:
    """Returns the figures of a state, in units of money of which a unit of currency has `scale`.

    A baseline itself has no earned value by its own plan.
    """
    factor = scale // state.side.money_scale
    baseline, newest = in_force(state, baselines), baselines[-1]
    found = forecast(state, baseline)
    summary = state.plan.summary[state.plan.top]
    schedule = found.schedule
    earned = by_newest = None
    if state is not baseline:
        earned = earned_value(state, baseline).scaled(factor)
    if newest is not baseline and newest is not state:
        by_newest = earned_value(state, newest).scaled(factor)
    return StateFigures(
        state=state,
        forecast=found,
        end=found.end,
        left_minutes=schedule.length * schedule.unit_minutes,
        day_minutes=schedule.day_minutes,
        critical=tuple(task.code for task in found.tasks if task.is_critical),
        curve=tuple(point.scaled(factor) for point in state.rest.curve),
        budget=summary.budget * factor,
        actual=summary.actual * factor,
        to_go=summary.to_go * factor,
        latest=summary.latest * factor,
        value=state.plan.value.items[state.plan.top].value * factor,
        earned=earned,
        by_newest=by_newest,
        directed=directed_day(state),
    )


def directed_day(state: ProjectState) -> date | None:
    """Returns the last day of work that the directed end allows, or None if there is none."""
    directed = state.deck.project.directed
    return None if directed is None else end_of_sixths(state, directed * SIXTHS)


def _comparison(old: StateFigures, new: StateFigures, form: TextForm) -> Comparison:
    matching = match_states(old.state, new.state)
    sides = _side(old, form), _side(new, form)
    return Comparison(
        old=old,
        new=new,
        end_moved_minutes=late_minutes(new.state.side.calendar, old.end, _evening(new.end)) or 0,
        joined=tuple(_joined(old, new, matching, form)),
        left=tuple(_left(old, new, matching, form)),
        changes=task_changes(*sides, matching),
        restated=(*restatements(*sides, matching), *restated_money(*sides)),
        credits=credit_notes(*sides),
        renamed=renamings(matching, old.state, new.state),
        slack_used=tuple(_slack_used(old, new, matching)),
        curves=tuple(curve_rows(old, new)),
    )


def _side(figures: StateFigures, form: TextForm) -> Side:
    return Side(figures.state, form.money_scale // figures.state.side.money_scale, form)


def _evening(day: date) -> datetime:
    return midnight(day) + ONE_DAY


def _joined(
    old: StateFigures, new: StateFigures, matching: Matching, form: TextForm
) -> Iterator[CriticalChange]:
    before = {entry.code: entry for entry in old.forecast.tasks}
    origins = matching.old_of()
    for task in new.forecast.tasks:
        if not task.is_critical:
            continue
        origin = origins.get(task.code)
        if origin is None:
            yield CriticalChange(task.code, task.name, "new")
        elif origin.code not in before:
            yield CriticalChange(task.code, task.name, "was finished")
        elif not before[origin.code].is_critical:
            minutes = before[origin.code].total_float_minutes
            yield CriticalChange(
                task.code,
                task.name,
                f"had {form.day_words(minutes, old.day_minutes)} of slack",
            )


def _left(
    old: StateFigures, new: StateFigures, matching: Matching, form: TextForm
) -> Iterator[CriticalChange]:
    after = {entry.code: entry for entry in new.forecast.tasks}
    codes = {older.code: newer.code for older, newer in matching.pairs}
    for task in old.forecast.tasks:
        if not task.is_critical:
            continue
        code = codes.get(task.code)
        if code is None:
            yield CriticalChange(task.code, task.name, "gone")
        elif code not in after:
            yield CriticalChange(code, task.name, "finished")
        elif not after[code].is_critical:
            minutes = after[code].total_float_minutes
            yield CriticalChange(
                code, task.name, f"has {form.day_words(minutes, new.day_minutes)} of slack"
            )


def _slack_used(old: StateFigures, new: StateFigures, matching: Matching) -> Iterator[FloatChange]:
    before = {entry.code: entry.total_float_minutes for entry in old.forecast.tasks}
    origins = matching.old_of()
    for task in new.forecast.tasks:
        origin = origins.get(task.code)
        minutes = None if origin is None else before.get(origin.code)
        if minutes is not None and task.total_float_minutes < minutes:
            yield FloatChange(task.code, task.name, minutes, task.total_float_minutes)


def curve_rows(old: StateFigures, new: StateFigures) -> Iterator[CurveRow]:
    """Yields the two curves side by side, a row for each end of a stretch of either one.

    A state that ends before a day has its normal cost there; one that cannot has nothing.
    """
    days = {*curve_days(old), *curve_days(new)}
    for day in sorted(days, reverse=True):
        yield CurveRow(day, curve_side(old, day), curve_side(new, day))


def curve_days(figures: StateFigures) -> Iterator[date]:
    """Yields the last day of work for each length at which the price of time changes."""
    for point in figures.curve:
        yield figures.state.rest.clock.end_moment(point.length).date()


def curve_side(figures: StateFigures, day: date) -> CurveSide | None:
    """Returns the least cost of finishing by the evening of a day, or None if nothing does."""
    clock = figures.state.rest.clock
    length = clock.units_until(day)
    cost = _cost_within(figures.curve, length)
    if cost is None:
        return None
    step = max(1, clock.side.calendar.day_minutes // clock.side.unit_minutes)
    earlier = _cost_within(figures.curve, length - step)
    return CurveSide(cost, None if earlier is None else earlier - cost)


def _cost_within(curve: Sequence[Breakpoint], length: int) -> int | None:
    """Returns the least cost of a length or a shorter one, or None if none is so short."""
    if length < curve[-1].length:
        return None
    return cost_at(curve, min(length, curve[0].length))[0]
