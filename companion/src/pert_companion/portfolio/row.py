"""The row of one deck: what a page of several projects says of it, or the fault that it has."""

from collections.abc import Sequence
from dataclasses import dataclass, replace
from datetime import date, timedelta
from fractions import Fraction
from pathlib import Path

from pert_companion.analysis.contract import PLANNED_END, contract_of
from pert_companion.analysis.deadlines import missed_deadlines
from pert_companion.analysis.forecast import current_end, is_done
from pert_companion.analysis.own_baseline import planned_end
from pert_companion.analysis.scheduling import TaskDates, normal_dates
from pert_companion.analysis.sureness import sureness
from pert_companion.model.amounts import measure_of
from pert_companion.model.clock import Clock
from pert_companion.model.errors import CompanionError
from pert_companion.model.losses import accepted_text
from pert_companion.model.moments import midnight
from pert_companion.model.sidefile import side_path
from pert_companion.page.gathering import original_budget, project_amounts
from pert_companion.page.words import words_of
from pert_companion.portfolio.job import Job
from pert_companion.programs.client import Programs
from pert_companion.programs.results import cost_at
from pert_companion.state.project import ProjectState, open_state
from pert_companion.state.remaining import State
from pert_companion.state.work import Work


@dataclass(frozen=True)
class Milestone:
    """A milestone that is not reached yet, with its forecast day."""

    name: str
    day: str


@dataclass(frozen=True)
class WeekLoad:
    """What a project loads a resource with in a calendar week (`2026-W40`), rounded at the end."""

    resource: str
    title: str
    week: str
    amount: int


@dataclass(frozen=True)
class Row:
    """What the page says of a deck. Dates are YYYY-MM-DD or empty; a `fault` stands alone."""

    path: str
    code: str = ""
    title: str = ""
    as_of: str = ""
    day_minutes: int = 1
    """The working minutes of a planner's day."""
    currency: str = ""
    money_scale: int = 1
    forecast: str = ""
    likely: str = ""
    """P80: the day by which four in five simulated runs end; empty if no estimates differ."""
    contract: str = ""
    """The date that the project is held to."""
    contract_name: str = ""
    """What it is: `contract date`, `target date` or `planned end`."""
    late: int | None = None
    """Working minutes from that date to the forecast; negative if it is early."""
    missed: int = 0
    """Tasks that are forecast to end after their deadline."""
    missed_first: str = ""
    """The first of them in plan order."""
    previous_as_of: str = ""
    moved: int | None = None
    """Working minutes by which the forecast moved since the deck before; None without one."""
    latest: int | None = None
    budget: int | None = None
    overrun: int | None = None
    first_budget: int | None = None
    """The budget of the baseline; None if no baseline with accounts is given."""
    day_price: int | None = None
    """What one day less than the forecast costs; None if it cannot be shortened by one."""
    milestone: Milestone | None = None
    loads: tuple[WeekLoad, ...] = ()
    note: str = ""
    """What the import left out, as the user accepted it."""
    fault: str = ""

    @property
    def is_binding(self) -> bool:
        """Says whether the deck has a date that it is held to; else it is the end of its plan."""
        return self.contract_name not in ("", PLANNED_END)


def row_of(programs: Programs, job: Job) -> Row:
    """Returns the row of a deck; one that cannot be used has its fault instead of figures."""
    try:
        return _row(programs, job)
    except CompanionError as error:
        return Row(job.name, fault=_unplaced(str(error), job.path, job.name))
    except OSError as error:
        return Row(job.name, fault=error.strerror or str(error))


def _unplaced(text: str, path: Path, name: str) -> str:
    """Returns a fault without the place where the deck was when it was read."""
    for real, shown in ((side_path(path), side_path(Path(name))), (path, Path(name))):
        text = text.replace(str(real), str(shown)).replace(real.name, shown.name)
    return text


def _row(programs: Programs, job: Job) -> Row:
    state = open_state(job.path, programs)
    baseline = None if job.baseline is None else open_state(job.baseline, programs)
    row = _with_money(_dated(state, baseline, job.name), state, baseline)
    if job.previous is None:
        return row
    return _moved(row, state, open_state(job.previous, programs))


def _with_money(row: Row, state: ProjectState, baseline: ProjectState | None) -> Row:
    """Returns the row with the amounts of the accounts, if the deck has any."""
    top = project_amounts(state)
    if top is None:
        return row
    first = original_budget(state, baseline)
    return replace(
        row, latest=top.latest, budget=top.budget, overrun=top.overrun, first_budget=first
    )


def _dated(state: ProjectState, baseline: ProjectState | None, name: str) -> Row:
    """Returns the row without amounts of accounts, and without what moved."""
    rest = state.rest
    words = words_of(state.side, None)
    tasks = normal_dates(rest)
    missed = missed_deadlines(state, tasks)
    row = Row(
        name,
        code=state.deck.project.code,
        title=state.deck.project.title,
        as_of=state.data_day.isoformat(),
        day_minutes=state.side.calendar.day_minutes,
        currency=words.currency,
        money_scale=words.money_scale,
        forecast=_day(current_end(state)),
        likely=_likely(rest),
        missed=len(missed),
        missed_first=missed[0].name if missed else "",
        day_price=_day_price(rest),
        milestone=_next_milestone(state, tasks),
        loads=week_loads(rest),
        note=accepted_note(state),
    )
    contract = contract_of(state, planned_end(state, baseline))
    if contract is None:
        return row
    end = current_end(state)
    units = rest.clock.units_until(end) if is_done(state) and end else rest.longest
    late = units - rest.clock.units_until(contract.day)
    return replace(
        row,
        contract=contract.day.isoformat(),
        contract_name=contract.name,
        late=late * state.side.unit_minutes,
    )


def _likely(work: Work) -> str:
    """Returns the day by which the work ends with a chance of four in five, if that is known."""
    found = sureness(work, has_drivers=False)
    return "" if found is None else _day(found.likely_end)


def _day_price(work: Work) -> int | None:
    """Returns what one day less costs, or one unit if units are longer."""
    length = work.longest - measure_of(work.side).step
    if length < work.shortest:
        return None
    return cost_at(work.curve, length)[0] - work.curve[0].cost


def _finished(state: ProjectState) -> set[str]:
    """Returns the codes of the cards of finished work."""
    return {left.code for left in state.remaining.left if left.state is State.FINISHED}


def accepted_note(state: ProjectState) -> str:
    """Returns what the import left out, as the user accepted it, or an empty text."""
    accepted = state.side.accepted
    return f"not carried over, as accepted: {accepted_text(accepted)}" if accepted else ""


def _day(day: date | None) -> str:
    return "" if day is None else day.isoformat()


def _moved(row: Row, state: ProjectState, before: ProjectState) -> Row:
    """Returns the row with the movement of the forecast since the deck before."""
    now, then = current_end(state), current_end(before)
    moved = None
    if now is not None and then is not None:
        clock = before.rest.clock
        units = clock.units_until(now) - clock.units_until(then)
        days = Fraction(units * before.side.unit_minutes, before.side.calendar.day_minutes)
        moved = round(days * row.day_minutes)
    return replace(row, previous_as_of=before.data_day.isoformat(), moved=moved)


def _next_milestone(state: ProjectState, tasks: Sequence[TaskDates]) -> Milestone | None:
    """Returns the first milestone that is not reached, in the order of days and of the plan."""
    done = _finished(state)
    waiting = [task for task in tasks if task.is_milestone and task.code not in done]
    if not waiting:
        return None
    first = min(waiting, key=lambda task: task.finish)
    names = {task.code: task.name for task in state.side.tasks}
    return Milestone(names[first.code] or first.code, first.last_day.isoformat())


def week_loads(work: Work) -> tuple[WeekLoad, ...]:
    """Returns what the work that is left loads each resource with, by calendar week.

    An amount is spread evenly over the working time of its activity at the normal duration, from
    its earliest start on, as `pert load` does; an activity without length counts where it is.
    Amounts are rounded down once, at the end of the sum of a week; a week without one is left out.
    """
    network = work.network
    if not network.loads:
        return ()
    point = work.normal
    begins = {card.code: point.events[card.begins] for card in network.activities}
    sums: dict[tuple[str, str], Fraction] = {}
    for load in network.loads:
        first = begins[load.activity]
        last = first + point.durations[load.activity]
        for week, share in _shares(work.clock, first, last):
            key = (load.resource, week)
            sums[key] = sums.get(key, Fraction(0)) + share * load.quantity
    titles = {card.code: card.title or card.code for card in network.resources}
    return tuple(
        WeekLoad(resource, titles[resource], week, int(amount))
        for (resource, week), amount in sorted(sums.items())
        if amount >= 1
    )


def _shares(clock: Clock, first: int, last: int) -> Sequence[tuple[str, Fraction]]:
    """Returns the weeks from one unit to another, each with its share of the working time."""
    calendar, unit = clock.side.calendar, clock.side.unit_minutes
    begin, end = clock.origin + first * unit, clock.origin + last * unit
    day = calendar.at(begin).date()
    if first == last:
        return [(week_name(day), Fraction(1))]
    monday = day - timedelta(days=day.weekday())
    shares = []
    while begin < end:
        monday += timedelta(days=7)
        border = min(end, calendar.position(midnight(monday)))
        if border > begin:
            name = week_name(monday - timedelta(days=7))
            shares.append((name, Fraction(border - begin, (last - first) * unit)))
            begin = border
    return shares


def week_name(day: date) -> str:
    """Returns the calendar week of a day by ISO 8601: `2026-W40`."""
    year, week, _ = day.isocalendar()
    return f"{year}-W{week:02}"
