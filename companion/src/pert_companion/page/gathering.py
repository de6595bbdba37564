"""Gathers what a page shows: states of a project, analyses of them, and the certificate.

The schedule is that of the work that is left, which is the plan if nothing has begun.
"""

from collections.abc import Callable, Collection, Iterable
from dataclasses import dataclass
from datetime import date
from fractions import Fraction
from functools import cached_property

from pert_companion.analysis.contract import Contract, contract_of, held_dates
from pert_companion.analysis.earned_value import EarnedValue, earned_value
from pert_companion.analysis.forecast import current_end, is_done
from pert_companion.analysis.latest import broken_lines
from pert_companion.analysis.loading import Loading, loading
from pert_companion.analysis.measured import measured_money
from pert_companion.analysis.money import MoneyOverTime
from pert_companion.analysis.options import Option, chosen_option, optimal_length, options
from pert_companion.analysis.own_baseline import own_baseline, planned_end
from pert_companion.analysis.plausibility import Doubt, doubts
from pert_companion.analysis.schedule import Schedule
from pert_companion.analysis.scheduling import (
    TaskDates,
    normal_dates,
    schedule_at,
    settled_schedule,
    with_actual_dates,
)
from pert_companion.analysis.settling import settled
from pert_companion.analysis.sureness import Sureness, sureness
from pert_companion.model.errors import InputError, ProgramError
from pert_companion.page.changed import Changed, changed
from pert_companion.page.data import Compactor
from pert_companion.page.source import Source, Wishes
from pert_companion.programs import results
from pert_companion.programs.certificate import segment_of
from pert_companion.state.matching import match_states
from pert_companion.state.project import ProjectState
from pert_companion.state.remaining import State
from pert_companion.state.work import Work

MOST_PERIODS = 60
"""Periods of a load chart."""

Progress = Callable[[str], None]


@dataclass(frozen=True)
class Gathered:
    """Everything that a page is made of."""

    source: Source
    certificate: str | None
    """The certificate as a page holds it; None if it is too long for one."""
    answer: str
    """What `pert_check` said: `certified 6`."""
    length: int
    """The length that the page shows first."""
    schedule: Schedule
    today: tuple[TaskDates, ...]
    """The tasks of today's plan, in which nothing is shortened."""
    planned: dict[str, TaskDates]
    """The baseline's tasks by the code of today's deck, those of a deck at normal durations."""
    contract: Contract | None
    """The date that the project is held to: contract date, target, or the plan's end."""
    options: tuple[Option, ...]
    sureness: Sureness | None
    """How sure today's plan is; None if no estimates differ."""
    chances: dict[int, Fraction]
    """The chance of each option, and of the length that is shown first, to end by its last day.

    It is empty if nothing is known.
    """
    load: Loading | None
    """At the length that the page shows first."""
    earned: EarnedValue | None
    changes: Changed | None
    """What changed since the report before, if one is given."""
    money: MoneyOverTime | None
    broken: tuple[str, ...]
    """A line for each latest date of a task that today's plan breaks."""

    @property
    def wishes(self) -> Wishes:
        """Returns how the user wants the page."""
        return self.source.wishes

    @property
    def state(self) -> ProjectState:
        """Returns the state that the page is about."""
        return self.source.state

    @property
    def baseline(self) -> ProjectState | None:
        """Returns the plan that progress is compared with, if one is given."""
        return self.source.baseline

    @cached_property
    def has_baseline(self) -> bool:
        """Says whether there is a baseline besides the plan: a named one, or the source's own."""
        return self.baseline is not None or bool(own_baseline(self.state.side))

    @property
    def previous(self) -> ProjectState | None:
        """Returns the state of the report before this one, if one is given."""
        return self.source.previous

    @cached_property
    def is_done(self) -> bool:
        """Says whether all work is finished."""
        return is_done(self.state)

    @property
    def end(self) -> date | None:
        """Returns the last day of work, with nothing shortened or as it was finished."""
        return current_end(self.state)

    @property
    def has_choice(self) -> bool:
        """Says whether there is more than one length of what is left."""
        return self.state.rest.shortest < self.state.rest.longest

    @cached_property
    def chosen(self) -> Option:
        """Returns the option of the length that the page shows first."""
        return chosen_option(self.state.rest, self.length)

    @cached_property
    def doubts(self) -> tuple[Doubt, ...]:
        """Returns what is hard to believe; budgets are judged where a log of changes is kept."""
        has_log = bool(self.state.registers.changes)
        return doubts(self.state, self.previous, self.baseline if has_log else None)

    @cached_property
    def progress(self) -> dict[str, State]:
        """Returns how far each card is; empty without status."""
        if not self.state.has_begun:
            return {}
        return {left.code: left.state for left in self.state.remaining.left}


def item_amounts(state: ProjectState) -> dict[str, results.SummaryRow] | None:
    """Returns the amounts by item; None without accounts."""
    return state.plan.summary if state.deck.accounts else None


def project_amounts(state: ProjectState) -> results.SummaryRow | None:
    """Returns the amounts of the project; None without accounts."""
    found = item_amounts(state)
    return None if found is None else found[state.plan.top]


def original_budget(state: ProjectState, baseline: ProjectState | None) -> int | None:
    """Returns the budget of the baseline in money of the state.

    None if no baseline is given, or if it has no accounts.
    """
    amounts = None if baseline is None else project_amounts(baseline)
    if amounts is None or baseline is None:
        return None
    return amounts.budget * state.side.money_scale // baseline.side.money_scale


def gather(source: Source, progress: Progress) -> Gathered:
    """Returns everything for the page of a source; `progress` gets a text now and then."""
    state, baseline, previous = source.state, source.baseline, source.previous
    rest = state.rest
    length = _first_length(state, source.wishes)
    plan = baseline or state
    contract = contract_of(state, planned_end(state, baseline))
    listed = options(state, held_dates(contract))
    lengths = {length, rest.longest, *(option.length for option in listed)}
    answer, certificate = _certified(state, lengths, progress)
    progress("simulating")
    sure = sureness(rest)
    return Gathered(
        source=source,
        certificate=certificate,
        answer=answer,
        length=length,
        schedule=schedule_at(rest, length),
        today=normal_dates(rest),
        planned=planned_tasks(state, baseline),
        contract=contract,
        options=listed,
        sureness=sure,
        chances=_chances(state, [length, *(option.length for option in listed)], sure),
        load=_load(state, length),
        earned=earned_value(state, plan) if state.has_begun else None,
        changes=None if previous is None else changed(state, previous, baseline),
        money=_money(source),
        broken=_broken_dates(rest),
    )


def _broken_dates(rest: Work) -> tuple[str, ...]:
    """Returns a line for each latest date of a task that the work breaks with nothing shortened."""
    if not any(task.constraint for task in rest.side.tasks):
        return ()
    today = schedule_at(rest, rest.longest)
    return tuple(broken_lines(rest.side, today.tasks))


def _certified(
    state: ProjectState, lengths: Collection[int], progress: Progress
) -> tuple[str, str | None]:
    """Returns what `pert_check` says of the certificate, and the certificate as a page holds it."""
    compactor, watch = Compactor(), _Watch(state, progress)

    def listen(part: bytes) -> None:
        compactor.take(part)
        watch.take(part)

    answer = state.rest.certified(lengths, listen)
    if not answer.startswith("certified "):
        raise ProgramError(f"{state.path}: pert_check says {answer}; there is no page")
    return answer, compactor.text()


def _chances(
    state: ProjectState, lengths: Iterable[int], today: Sureness | None
) -> dict[int, Fraction]:
    """Returns the chances of schedules of these lengths to end by their last days.

    `today` is how sure the longest one is, in which nothing is shortened.
    """
    found = {}
    for length in dict.fromkeys(lengths):
        sure = today
        if length < state.rest.longest:
            sure = sureness(state.rest, state.rest.point(length).durations, has_drivers=False)
        if sure is not None:
            end = state.rest.clock.end(length)
            found[length] = sure.runs.chance_of(length) if end is None else sure.chance_by(end)
    return found


def _money(source: Source) -> MoneyOverTime | None:
    """Returns the money of measured packages over time; None without accounts or status.

    It is None too if `pert load` cannot say it, as in `_load`.
    """
    state, previous = source.state, source.previous
    if not state.deck.accounts or not state.has_begun:
        return None
    earlier = () if previous is None else (previous,)
    try:
        return measured_money(state, source.baseline or state, earlier)
    except ProgramError:
        return None


def _first_length(state: ProjectState, wishes: Wishes) -> int:
    """Returns the length that is chosen at first.

    Raises `InputError` if the curve does not have it, or if it should be the cheapest one and the
    deck has no TERMS to say which that is.
    """
    rest = state.rest
    if wishes.length is not None:
        if not rest.shortest <= wishes.length <= rest.longest:
            raise InputError(
                f"{state.path}: length {wishes.length} is outside {rest.shortest} to {rest.longest}"
            )
        return wishes.length
    cheapest = optimal_length(rest)
    if wishes.optimum and cheapest is None:
        raise InputError(f"{state.path}: no TERMS, so that no length is the cheapest")
    if wishes.normal or cheapest is None:
        return rest.longest
    return cheapest


def planned_tasks(state: ProjectState, baseline: ProjectState | None) -> dict[str, TaskDates]:
    """Returns the tasks of the baseline by the codes of the state.

    It is the one that is named, else the one that the source has saved, else the plan itself.
    """
    own = {} if baseline is not None else own_baseline(state.side)
    if own:
        return own
    plan = baseline or state
    by_code = {task.code: task for task in normal_dates(plan.plan)}
    matching = match_states(plan, state)
    return {new.code: by_code[old.code] for old, new in matching.pairs}


class _Watch:
    """Says how far the certificate of a state is, as its segments come."""

    def __init__(self, state: ProjectState, progress: Progress) -> None:
        self._longest = state.rest.longest
        self._span = max(1, state.rest.longest - state.rest.shortest)
        self._progress = progress
        self._segments = 0

    def take(self, part: bytes) -> None:
        """Takes the next part."""
        segment = segment_of(part)
        if segment is None:
            return
        self._segments += 1
        share = 100 * (self._longest - segment.upper) // self._span
        self._progress(f"certify: segment {self._segments}, length {segment.upper}, {share} %")


def _load(state: ProjectState, length: int) -> Loading | None:
    """Returns the load of the work that is left at a length; None if `pert load` cannot say it.

    It takes at most 400 periods, of at most 3,660 days, and amounts that a card can have.
    """
    found = settled(state.rest, length)
    schedule = with_actual_dates(state, settled_schedule(found))
    try:
        return loading(state, found, schedule, MOST_PERIODS)
    except ProgramError:
        return None
