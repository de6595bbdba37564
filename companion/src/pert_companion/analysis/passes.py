"""Dates by a forward and a backward pass over the real calendars of a plan.

A deck counts time in units of one calendar, the plan's. A task with a calendar of its own, and a
duration or a lag by the clock, lasts in these units what it spans at its dates:

1. `carry.logic_of` says the links, lags and calendars as the source has them.
2. `Passes` computes the moments of all tasks at normal durations: each begins with the first work
   of its own calendar after everything that it waits for, and is done in one piece.
3. `spans` counts the plan's working time in each task and in each lag at these moments, and `carry`
   writes that. The moments do not depend on how a deck counts them, so one round is enough.
4. The curve is solved in units. At a chosen length `lasting_at` turns the units of each task back
   into work of its own calendar, and `Passes` computes the dates again.
5. Where a task spans more or less there than the deck counts, `settling` counts the deck again at
   these dates and solves it again, until the units stay.

Moments are minutes. A task starts on a morning and ends on an evening; a milestone is at the moment
for which it waits. A lag ends on an evening, a lead of a start on a morning. Late dates are the
latest that keep the end of the project.
"""

from collections.abc import Callable, Collection, Iterable, Mapping
from dataclasses import dataclass, field
from datetime import datetime
from graphlib import CycleError, TopologicalSorter

from pert_companion.analysis.latest import latest_of
from pert_companion.model.calendar import Calendar
from pert_companion.model.errors import InputError
from pert_companion.model.logic import Lasting, Logic, LogicTie, Recount, Spans, TieWait
from pert_companion.model.sidefile import SideFile, SideTask
from pert_companion.state.remaining import Remaining


@dataclass(frozen=True)
class Moments:
    """When a task is done: its first moment of work, and the one at which work ends."""

    start: datetime
    finish: datetime


@dataclass(frozen=True)
class Actual:
    """What has happened: the dates of finished tasks and the starts of those under way, by code."""

    finished: Mapping[str, Moments] = field(default_factory=dict)
    begun: Mapping[str, datetime] = field(default_factory=dict)


@dataclass(frozen=True)
class LatestMoments:
    """The moments by which tasks have to begin and end, by code, and the project has to end."""

    starts: Mapping[str, datetime] = field(default_factory=dict)
    finishes: Mapping[str, datetime] = field(default_factory=dict)
    end: datetime | None = None


class Passes:
    """The early and late dates of tasks that take given times."""

    def __init__(
        self,
        plan: Calendar,
        logic: Logic,
        tasks: Iterable[Lasting],
        actual: Actual = Actual(),
        latest: LatestMoments = LatestMoments(),
    ) -> None:
        """Takes the plan's calendar, and the tasks with what is left of each.

        `latest` bounds late dates alone.

        Raises `InputError` if they are linked in a circle, or end after the year 9999.
        """
        self._plan = plan
        self._logic = logic
        self._tasks = {task.code: task for task in tasks}
        self._actual = actual
        self._latest = latest
        self._ties_to = _by(logic.ties, lambda tie: tie.task)
        links = [tie for tie in logic.ties if tie.day is None]
        self._ties_from = _by(links, lambda tie: tie.before)
        self._order = self._in_order()
        self.early: dict[str, Moments] = {}
        """The early dates of each task."""
        for code in self._order:
            done = actual.finished.get(code)
            self.early[code] = self._early(self._tasks[code]) if done is None else done
        self.end = max((moments.finish for moments in self.early.values()), default=logic.begin)
        """The moment at which all tasks are done."""
        self._late: dict[str, datetime] = {}
        for code in reversed(self._order):
            self._late[code] = self._late_start(self._tasks[code])

    def as_late(self, codes: Collection[str]) -> dict[str, Moments]:
        """Returns the early dates, in which these tasks wait as long as they delay no other."""
        held = dict(self.early)
        for code in reversed(self._order):
            if code in codes:
                start = max(held[code].start, self._late_start(self._tasks[code], held))
                held[code] = self._from(self._tasks[code], start)
        return held

    def minutes(self, code: str) -> int:
        """Returns how many working minutes of its own calendar a task takes."""
        return self._tasks[code].minutes

    def late(self, code: str) -> Moments:
        """Returns the late dates of a task."""
        return self._from(self._tasks[code], self._late[code])

    def _from(self, task: Lasting, start: datetime) -> Moments:
        """Returns when a task is done that begins at a moment."""
        if not task.minutes:
            return Moments(start, start)
        calendar = self._calendar(task.calendar)
        return Moments(start, calendar.end_of(start, task.minutes))

    def total_float(self, code: str) -> int:
        """Returns by how many working minutes of its own calendar a task may start later."""
        calendar = self._calendar(self._tasks[code].calendar)
        return calendar.between(self.early[code].start, self._late[code])

    def lag_minutes(self, tie: LogicTie) -> int:
        """Returns the working minutes of the plan's calendar that a task waits for a tie.

        They are counted from the end before it, or from the first moment of the plan for a day.
        """
        reached = self._reached(tie)
        since = self._plan.morning(self._logic.begin.date()) if tie.day else self._source(tie)
        return self._plan.between(since, reached)

    def recount(self) -> Recount:
        """Returns when tasks begin, and what ties wait, so that a deck can count these dates."""
        done, begun = self._actual.finished, self._actual.begun
        starts = {code: each.start for code, each in self.early.items() if code not in done}
        first = self._plan.morning(self._logic.begin.date())
        firsts = {}
        for code in begun:
            calendar = self._calendar(self._tasks[code].calendar)
            firsts[code] = self._plan.between(first, calendar.add(self._logic.begin, 0))
            starts[code] = max(starts[code], calendar.add(self._logic.begin, 0))
        return Recount(starts, tuple(map(self._wait, self._logic.ties)), firsts)

    def _wait(self, tie: LogicTie) -> TieWait | None:
        """Returns how long a tie waits in working minutes of the plan's calendar."""
        done, begun = self._actual.finished, self._actual.begun
        if tie.task in done:
            return None
        has_happened = tie.before in done or (tie.is_from_start and tie.before in begun)
        if tie.day is None and not has_happened:
            return TieWait(self.lag_minutes(tie))
        first = self._plan.morning(self._logic.begin.date())
        return TieWait(self._plan.between(first, self._reached(tie)), since_start=True)

    def _in_order(self) -> list[str]:
        """Returns the codes of the tasks, each after those that it waits for."""
        sorter: TopologicalSorter[str] = TopologicalSorter()
        for code in self._tasks:
            ties = self._ties_to.get(code, ())
            sorter.add(code, *(tie.before for tie in ties if tie.day is None))
        try:
            return list(sorter.static_order())
        except CycleError as error:
            names = ", ".join(error.args[1][:-1])
            raise InputError(f"these tasks are linked in a circle: {names}") from None

    def _calendar(self, name: str) -> Calendar:
        return self._logic.by_name[name] if name else self._plan

    def _early(self, task: Lasting) -> Moments:
        """Returns the early dates of a task after those that it waits for."""
        starts = [self._logic.begin]
        finishes: list[datetime] = []
        for tie in self._ties_to.get(task.code, ()):
            (starts if tie.is_to_start else finishes).append(self._bound(tie))
        if not task.minutes:
            moment = max(starts + finishes)
            return Moments(moment, moment)
        calendar = self._calendar(task.calendar)
        begin = calendar.position(max(starts))
        if not finishes:
            return Moments(calendar.at(begin), calendar.end_at(begin + task.minutes))
        least = max(finishes)
        begin = max(begin, calendar.position(least) - task.minutes)
        finish = _end_after(calendar, begin + task.minutes, least)
        return Moments(calendar.at(begin), finish)

    def _source(self, tie: LogicTie) -> datetime:
        """Returns the early moment of the end that a tie waits for."""
        moments = self.early[tie.before]
        if not tie.is_from_start:
            return moments.finish
        return self._actual.begun.get(tie.before, moments.start)

    def _bound(self, tie: LogicTie) -> datetime:
        """Returns the moment from which a tie lets the end of its task be."""
        if tie.day is not None:
            calendar = self._calendar(self._tasks[tie.task].calendar)
            return calendar.morning(tie.day) if tie.is_to_start else calendar.evening(tie.day)
        source = self._source(tie)
        if not tie.lag:
            return source
        calendar = self._calendar(tie.calendar)
        position = calendar.position(source) + tie.lag
        return calendar.end_at(position) if _ends_on_evening(tie) else calendar.at(position)

    def _reached(self, tie: LogicTie) -> datetime:
        """Returns the first moment at which the tie alone lets the end of its task be."""
        bound = max(self._bound(tie), self._logic.begin)
        task = self._tasks[tie.task]
        calendar = self._calendar(task.calendar)
        if not task.minutes:
            return bound
        if tie.is_to_start:
            return calendar.add(bound, 0)
        return _end_after(calendar, calendar.position(bound), bound)

    def _late_start(self, task: Lasting, held: Mapping[str, Moments] | None = None) -> datetime:
        """Returns the latest moment at which a task may start; a done one cannot be later.

        `held` are the dates that others keep; without it they keep their late dates.
        """
        if task.code in self._actual.finished:
            return self._actual.finished[task.code].start
        bounds, code = self._latest, task.code
        starts = [bounds.starts[code]] if code in bounds.starts else []
        finishes = [self.end if bounds.end is None else min(self.end, bounds.end)]
        finishes += [bounds.finishes[code]] if code in bounds.finishes else []
        for tie in self._ties_from.get(task.code, ()):
            if tie.is_from_start and task.code not in self._actual.begun:
                starts.append(self._latest_source(tie, held))
            elif not tie.is_from_start:
                finishes.append(self._latest_source(tie, held))
        if not task.minutes:
            return min(starts + finishes)
        calendar = self._calendar(task.calendar)
        latest = calendar.position(min(finishes)) - task.minutes
        if starts:
            latest = min(latest, _last_start(calendar, min(starts)))
        return calendar.at(latest)

    def _latest_source(self, tie: LogicTie, held: Mapping[str, Moments] | None) -> datetime:
        """Returns the latest moment of the end before a tie that keeps the dates after it."""
        moments = self.late(tie.task) if held is None else held[tie.task]
        latest = moments.start if tie.is_to_start else moments.finish
        if not tie.lag:
            return latest
        calendar = self._calendar(tie.calendar)
        if _ends_on_evening(tie):
            return calendar.at(calendar.position(latest) - tie.lag)
        return calendar.at(_last_start(calendar, latest) - tie.lag)


def _by(ties: Iterable[LogicTie], code: Callable[[LogicTie], str]) -> dict[str, list[LogicTie]]:
    """Returns ties by the code of one of their tasks."""
    found: dict[str, list[LogicTie]] = {}
    for tie in ties:
        found.setdefault(code(tie), []).append(tie)
    return found


def _ends_on_evening(tie: LogicTie) -> bool:
    """Says whether the moment of a tie is an evening, not the morning after it.

    It is one after a lag, and where a task has to have ended.
    """
    return tie.lag > 0 or not tie.is_to_start


def _end_after(calendar: Calendar, position: int, least: datetime) -> datetime:
    """Returns the first moment with a position that is not before `least`.

    That is an evening, or the next morning if `least` is in the free time between them.
    """
    evening = calendar.end_at(position)
    return evening if evening >= least else calendar.at(position)


def _last_start(calendar: Calendar, latest: datetime) -> int:
    """Returns the position of the last minute of work that begins by a moment."""
    position = calendar.position(latest)
    return position if calendar.at(position) <= latest else position - 1


def spans(plan: Calendar, logic: Logic, tasks: Iterable[Lasting]) -> Spans:
    """Returns when tasks begin that take their normal durations, and what each tie waits."""
    passes = Passes(plan, logic, tasks)
    starts = {code: moments.start for code, moments in passes.early.items()}
    return Spans(starts, tuple(passes.lag_minutes(tie) for tie in logic.ties))


def spans_of_rest(rest: Remaining, planned: Spans) -> Spans:
    """Returns when tasks begin in what is left at normal durations, and what each tie waits.

    What has begun, and ties to what has happened or to a day, are as `planned`.
    """
    side = rest.side
    assert side.logic is not None
    passes = passes_at(side, {card.code: card.normal for card in rest.deck.work})
    actual = actual_of(side)
    happened = {*actual.finished, *actual.begun}
    starts = {code: each.start for code, each in passes.early.items() if code not in happened}
    lags = []
    for tie, minutes in zip(side.logic.ties, planned.lags, strict=True):
        is_planned = tie.day is not None or tie.task in happened or tie.before in happened
        lags.append(minutes if is_planned else passes.lag_minutes(tie))
    return Spans({**planned.starts, **starts}, tuple(lags))


def from_mornings(starts: Mapping[str, datetime], side: SideFile) -> dict[str, datetime]:
    """Returns the first moments of work of the days on which tasks begin, by code."""
    calendars = {task.code: side.calendar_of(task) for task in side.tasks}
    return {
        code: calendars.get(code, side.calendar).morning(start.date())
        for code, start in starts.items()
    }


def passes_at(side: SideFile, durations: Mapping[str, int], end: datetime | None = None) -> Passes:
    """Returns the dates of the tasks of a deck whose cards last so many units, by code.

    `side` is the side file of a plan with a logic, `end` the moment by which it has to end. What
    ended before its first day has its actual dates. Errors are those of `Passes`.
    """
    assert side.logic is not None
    lasting, actual = lasting_at(side, durations), actual_of(side)
    return Passes(side.calendar, side.logic, lasting, actual, latest_moments(side, end))


def latest_moments(side: SideFile, end: datetime | None) -> LatestMoments:
    """Returns the latest moments of the tasks of a side file, and that of the project's end."""
    starts, finishes = {}, {}
    for task in side.tasks:
        latest = latest_of(side, task)
        if latest.start is not None:
            starts[task.code] = latest.start
        if latest.finish is not None:
            finishes[task.code] = latest.finish
    return LatestMoments(starts, finishes, end)


def lasting_at(side: SideFile, durations: Mapping[str, int]) -> list[Lasting]:
    """Returns how long each task of a deck takes if its cards last so many units, by code.

    The ends of groups, which are no tasks of the side file, take no time.
    """
    assert side.logic is not None
    found = {tie.task: Lasting(tie.task, 0) for tie in side.logic.ties}
    for task in side.tasks:
        units = sum(durations[part] for part in task.parts)
        found[task.code] = _lasting(side, task, units * side.unit_minutes)
    return list(found.values())


def _lasting(side: SideFile, task: SideTask, minutes: int) -> Lasting:
    """Returns how long a task takes that lasts so many minutes of the plan's calendar."""
    own = side.own_time(task)
    if own is None or task.own is None:
        return Lasting(task.code, minutes)
    return Lasting(task.code, min(task.minutes, own.minutes_in(minutes)), task.own.calendar)


def actual_of(side: SideFile) -> Actual:
    """Returns what had happened before the first day of a side file."""
    finished: dict[str, Moments] = {}
    begun: dict[str, datetime] = {}
    for task in side.tasks:
        calendar = side.calendar_of(task)
        start, finish = task.actual_start, task.actual_finish
        if finish is not None and finish < side.start:
            ended = calendar.evening(finish)
            first = calendar.morning(start or finish)
            finished[task.code] = Moments(min(first, ended), ended)
        elif start is not None and start < side.start:
            begun[task.code] = calendar.morning(start)
    return Actual(finished, begun)
