"""Turns progress into STATUS cards: of tasks, of their parts, and of moments and waits.

The one rule on days: a planner's data date and finishes are evenings, a deck's dates are mornings.
So the ASOF card has the day after the data date, and a finish on a Friday has the STATUS date of
the Saturday, whose morning comes before any work of the Monday. A start has its own day.

A task in parts has done its first parts first. The parts that are done ended so long before the
data date as work has been done since, so that what remains is what the source says.
"""

import math
from collections.abc import Mapping, Sequence
from dataclasses import dataclass, replace
from datetime import date, timedelta
from decimal import Decimal
from fractions import Fraction

from pert_companion.carry.model import End, Node, Tie
from pert_companion.carry.money import done_percent
from pert_companion.carry.network import Network, Part, Wait
from pert_companion.model.calendar import Calendar
from pert_companion.model.cards import StatusCard
from pert_companion.model.losses import Loss, LossKind
from pert_companion.model.moments import midnight
from pert_companion.model.plan import Task

ONE_DAY = timedelta(days=1)


def morning_after(day: date) -> date:
    """Returns the deck's date for the evening of a day: the day after it."""
    return day + ONE_DAY


@dataclass(frozen=True)
class Done:
    """What is done of a task: the deck's dates of its start and finish, and remaining minutes."""

    started: date | None = None
    finished: date | None = None
    remaining: int | None = None


@dataclass(frozen=True)
class Times:
    """The project's start and data date, and its calendar."""

    calendar: Calendar
    start: date
    data_date: date
    unit_minutes: int

    @property
    def as_of(self) -> date:
        """Returns the day of the ASOF card."""
        return morning_after(self.data_date)

    def later(self, day: date, units: int) -> date:
        """Returns the morning so many units of work after a morning, or before it if negative.

        Within a day it is the next morning. It is the project's start at the earliest.
        """
        position = self.calendar.position(midnight(day)) + units * self.unit_minutes
        if position <= self.calendar.position(midnight(self.start)):
            return self.start
        return morning_after(self.calendar.end_at(position).date())


def has_progress(task: Task) -> bool:
    """Says whether the source says of any work done."""
    progress = task.progress
    dated = progress.actual_start or progress.actual_finish
    return dated is not None or bool(progress.percent) or bool(progress.actual_cost)


class Statuses:
    """The STATUS cards of a plan."""

    def __init__(self, times: Times, network: Network) -> None:
        """Takes the network of cards, which is complete."""
        self.losses: list[Loss] = []
        self.done: dict[Node, Done] = {}
        self._times = times
        self._network = network
        self._cards: dict[str, list[StatusCard]] = {}

    def build(self, order: Sequence[Node], followers: Mapping[str, Sequence[Node]]) -> None:
        """Finds the progress of nodes, which are in the order of their ties, and makes its cards.

        `followers` has the nodes that come after each wait, by its code.
        """
        for node in order:
            self.done[node] = self._done(node)
        for node in order:
            self._add_node(node, self.done[node])
        for wait in self._network.waits.values():
            self._add_wait(wait, followers.get(wait.code, ()))

    def cards(self) -> tuple[StatusCard, ...]:
        """Returns the STATUS cards in the order of the TASK cards."""
        found: list[StatusCard] = []
        for task in self._network.tasks():
            found.extend(self._cards.get(task.code, []))
        return tuple(found)

    def off_pace(self) -> list[tuple[Task, int]]:
        """Returns the begun tasks whose remaining duration is not what is left of their normal one.

        Each is with its remaining minutes. A deck cannot say that of a task in one piece: `pert`
        takes it to end one normal duration after its start, or at the as-of date if that is later.
        """
        calendar, as_of = self._times.calendar, self._times.as_of
        found = []
        for node, done in self.done.items():
            if node.task is None or done.started is None or done.finished is not None:
                continue
            passed = calendar.between(midnight(done.started), midnight(as_of))
            left = max(0, node.minutes - passed)
            if done.remaining is not None and done.remaining != left:
                found.append((node.task, done.remaining))
        return found

    def _done(self, node: Node) -> Done:
        task = node.task
        if task is None:
            return self._group_end(node)
        started, finished = self._dates(task)
        if node.is_milestone and finished is not None:
            finished = self._moment(node, finished)
            return Done(finished, finished, 0)
        remaining = self._minutes_left(node, task)
        return Done(
            started,
            None if finished is None else morning_after(finished),
            0 if finished is not None else remaining,
        )

    def _minutes_left(self, node: Node, task: Task) -> int:
        """Returns the plan's working minutes from the data date in which what is left is done."""
        minutes = remaining_minutes(task)
        if node.own is None:
            return minutes
        return replace(node.own, start=midnight(self._times.as_of)).span(minutes)

    def _group_end(self, node: Node) -> Done:
        """Returns what is done of the end of a group: it is reached when all its ends are."""
        days = [self.done[tie.before].finished for tie in node.starts if tie.before is not None]
        reached = [day for day in days if day is not None]
        if not reached or len(reached) < len(days):
            return Done()
        return Done(max(reached), max(reached), 0)

    def _moment(self, node: Node, day: date) -> date:
        """Returns the date of a milestone: its morning if all before it was done, else the next."""
        ends = [self._finish_before(tie) for tie in node.starts]
        if all(end is not None and end <= day for end in ends):
            return day
        return morning_after(day)

    def _finish_before(self, tie: Tie) -> date | None:
        if tie.before is None:
            return self._times.start
        done = self.done[tie.before]
        return done.finished if tie.end is End.FINISH else done.started

    def _dates(self, task: Task) -> tuple[date | None, date | None]:
        """Returns the days on which a task started and finished; what makes no sense is a loss."""
        percent = done_percent(task)
        progress = task.progress
        finished = progress.actual_finish
        if finished is None and percent == 100:
            finished = task.listed_finish
        started = progress.actual_start
        if started is None and (percent > 0 or finished is not None):
            started = task.listed_start
        if task.is_milestone and finished is not None:
            started = finished
        if started is None and (percent > 0 or finished is not None):
            self._lose(
                task,
                "percent",
                f"{percent:f}",
                "there is no date on which the task started",
            )
            return None, None
        if started is not None and not self._is_so_far(task, "start", started, self._times.start):
            return None, None
        if finished is None and percent == 100:
            self._lose(task, "percent", "100", "there is no date on which the task finished")
        if finished is not None and not self._is_so_far(
            task, "finish", finished, started or self._times.start
        ):
            return started, None
        return started, finished

    def _is_so_far(self, task: Task, field: str, day: date, first: date) -> bool:
        """Says whether a day is between the first day and the data date; else it is a loss."""
        if first <= day <= self._times.data_date:
            return True
        why = f"not between {first} and the evening of the data date, {self._times.data_date}"
        if day > self._times.data_date:
            why += f"; to include it, say --as-of {day}"
        self._lose(task, field, day.isoformat(), why)
        return False

    def _add_node(self, node: Node, done: Done) -> None:
        """Adds the cards of a task's parts and of the moments at its start and finish."""
        made = self._network.of[node]
        self._add(made.start_moment, done.started, done.started)
        self._add(made.finish_moment, done.finished, done.finished)
        started: date | None = done.started
        for part, finished in zip(made.parts, self._part_ends(node, made.parts, done)):
            self._add(part.code, started, finished)
            started = finished

    def _part_ends(self, node: Node, parts: Sequence[Part], done: Done) -> list[date | None]:
        """Returns the dates on which the parts of a task were finished, as far as they are."""
        if done.started is None:
            return [None] * len(parts)
        if done.finished is not None:
            ends = [self._back(done.finished, part.before_finish, done) for part in parts]
            return [*ends[:-1], done.finished]
        work = node.normal - units_left(node, done, self._times.unit_minutes)
        ends_at = [node.normal - part.before_finish for part in parts]
        found: list[date | None] = []
        for at in ends_at:
            is_done = at <= work and at < node.normal
            found.append(self._back(self._times.as_of, work - at, done) if is_done else None)
        return found

    def _back(self, day: date, units: int, done: Done) -> date:
        """Returns the morning so many units before a morning, not before the task started."""
        assert done.started is not None
        if units == 0:
            return max(day, done.started)
        return min(day, max(self._times.later(day, -units), done.started))

    def _add_wait(self, wait: Wait, followers: Sequence[Node]) -> None:
        """Adds the cards of a wait: it began with its moment, and ended before its followers."""
        node = wait.moment.node
        if node is None:
            began: date | None = self._times.start
        else:
            done = self.done[node]
            began = done.started if wait.moment.end is End.START else done.finished
        if began is None:
            return
        ended = self._times.later(began, wait.moment.lag)
        for follower in followers:
            started = self.done[follower].started
            if started is not None and began <= started < ended:
                ended = started
        self._add(wait.code, began, ended if ended <= self._times.as_of else None)

    def _add(self, code: str | None, started: date | None, finished: date | None) -> None:
        if code is None or started is None or started > self._times.as_of:
            return
        found = self._cards.setdefault(code, [])
        found.append(StatusCard(code, "S", started))
        if finished is not None:
            found.append(StatusCard(code, "F", finished))

    def _lose(self, task: Task, field: str, text: str, why: str) -> None:
        self.losses.append(Loss(LossKind.PROGRESS, task.where, task.name, field, text, why))


def remaining_minutes(task: Task) -> int:
    """Returns the remaining duration of a task in working minutes, rounded up."""
    if task.progress.actual_finish is not None:
        return 0
    if task.progress.remaining is not None:
        return task.progress.remaining
    percent: Decimal = done_percent(task)
    return math.ceil(task.minutes * (100 - Fraction(percent)) / 100)


def units_left(node: Node, done: Done, unit_minutes: int) -> int:
    """Returns the remaining duration in units, rounded up; at most the normal one."""
    if done.remaining is None:
        return node.normal
    return min(node.normal, -(-done.remaining // unit_minutes))
