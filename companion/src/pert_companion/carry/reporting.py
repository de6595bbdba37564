"""Takes a list of progress into a deck and its side file, as an import of the same plan would.

A row says all that is known of its task; what it leaves out but a start is as the state had it.
Tasks without a row stay as they are. Parts, moments and waits of a deck of tasks follow the tasks.
"""

import math
from collections.abc import Iterable, Iterator
from dataclasses import dataclass, field, replace
from datetime import date, timedelta
from fractions import Fraction
from graphlib import TopologicalSorter

from pert_companion.carry.progress import Times, morning_after
from pert_companion.model.bookings import BookingKind, Finding
from pert_companion.model.cards import StatusCard
from pert_companion.model.deck import Deck
from pert_companion.model.progress import Reported
from pert_companion.model.sidefile import SideFile, SideTask


@dataclass(frozen=True)
class Progressed:
    """A deck and its side file with the progress of a list."""

    deck: Deck
    side: SideFile
    findings: tuple[Finding, ...]
    silent: tuple[SideTask, ...]
    """The begun and unfinished tasks that the list does not name."""


def with_progress(
    deck: Deck, side: SideFile, reported: Iterable[Reported], has_side_file: bool
) -> Progressed:
    """Returns the deck at its as-of date with the progress of a list.

    A deck without a side file keeps starts and finishes alone: a percent or a remaining duration
    of an unfinished task is a finding there.
    """
    maker = _Maker(deck, side, has_side_file)
    named = {row.task: row for row in reported}
    tasks = [maker.take(task, named.get(task.code) or named.get(task.uid)) for task in side.tasks]
    known = {task.code for task in side.tasks}
    known.update(task.uid for task in side.tasks)
    for row in named.values():
        if row.task not in known:
            why = f"the deck has no task {row.task[:40]!r}; left out"
            maker.findings.append(Finding(BookingKind.TASK, row.place, why))
    maker.follow()
    silent = [
        task
        for task in side.tasks
        if not {task.code, task.uid} & set(named) and maker.is_under_way(task)
    ]
    deck = replace(deck, statuses=tuple(maker.cards()))
    side = replace(side, tasks=tuple(tasks))
    return Progressed(deck, side, tuple(maker.findings), tuple(silent))


@dataclass
class _Maker:
    """The starts and ends of a deck's cards, as mornings."""

    deck: Deck
    side: SideFile
    has_side_file: bool
    findings: list[Finding] = field(default_factory=list)

    def __post_init__(self) -> None:
        letters: dict[str, dict[str, date]] = {"S": {}, "F": {}}
        for card in self.deck.statuses:
            letters[card.letter][card.activity] = card.day
        self.starts, self.ends = letters["S"], letters["F"]
        self.normal = {card.code: card.normal for card in self.deck.work}
        self.before: dict[str, list[str]] = {code: [] for code in self.normal}
        self.after: dict[str, list[str]] = {code: [] for code in self.normal}
        for link in self.deck.afters:
            self.before[link.task].append(link.before)
            self.after[link.before].append(link.task)
        close = self.deck.as_of_day - timedelta(days=1)
        self.milestones: dict[str, tuple[SideTask, date]] = {}
        self.owner: dict[str, SideTask] = {}
        self.first_part: dict[str, str] = {}
        for task in self.side.tasks:
            self.owner.update(dict.fromkeys(task.parts, task))
            self.first_part.update(dict.fromkeys(task.cards(), task.parts[0]))
        self.waits = {code for code in self.side.waits if self.normal[code]}
        self.group_ends = set(self.side.waits) - self.waits
        self.times = Times(
            self.side.calendar,
            self.deck.project.start_date,
            close,
            self.side.unit_minutes,
        )

    def is_under_way(self, task: SideTask) -> bool:
        """Says whether a task has begun and is not finished."""
        return task.parts[0] in self.starts and task.parts[-1] not in self.ends

    def take(self, task: SideTask, row: Reported | None) -> SideTask:
        """Sets the cards of a task by its row, returns its entry; a wrong row changes nothing."""
        if row is None:
            return task
        wrong = self._fault(task, row)
        if wrong:
            self.findings.append(Finding(BookingKind.PROGRESS, row.place, f"{task.code}: {wrong}"))
            return task
        start = self._start(task, row)
        self._forget(task)
        if start is None:
            return replace(task, percent=row.percent, remaining=None, actual_start=None)
        entry = replace(
            task,
            percent=row.percent,
            remaining=_minutes_left(task, row),
            actual_start=start,
            actual_finish=row.finish,
        )
        self._set(entry, start, row.finish)
        return entry

    def _fault(self, task: SideTask, row: Reported) -> str:
        """Returns why a row makes no sense, or an empty text."""
        first, last = self.times.start, self.times.data_date
        start = self._start(task, row)
        has_begun = bool(row.percent) or row.finish is not None
        if row.percent == 100 and row.finish is None:
            return "100 % without the day on which it finished"
        if row.finish is not None and row.percent not in (None, 100):
            return f"finished on {row.finish} and {row.percent:f} % complete"
        if has_begun and start is None:
            return "no day on which it started"
        for what, day in (("start", row.start), ("finish", row.finish)):
            if day is not None and not first <= day <= last:
                return f"its {what}, {day}, is not between {first} and the data date, {last}"
        if row.finish is not None and start is not None and row.finish < start:
            return f"it finished on {row.finish}, before it started on {start}"
        is_open = row.finish is None and start is not None
        if is_open and not self.has_side_file and (row.percent or row.remaining is not None):
            return "only a side file keeps percent and remaining durations (pert-days --calendar)"
        return ""

    def _start(self, task: SideTask, row: Reported) -> date | None:
        """Returns the day on which a task started: a milestone starts when it finishes."""
        own = row.finish if task.normal == 0 else None
        return row.start or task.actual_start or self.starts.get(task.parts[0]) or own

    def _forget(self, task: SideTask) -> None:
        for code in task.cards():
            self.starts.pop(code, None)
            self.ends.pop(code, None)

    def _set(self, task: SideTask, start: date, finish: date | None) -> None:
        """Sets the cards of a task that has begun: its parts and the moments at its ends."""
        if task.normal == 0 and finish is not None:
            self.milestones[task.parts[0]] = task, finish
            return
        self._set_cards(task, start, None if finish is None else morning_after(finish))

    def _set_cards(self, task: SideTask, start: date, finished: date | None) -> None:
        if task.start_moment is not None:
            self.starts[task.start_moment] = self.ends[task.start_moment] = start
        if task.finish_moment is not None and finished is not None:
            self.starts[task.finish_moment] = self.ends[task.finish_moment] = finished
        began: date | None = start
        for part, ended in zip(task.parts, self._part_ends(task, start, finished)):
            if began is None:
                break
            self.starts[part] = began
            if ended is not None:
                self.ends[part] = ended
            began = ended

    def _milestone_day(self, task: SideTask, day: date) -> date:
        """Returns the morning of a milestone: its own if all before it was done, else the next."""
        if all(end is not None and end <= day for end in self._ends_before(task.parts[0])):
            return day
        return morning_after(day)

    def _ends_before(self, code: str) -> Iterator[date | None]:
        """Yields when the tasks and moments before a card were done, through waits."""
        for before in self.before[code]:
            if before in self.waits:
                yield from self._ends_before(before)
            elif before in self.owner:
                yield self.ends.get(self.owner[before].parts[-1])
            else:
                yield self.ends.get(before)

    def _part_ends(self, task: SideTask, start: date, finished: date | None) -> list[date | None]:
        """Returns the mornings by which the parts of a task were done, as far as they are."""
        total = sum(self.normal[part] for part in task.parts)
        left = 0
        if finished is None and task.remaining is not None:
            left = min(total, -(-task.remaining // self.side.unit_minutes))
        done, so_far = total - left, 0
        found: list[date | None] = []
        for part in task.parts:
            so_far += self.normal[part]
            if finished is not None:
                found.append(self._back(finished, total - so_far, start))
            elif so_far <= done and so_far < total:
                found.append(self._back(self.times.as_of, done - so_far, start))
            else:
                found.append(None)
        return found

    def _back(self, day: date, units: int, start: date) -> date:
        """Returns the morning so many units before a morning, not before the task started."""
        if units == 0:
            return max(day, start)
        return min(day, max(self.times.later(day, -units), start))

    def follow(self) -> None:
        """Sets milestones, the ends of groups, and then the waits, which those end that follow."""
        order = tuple(TopologicalSorter(self.before).static_order())
        for code in order:
            if code in self.milestones:
                task, finish = self.milestones[code]
                day = self._milestone_day(task, finish)
                self._set_cards(task, day, day)
            elif code in self.group_ends:
                self._set_group_end(code)
        for code in order:
            if code in self.waits:
                self._set_wait(code)

    def _set_group_end(self, code: str) -> None:
        """Sets the end of a group, which is reached when all its ends are."""
        ends = list(self._ends_before(code))
        days = [end for end in ends if end is not None]
        for letter in (self.starts, self.ends):
            letter.pop(code, None)
            if days and len(days) == len(ends):
                letter[code] = max(days)

    def _set_wait(self, code: str) -> None:
        """Sets a wait: it began with what it comes after, and ended before what follows began."""
        self.starts.pop(code, None)
        self.ends.pop(code, None)
        ends = [self.ends.get(before) for before in self.before[code]]
        days = [end for end in ends if end is not None]
        began = max(days, default=self.times.start)
        if len(days) < len(ends) or began > self.times.as_of:
            return
        ended = self.times.later(began, self.normal[code])
        for follower in self.after[code]:
            started = self.starts.get(self.first_part.get(follower, follower))
            if started is not None and began <= started < ended:
                ended = started
        self.starts[code] = began
        if ended <= self.times.as_of:
            self.ends[code] = ended

    def cards(self) -> Iterable[StatusCard]:
        """Yields the STATUS cards in the order of the work cards."""
        for card in self.deck.work:
            if card.code in self.starts:
                yield StatusCard(card.code, "S", self.starts[card.code])
            if card.code in self.ends:
                yield StatusCard(card.code, "F", self.ends[card.code])


def _minutes_left(task: SideTask, row: Reported) -> int:
    """Returns the remaining duration of a begun task in working minutes, rounded up."""
    if row.finish is not None:
        return 0
    if row.remaining is not None:
        return row.remaining
    return math.ceil(task.minutes * (100 - Fraction(row.percent or 0)) / 100)


def as_of_close(deck: Deck, side: SideFile, close: date) -> tuple[Deck, SideFile]:
    """Returns the deck and its side file at another close of business."""
    return replace(deck, as_of=morning_after(close)), replace(side, data_date=close)
