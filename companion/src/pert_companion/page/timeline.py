"""The schedule as rows: bars over thin baseline bars, with what is done, late or next."""

from collections.abc import Iterator
from dataclasses import dataclass, replace
from datetime import date, timedelta
from fractions import Fraction

from pert_companion.analysis.own_baseline import own_baseline
from pert_companion.analysis.schedule import ScheduledTask
from pert_companion.model.errors import InputError
from pert_companion.model.moments import last_day_before
from pert_companion.page import charts
from pert_companion.page.gathering import Gathered
from pert_companion.page.view import Bar, Line, TaskRow, Tick, plain, title
from pert_companion.page.words import Words, day_text, plural, shown
from pert_companion.state.remaining import State

MOST_ROWS = 60
"""Tasks above which those that are not urgent are shown only if all are."""
SOON_DAYS = 30
AXIS = (130, 200, 210)
"""The least pixels of the bars on a telephone, in windows below 720 pixels, and in others."""


@dataclass(frozen=True)
class Progress:
    """How far a real task is: its state and its actual dates, both of them days of work."""

    state: State
    start: date | None = None
    finish: date | None = None


@dataclass(frozen=True)
class Timeline:
    """The schedule of the page."""

    rows: tuple[TaskRow, ...]
    others: int
    """Tasks that are shown only if all are: those that are neither critical nor late nor near."""
    ticks: tuple[Tick, ...]
    today: Tick | None
    contract: Tick | None
    first: date
    days: int
    has_baseline: bool


def timeline(gathered: Gathered, words: Words) -> Timeline:
    """Returns the schedule at the length that is chosen at first."""
    return _Builder(gathered, words).timeline()


def progress_of(gathered: Gathered) -> dict[str, Progress]:
    """Returns how far each real task is, by code."""
    deck, side = gathered.state.deck, gathered.state.side
    dates = {(card.activity, card.letter): card.day for card in deck.statuses}
    found = {}
    for task in side.tasks:
        states = {gathered.progress.get(part, State.WAITING) for part in task.parts}
        state = states.pop() if len(states) == 1 else State.BEGUN
        start = task.actual_start or dates.get((task.parts[0], "S"))
        finish = None
        if state is State.FINISHED:
            finish = task.actual_finish or _evening(gathered, dates.get((task.parts[-1], "F")))
        found[task.code] = Progress(state, start if state is not State.WAITING else None, finish)
    return found


def _evening(gathered: Gathered, day: date | None) -> date | None:
    """Returns the last day of work before the morning of a day."""
    if day is None:
        return None
    try:
        return last_day_before(gathered.state.side.calendar, day)
    except InputError:
        return day


def group_row(name: str, level: int, is_other: bool) -> TaskRow:
    """Returns the heading of a group of tasks."""
    line = title(shown(name))
    return TaskRow("", line, level, "group", "", "", "", (), is_other=is_other)


class _Builder:
    """Makes the rows of one schedule."""

    def __init__(self, gathered: Gathered, words: Words) -> None:
        self.gathered = gathered
        self.words = words
        self.side = gathered.state.rest.side
        self.places = {task.code: place for place, task in enumerate(self.side.tasks)}
        self.progress = progress_of(gathered)
        self.as_of = gathered.state.as_of
        self.data_day = day_text(gathered.state.data_day)
        self.has_status = gathered.state.has_begun
        own = own_baseline(gathered.state.side)
        self.moments = {task.code for task in gathered.state.side.tasks if own and not task.normal}
        self.ends = {task.code: task.last_day for task in gathered.today}
        self.first, self.days = self.span()

    def span(self) -> tuple[date, int]:
        """Returns the first day of the drawing and the number of its days."""
        gathered = self.gathered
        days = [gathered.state.deck.project.start_date, self.as_of]
        days.extend(task.first_day for task in gathered.planned.values())
        days.extend(p.start for p in self.progress.values() if p.start is not None)
        ends = [task.last_day for task in gathered.planned.values()]
        ends.append(gathered.state.rest.end or self.as_of)
        if gathered.contract is not None:
            ends.append(gathered.contract.day)
        ends.extend(p.finish for p in self.progress.values() if p.finish is not None)
        first = min(days)
        return first, max((max(ends) - first).days + 1, 1)

    def timeline(self) -> Timeline:
        """Returns the rows, the axis and what else the drawing has."""
        tasks = self.gathered.schedule.tasks
        rows = {task.code: self.row(task) for task in tasks}
        others: set[str] = set()
        if len(tasks) > MOST_ROWS:
            others = {task.code for task in tasks if not self.is_urgent(task, rows[task.code])}
        labels = [
            (Fraction(offset, self.days), label)
            for offset, label, _ in charts.date_ticks(self.first, self.days)
            if offset < self.days
        ]
        contract = self.gathered.contract
        return Timeline(
            tuple(self.with_groups(tasks, rows, others)),
            len(others),
            charts.in_a_row(labels, AXIS),
            self.line(self.as_of, self.data_day) if self.has_status else None,
            None if contract is None else self.line(contract.day, day_text(contract.day), 1),
            self.first,
            self.days,
            self.has_status or self.gathered.has_baseline,
        )

    def line(self, day: date, label: str, after: int = 0) -> Tick:
        """Returns the place of a line at the morning of a day, or its evening."""
        days = (day - self.first).days + after
        side = "middle"
        if days * 4 < self.days:
            side = "start"
        elif days * 4 > 3 * self.days:
            side = "end"
        return Tick(self.at(days), label, side)

    def at(self, days: int) -> str:
        """Returns the place of a day in the drawing."""
        return charts.percent(days, self.days)

    def is_urgent(self, task: ScheduledTask, row: TaskRow) -> bool:
        """Says whether a task is critical, late, or at work in the next 30 days."""
        if self.progress[task.code].state is State.FINISHED:
            return False
        soon = self.as_of + timedelta(days=SOON_DAYS)
        is_next = task.first_day <= soon and task.last_day >= self.as_of
        return task.is_critical or bool(row.flag) or (self.has_status and is_next)

    def with_groups(
        self, tasks: tuple[ScheduledTask, ...], rows: dict[str, TaskRow], others: set[str]
    ) -> Iterator[TaskRow]:
        """Yields the rows with a heading before each group of tasks."""
        urgent = {
            task.outline[:level]
            for task in tasks
            for level in range(1, len(task.outline) + 1)
            if task.code not in others
        }
        before: tuple[str, ...] = ()
        for task in tasks:
            for level, name in enumerate(task.outline):
                group = task.outline[: level + 1]
                if before[: level + 1] != group:
                    yield group_row(name, level, group not in urgent)
            before = task.outline
            yield replace(rows[task.code], is_other=task.code in others)

    def row(self, task: ScheduledTask) -> TaskRow:
        """Returns the row of a task."""
        progress = self.progress[task.code]
        is_finished = progress.state is State.FINISHED
        start = progress.start or task.first_day
        finish = progress.finish if is_finished else task.last_day
        slack = "" if is_finished else self.slack_text(task)
        is_critical = task.is_critical and not is_finished
        return TaskRow(
            f"t{self.places[task.code]}",
            title(shown(task.name or task.code)),
            len(task.outline),
            progress.state.value if self.has_status else "",
            day_text(start),
            day_text(finish),
            slack,
            self.duration(task, is_finished),
            self.bars(task, progress, is_critical),
            is_critical,
            self.is_milestone(task.code),
            self.flag(task, progress),
        )

    def is_milestone(self, code: str) -> bool:
        """Says whether the plan gives a task no duration."""
        planned = self.gathered.planned.get(code)
        return code in self.moments if planned is None else planned.is_milestone

    def duration(self, task: ScheduledTask, is_finished: bool) -> Line:
        """Returns what is left to do of a task in this schedule, in days."""
        units = task.chosen_minutes // self.side.unit_minutes
        return plain("" if is_finished else self.words.days(units))

    def slack_text(self, task: ScheduledTask) -> str:
        """Returns the total float in days."""
        return self.words.days(task.total_float_minutes // self.side.unit_minutes)

    def flag(self, task: ScheduledTask, progress: Progress) -> str:
        """Returns what is late about a task that is not finished."""
        planned = self.gathered.planned.get(task.code)
        if planned is None or progress.state is State.FINISHED:
            return ""
        is_waiting = progress.state is State.WAITING
        if self.has_status and is_waiting and planned.first_day < self.as_of:
            return f"should have begun {day_text(planned.first_day)}"
        if self.has_status and planned.last_day < self.as_of:
            return f"should have finished {day_text(planned.last_day)}"
        return self.behind(planned.last_day, task.code)

    def behind(self, planned: date, code: str) -> str:
        """Returns by how many working days today's plan ends a task after its baseline."""
        days = self.side.calendar.count_days(planned, self.ends[code])
        if days <= 0 or not self.gathered.has_baseline:
            return ""
        return f"{plural(days, 'working day')} behind its baseline"

    def bars(self, task: ScheduledTask, progress: Progress, is_critical: bool) -> tuple[Bar, ...]:
        """Returns the bars of a task: baseline, work done, what is left, and its slack."""
        bars = []
        planned = self.gathered.planned.get(task.code)
        if planned is not None and (self.has_status or self.gathered.has_baseline):
            bars.append(self.bar("baseline", planned.first_day, planned.last_day))
        if progress.state is State.FINISHED:
            bars.append(self.bar("done", progress.start, progress.finish))
            return tuple(bars)
        if progress.start is not None:
            bars.append(self.bar("done", progress.start, self.as_of - timedelta(days=1)))
        kind = "bar critical" if is_critical else "bar"
        if self.is_milestone(task.code):
            kind = "milestone critical" if is_critical else "milestone"
        bars.append(self.bar(kind, task.first_day, task.last_day))
        return tuple(bars)

    def bar(self, name: str, first: date | None, last: date | None) -> Bar:
        """Returns a bar from the morning of a day to the evening of another one."""
        if first is None or last is None:
            return Bar(name, "0%", "0%")
        begin = (first - self.first).days
        width = max(0, (last - first).days + 1)
        if name.startswith("milestone"):
            return Bar(name, self.at((last - self.first).days + 1), "0%")
        return Bar(name, self.at(begin), self.at(width))
