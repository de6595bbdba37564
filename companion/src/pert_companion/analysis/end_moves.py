"""Divides the move of a forecast end among the real tasks that made it.

The newer state takes the place of the older one task by task, and after each the end is forecast
again: a card begins when all before it have ended, and not before its own day. The tasks are those
of the newer driving path, in the order of the work; then, as long as a task in its older state
drives the end, that one. All others together move nothing. Another order would divide the same move
otherwise.

The older tasks come first, by the older links, and one that is gone lasts nothing. Then the newer
links and waits take the place of the older ones, at once. Tasks that are new come last.
"""

from collections.abc import Iterator, Mapping, Sequence
from dataclasses import dataclass
from datetime import date
from graphlib import TopologicalSorter

from pert_companion.analysis.changes import status_days
from pert_companion.model.calendar import Calendar
from pert_companion.model.deck import Deck
from pert_companion.model.moments import midnight
from pert_companion.model.sidefile import SideTask
from pert_companion.state.matching import match_states
from pert_companion.state.project import ProjectState
from pert_companion.state.remaining import State

Links = Mapping[str, Sequence[str]]
"""The cards and events before each card or event, which come in an order of the work."""


@dataclass(frozen=True)
class EndState:
    """A state of a project, and its last day of work as forecast."""

    state: ProjectState
    end: date


@dataclass(frozen=True)
class TaskMove:
    """A task that moved the end by so many working days; an earlier end is negative."""

    old: SideTask | None
    """None for a task that is new."""
    new: SideTask | None
    """None for a task that is gone."""
    days: int


@dataclass(frozen=True)
class EndMoves:
    """The move of an end in working days of the newer calendar: the sum of what is here."""

    tasks: tuple[TaskMove, ...]
    """Those that moved the end, the greatest move first."""
    others: int
    """By links, waits and the calendar."""

    @property
    def days(self) -> int:
        """Returns by how many working days the end moved."""
        return sum(move.days for move in self.tasks) + self.others


@dataclass(frozen=True)
class Work:
    """What is left of a card: so many minutes, from a position of the calendar at the earliest."""

    ready: int
    minutes: int


NO_WORK = Work(0, 0)


class ForwardPass:
    """The early finishes of a network, of whose cards the work can be replaced."""

    def __init__(self, links: Links, works: Mapping[str, Work]) -> None:
        self._links = links
        self._works = dict(works)
        self._finishes: dict[str, int] = {}
        self._run()

    @property
    def end(self) -> int:
        """Returns the latest finish, as a position of the calendar."""
        return max(self._finishes.values(), default=0)

    def driving_path(self) -> list[str]:
        """Returns the cards that lead to the end, from the first: each the last before the next."""
        path: list[str] = []
        following: Sequence[str] = tuple(self._finishes)
        while following:
            path.append(max(following, key=self._finishes.__getitem__))
            following = self._links[path[-1]]
        return path[::-1]

    def replace(self, works: Mapping[str, Work]) -> None:
        """Takes other work for some cards."""
        self._works.update(works)
        if any(self._finish(card) != self._finishes[card] for card in works):
            self._run()

    def _run(self) -> None:
        for card in self._links:
            self._finishes[card] = self._finish(card)

    def _finish(self, card: str) -> int:
        work = self._works.get(card, NO_WORK)
        begin = work.ready
        for before in self._links[card]:  # a loop, as large plans come here a million times
            begin = max(begin, self._finishes[before])
        return begin + work.minutes


def links_of(deck: Deck) -> Links:
    """Returns the links of a deck; an event has the code that it has, after an `@`."""
    before: dict[str, list[str]] = {task.code: [] for task in deck.tasks}
    for link in deck.afters:
        before[link.task].append(link.before)
    before.update((f"@{event.code}", []) for event in deck.events)
    for card in deck.activities:
        before[card.code] = [f"@{card.begins}"]
        before[f"@{card.ends}"].append(card.code)
    return {card: before[card] for card in TopologicalSorter(before).static_order()}


def replace_along(
    links: Links, old: Mapping[str, Work], new: Mapping[str, Mapping[str, Work]]
) -> Iterator[tuple[str, int]]:
    """Yields each task that takes its newer work, with the end by then as a position.

    `new` has the newer work of the cards of each task. The last end is that of all newer work.
    """
    left: dict[str, Mapping[str, Work]] = {}
    owners: dict[str, str] = {}
    newest = dict(old)
    for task, works in new.items():
        if any(old.get(card) != work for card, work in works.items()):
            left[task] = works
            owners.update(dict.fromkeys(works, task))
            newest.update(works)
    current = ForwardPass(links, old)
    for task in _tasks_on(ForwardPass(links, newest).driving_path(), owners):
        current.replace(left.pop(task))
        yield task, current.end
    while left:
        driving = [task for task in _tasks_on(current.driving_path(), owners) if task in left]
        if not driving:
            return
        current.replace(left.pop(driving[0]))
        yield driving[0], current.end


def _tasks_on(path: Sequence[str], owners: Mapping[str, str]) -> list[str]:
    """Returns the tasks whose cards are on a path, each once."""
    return list(dict.fromkeys(owners[card] for card in path if card in owners))


class _Side:
    """One of the two states on the calendar of the newer one."""

    def __init__(self, state: ProjectState, calendar: Calendar) -> None:
        self.tasks = {task.code: task for task in state.side.tasks}
        self.links = links_of(state.remaining.deck)
        self.as_of = calendar.position(midnight(state.as_of))
        self.works = dict(self._works(state, calendar))

    def _works(self, state: ProjectState, calendar: Calendar) -> Iterator[tuple[str, Work]]:
        """Yields the work that is left of each card; a wait of no time has none."""
        finished = status_days(state.deck, "F")
        owned: set[str] = set()
        for task in self.tasks.values():
            owned.update(task.cards())
        for left in state.remaining.left:
            if left.state is State.FINISHED:
                done = calendar.position(midnight(finished[left.code]))
                yield left.code, Work(min(done, self.as_of), 0)
            elif left.code in owned or left.normal:
                yield left.code, Work(self.as_of, left.normal * state.side.unit_minutes)

    def of(self, task: SideTask) -> dict[str, Work]:
        """Returns the work of the cards of a task."""
        return {card: self.works[card] for card in task.cards()}


def end_moves(old: EndState, new: EndState) -> EndMoves:
    """Returns which tasks moved the end from one state to the next, and by how much.

    Raises `InputError` if an end between the two is not in the years 1 to 9999.
    """
    return _Division(old, new).moves()


class _Division:
    """Divides the move of an end."""

    def __init__(self, old: EndState, new: EndState) -> None:
        self.calendar = new.state.side.calendar
        self.old = _Side(old.state, self.calendar)
        self.new = _Side(new.state, self.calendar)
        self.ends = old.end, new.end
        self.day = old.end
        self.matching = match_states(old.state, new.state)
        self.nothing = Work(self.old.as_of, 0)

    def moves(self) -> EndMoves:
        """Returns the moves of the tasks that are old, then those of the tasks that are new."""
        found: list[TaskMove] = []
        partners = {old.code: new for old, new in self.matching.pairs}
        before = self.old.works
        others = self._step(ForwardPass(self.old.links, before).end)
        for code, end in replace_along(self.old.links, before, self._progress()):
            days = self._step(end)
            found.append(TaskMove(self.old.tasks[code], partners.get(code), days))
        before, coming = self._without_new()
        others += self._step(ForwardPass(self.new.links, before).end)
        for code, end in replace_along(self.new.links, before, coming):
            found.append(TaskMove(None, self.new.tasks[code], self._step(end)))
        others += self.calendar.count_days(self.day, self.ends[1])
        moved = [move for move in found if move.days]
        moved.sort(key=lambda move: -abs(move.days))
        return EndMoves(tuple(moved), others)

    def _step(self, end: int) -> int:
        """Returns the working days to the day of an end, which is the day of the end from now.

        A plan without any work ends on the older as-of date.
        """
        before = self.day
        self.day = self.calendar.end_at(end or self.old.as_of).date()
        return self.calendar.count_days(before, self.day)

    def _progress(self) -> dict[str, dict[str, Work]]:
        """Returns the newer work of the older cards of each older task."""
        found = {}
        for old, new in self.matching.pairs:
            found[old.code] = self._newer_work(old, new)
        for gone in self.matching.gone:
            found[gone.code] = dict.fromkeys(gone.cards(), self.nothing)
        return found

    def _newer_work(self, old: SideTask, new: SideTask) -> dict[str, Work]:
        """Returns the work of a newer task on the cards of the older one.

        If it is split otherwise, the last part has all of it.
        """
        found = self.old.of(old)
        works = [self.new.works[part] for part in new.parts]
        if len(old.parts) == len(new.parts):
            found.update(zip(old.parts, works))
        else:
            found.update(dict.fromkeys(old.parts, self.nothing))
            ready = max(work.ready for work in works)
            found[old.parts[-1]] = Work(ready, sum(work.minutes for work in works))
        moments = (old.start_moment, new.start_moment), (
            old.finish_moment,
            new.finish_moment,
        )
        for older, newer in moments:
            if older is not None and newer is not None:
                found[older] = self.new.works[newer]
        return found

    def _without_new(self) -> tuple[dict[str, Work], dict[str, dict[str, Work]]]:
        """Returns the newer work as if new tasks lasted nothing, and the work of these."""
        works = dict(self.new.works)
        coming = {}
        for task in self.matching.new:
            coming[task.code] = self.new.of(task)
            works.update(dict.fromkeys(task.cards(), self.nothing))
        return works, coming
