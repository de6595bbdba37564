"""Finds the tasks that a schedule of `pert` lets pause, which a planner does in one piece.

In a deck, a task in parts or with a moment at its finish may have time between them. This module
asks whether a schedule of the same length and the same durations has every task in one piece, and
names the tasks that pause if there is none. It asks for one schedule at a time, or along the curve.
"""

from collections.abc import Iterable, Iterator, Mapping, Sequence
from dataclasses import dataclass
from graphlib import TopologicalSorter
from heapq import heappop, heappush
from itertools import chain

from pert_companion.model.deck import Deck
from pert_companion.model.predecessors import cards_before
from pert_companion.model.amounts import Measure
from pert_companion.model.sidefile import SideFile, SideTask
from pert_companion.programs.certificate import Segment
from pert_companion.state.work import Work


@dataclass(frozen=True)
class Pausing:
    """The tasks that pause at one length, in the order of the plan."""

    length: int
    tasks: tuple[SideTask, ...]


@dataclass(frozen=True)
class CurvePauses:
    """Which lengths of the curve need a pause."""

    least: int
    """The least length of the curve down to which no task pauses."""
    pausing: tuple[Pausing, ...]
    """The breakpoints at which tasks pause, longest first."""

    def line(self, measure: Measure) -> str:
        """Returns one line for the user, or an empty text if no task pauses at any breakpoint.

        `measure` says what a unit of the deck is.
        """
        if not self.pausing:
            return ""
        pausing = chain.from_iterable(entry.tasks for entry in self.pausing)
        names = dict.fromkeys(task.name for task in pausing)
        shown = ", ".join(repr(name) for name in list(names)[:5])
        more = f" and {len(names) - 5} more" if len(names) > 5 else ""
        return (
            f"{measure.words(self.least)} is the least length in one piece: at shorter lengths of"
            f" the curve these tasks pause: {shown}{more}"
        )


def can_pause(side: SideFile) -> bool:
    """Says whether any task has more than one card and a finish that waits for others."""
    return any(task.finish_moment is not None and _is_tied(task) for task in side.tasks)


def _is_tied(task: SideTask) -> bool:
    return task.start_moment is not None or len(task.parts) > 1


def check_curve(work: Work) -> CurvePauses:
    """Returns which breakpoints of the curve, and from which length on, tasks pause.

    All schedules are those of one certificate.
    """
    if not can_pause(work.side):
        return CurvePauses(work.shortest, ())
    search = PauseSearch(work.deck, work.side)
    found: list[Pausing] = []
    least = work.shortest
    for stretch in _stretches(work):
        upper, lower = stretch[0].upper, stretch[-1].lower
        at = _Stretch(search, work, stretch)
        if upper == work.longest and (pausing := at.pausing(upper)).tasks:
            least = upper
            found.append(pausing)
        if upper > lower and (pausing := at.pausing(lower)).tasks:
            least = least if found else at.least_without()
            found.append(pausing)
    return CurvePauses(least, tuple(found))


def _stretches(work: Work) -> Iterator[list[Segment]]:
    """Yields the segments between each two neighbouring breakpoints, longest first."""
    breakpoints = {point.length for point in work.curve}
    stretch: list[Segment] = []
    for segment in work.segments():
        stretch.append(segment)
        if segment.lower in breakpoints:
            yield stretch
            stretch = []


@dataclass(frozen=True)
class _Stretch:
    """The segments between two neighbouring breakpoints."""

    search: "PauseSearch"
    work: Work
    segments: Sequence[Segment]

    def pausing(self, length: int) -> Pausing:
        """Returns the tasks that pause at a length."""
        segment = next(each for each in self.segments if each.lower <= length <= each.upper)
        point = segment.point(self.work.network, length)
        return Pausing(length, self.search.pausing(point.durations, length))

    def least_without(self) -> int:
        """Returns the least length without a pause, if there is one at the lower end alone."""
        good, bad = self.segments[0].upper, self.segments[-1].lower
        while good - bad > 1:
            middle = (good + bad) // 2
            if self.pausing(middle).tasks:
                bad = middle
            else:
                good = middle
        return good


def pausing_tasks(
    deck: Deck, side: SideFile, durations: Mapping[str, int], length: int
) -> tuple[SideTask, ...]:
    """Returns the tasks that pause in one schedule, as `PauseSearch.pausing` does."""
    return PauseSearch(deck, side).pausing(durations, length) if can_pause(side) else ()


class PauseSearch:
    """Finds the tasks that pause in schedules of one deck."""

    def __init__(self, deck: Deck, side: SideFile) -> None:
        self._tasks = side.tasks
        self._tied = [task for task in side.tasks if task.finish_moment is not None]
        self._tied = [task for task in self._tied if _is_tied(task)]
        self._before = cards_before(deck)
        self._after: dict[str, list[str]] = {}
        sorter: TopologicalSorter[str] = TopologicalSorter()
        for card in deck.work:
            before = self._before.get(card.code, ())
            sorter.add(card.code, *before)
            for other in before:
                self._after.setdefault(other, []).append(card.code)
        self._order = list(sorter.static_order())
        self._owners = {card.code: card.code for card in deck.work}
        for task in side.tasks:
            self._owners.update(dict.fromkeys(task.cards(), task.code))
        tasks = dict.fromkeys(self._owners[code] for code in self._order)
        self._numbers = {code: number for number, code in enumerate(tasks)}
        """The tasks in the order in which their first cards come."""
        self._links = list(self._links_of_tasks())

    def _links_of_tasks(self) -> Iterator[tuple[str, str]]:
        """Yields the cards of each link between two tasks, the earlier one first."""
        for code, others in self._before.items():
            for before in others:
                if self._owners[before] != self._owners[code]:
                    yield before, code

    def pausing(self, durations: Mapping[str, int], length: int) -> tuple[SideTask, ...]:
        """Returns the tasks that pause if the project takes `length` units with these durations.

        It is empty if all tasks can be done in one piece. Else it has the tasks whose cards are
        forced apart, or if none is by itself, those whose cards are apart when each is as early as
        it can be.
        """
        end = self._one_piece_end(durations)
        if end is not None and end <= length:
            return ()
        early, late = self._early_starts(durations), self._late_starts(durations, length)
        forced, apart = [], []
        for task in self._tied:
            assert task.finish_moment is not None
            work = sum(durations[part] for part in task.parts)
            first = task.start_moment or task.parts[0]
            if late[first] + work < early[task.finish_moment]:
                forced.append(task)
            if early[first] + work < early[task.finish_moment]:
                apart.append(task)
        return tuple(forced or apart)

    def _one_piece_end(self, durations: Mapping[str, int]) -> int | None:
        """Returns when all tasks can have ended in one piece; None if tasks wait in a circle."""
        begins, ends = self._places(durations)
        numbers = self._numbers
        bounds: list[list[tuple[int, int]]] = [[] for _ in numbers]
        for before, code in self._links:
            wait = ends[before] - begins[code]
            bounds[numbers[self._owners[before]]].append((numbers[self._owners[code]], wait))
        starts = [0] * len(numbers)
        causes: dict[int, int] = {}
        waiting = list(range(len(numbers)))
        while waiting:
            waiting = _round(bounds, starts, causes, waiting)
            if waiting and has_circle(causes):
                return None
        return max(
            (starts[numbers[self._owners[code]]] + end for code, end in ends.items()), default=0
        )

    def _places(self, durations: Mapping[str, int]) -> tuple[dict[str, int], dict[str, int]]:
        """Returns where each card begins and ends after the start of its task in one piece."""
        begins = dict.fromkeys(self._owners, 0)
        ends = {code: durations[code] for code in self._owners}
        for task in self._tasks:
            done = 0
            for part in task.parts:
                begins[part] = done
                done += durations[part]
                ends[part] = done
            if task.start_moment is not None:
                ends[task.start_moment] = 0
            if task.finish_moment is not None:
                begins[task.finish_moment] = ends[task.finish_moment] = done
        return begins, ends

    def _early_starts(self, durations: Mapping[str, int]) -> dict[str, int]:
        """Returns the early start of each card, as the deck has them."""
        early: dict[str, int] = {}
        for code in self._order:
            ends = [early[other] + durations[other] for other in self._before.get(code, ())]
            early[code] = max(ends, default=0)
        return early

    def _late_starts(self, durations: Mapping[str, int], length: int) -> dict[str, int]:
        """Returns the late start of each card for a length, as the deck has them."""
        late: dict[str, int] = {}
        for code in reversed(self._order):
            starts = [late[other] for other in self._after.get(code, ())]
            late[code] = min([length, *starts]) - durations[code]
        return late


def _round(
    bounds: Sequence[Sequence[tuple[int, int]]],
    starts: list[int],
    causes: dict[int, int],
    waiting: Iterable[int],
) -> list[int]:
    """Moves what comes after the given tasks, in the order of the deck, and all that follows.

    Returns the tasks that moved and come before the one that moved them: they are for the next
    round. `causes` has for each task the one that moved it last. Tasks are numbers in that order.
    """
    heap = sorted(waiting)
    queued = set(heap)
    left: dict[int, None] = {}
    while heap:
        task = heappop(heap)
        queued.remove(task)
        for after, wait in bounds[task]:
            if starts[task] + wait <= starts[after]:
                continue
            starts[after] = starts[task] + wait
            causes[after] = task
            if after < task:
                left[after] = None
            elif after not in queued:
                queued.add(after)
                heappush(heap, after)
    return list(left)


def has_circle(causes: Mapping[int, int]) -> bool:
    """Says whether some task is the cause of its own move, directly or through others.

    Then each round through these tasks moves them again, so that they wait in a circle. Source:
    Cherkassky and Goldberg 1999, walks to the root. Linear in the tasks.
    """
    seen: dict[int, int] = {}
    for first in causes:
        task = first
        while task in causes and task not in seen:
            seen[task] = first
            task = causes[task]
        if seen.get(task) == first:
            return True
    return False
