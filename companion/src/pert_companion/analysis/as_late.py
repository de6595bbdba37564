"""Tasks that are to be done as late as possible: by how much they wait without delaying others.

Their planners begin such a task as late as what follows it allows. What follows keeps its early
dates, unless it is to be late too. A deck begins each task as early as it can, so a schedule moves
these tasks afterwards: neither lengths nor costs depend on it.
"""

from collections.abc import Mapping
from graphlib import TopologicalSorter

from pert_companion.analysis.spanning import span
from pert_companion.model.cards import ActivityCard
from pert_companion.model.deck import Deck
from pert_companion.model.plan import ConstraintKind
from pert_companion.model.sidefile import SideFile, SideTask


def is_as_late(task: SideTask) -> bool:
    """Says whether a task is to be done as late as possible and has not begun."""
    known = task.constraint
    if known is None or known.kind is not ConstraintKind.AS_LATE_AS_POSSIBLE:
        return False
    return task.actual_start is None and not task.percent


def delays(
    network: Deck, side: SideFile, events: Mapping[str, int], durations: Mapping[str, int]
) -> dict[str, int]:
    """Returns by how many units each task that is to be late begins after its early start, by code.

    `events` are the early times of the network with these durations.
    """
    late = [task for task in side.tasks if is_as_late(task)]
    return _Delays(network, side, events, durations).of(late) if late else {}


class _Delays:
    """The latest times of events after which nothing else has to wait."""

    def __init__(
        self,
        network: Deck,
        side: SideFile,
        events: Mapping[str, int],
        durations: Mapping[str, int],
    ) -> None:
        self.cards = {card.code: card for card in network.activities}
        self.events, self.durations = events, durations
        self.starts = self._starts_of_work(side)
        self.leaving: dict[str, list[ActivityCard]] = {}
        for card in network.activities:
            self.leaving.setdefault(card.begins, []).append(card)
        self.latest = self._latest(network)

    def of(self, tasks: list[SideTask]) -> dict[str, int]:
        """Returns by how many units these tasks can wait."""
        return {task.code: self._delay(task) for task in tasks}

    def _starts_of_work(self, side: SideFile) -> dict[str, int]:
        """Returns when the cards of other tasks begin, and end; waits may move."""
        starts = {}
        for task in side.tasks:
            if is_as_late(task):
                continue
            begin, end = span(task, self.cards, self.events, self.durations)
            if task.finish_moment is not None:
                starts[task.finish_moment] = end
            for part in task.parts:
                starts[part] = begin
                begin += self.durations[part]
        return starts

    def _latest(self, network: Deck) -> dict[str, int]:
        """Returns the latest time of each event, from the end on."""
        end = self.events[network.project.end]
        sorter: TopologicalSorter[str] = TopologicalSorter()
        for event in self.events:
            sorter.add(event, *(card.ends for card in self.leaving.get(event, ())))
        latest: dict[str, int] = {}
        for event in sorter.static_order():
            bounds = [end]
            for card in self.leaving.get(event, ()):
                known = self.starts.get(card.code)
                moves = latest[card.ends] - self.durations[card.code]
                bounds.append(moves if known is None else known)
            latest[event] = min(bounds)
        return latest

    def _delay(self, task: SideTask) -> int:
        begin, end = span(task, self.cards, self.events, self.durations)
        last = self.cards[task.finish_moment or task.parts[-1]]
        free = self.latest[last.ends] - end
        if task.start_moment is not None:
            free = min(free, self.latest[self.cards[task.start_moment].ends] - begin)
        return max(0, free)
