"""Makes the network of a deck of tasks, with as few events as it needs, for plans of any size.

`pert arrows` gives each task an event at which it begins and one at which it ends, and each link an
activity of its own. Here two events become one where a link is the only activity that leaves the
first, or the only one that enters the second: nothing else tells them apart. The earlier of them
can then occur with the later one, or the later with the earlier, and no task begins later or ends
earlier for it, so that both networks have the same lengths, costs and floats of tasks. Codes of
what is added begin with `_`, as those that `pert arrows` adds do.
"""

from collections.abc import Iterable, Sequence
from dataclasses import dataclass, replace

from pert_companion.model.cards import ActivityCard, EventCard, ItemCard, TaskCard
from pert_companion.model.deck import Deck

ITEM = "_links"
"""The item of all links; it has no account."""
_START, _END = 0, 1


@dataclass(frozen=True)
class _Link:
    """An activity of no duration between two events, which are named by their numbers."""

    code: str
    tail: int
    head: int


def network_of(deck: Deck) -> Deck:
    """Returns the network of a deck of tasks. Everything but its tasks and links stays."""
    events = _Events(len(deck.tasks))
    links = events.joined(list(_links(deck)))
    codes = events.codes(deck.project.start, deck.project.end)
    works = [_work(task, codes, events, at) for at, task in enumerate(deck.tasks)]
    dummies = [_dummy(link, codes, events) for link in links]
    top = deck.items[0].code
    return replace(
        deck,
        items=(*deck.items, ItemCard(ITEM, top, "Links")),
        events=tuple(EventCard(code) for code in dict.fromkeys(codes.values())),
        activities=(*works, *dummies),
        tasks=(),
        afters=(),
    )


def _begin(task: int) -> int:
    return 2 + 2 * task


def _finish(task: int) -> int:
    return 3 + 2 * task


def _links(deck: Deck) -> Iterable[_Link]:
    """Yields the links of the tasks, and those from the start and to the end of the project."""
    place = {task.code: at for at, task in enumerate(deck.tasks)}
    has_before: set[int] = set()
    has_after: set[int] = set()
    for number, after in enumerate(deck.afters, 1):
        before, task = place[after.before], place[after.task]
        has_before.add(task)
        has_after.add(before)
        yield _Link(f"_a{number}", _finish(before), _begin(task))
    for at in range(len(deck.tasks)):
        if at not in has_before:
            yield _Link(f"_s{at + 1}", _START, _begin(at))
        if at not in has_after:
            yield _Link(f"_t{at + 1}", _finish(at), _END)


class _Events:
    """The events of so many tasks, some of which become one."""

    def __init__(self, tasks: int) -> None:
        count = 2 + 2 * tasks
        self._tasks = tasks
        self._same_as = list(range(count))
        self._leaving = [0] * count
        self._entering = [0] * count
        for at in range(tasks):
            self._leaving[_begin(at)] += 1
            self._entering[_finish(at)] += 1

    def find(self, event: int) -> int:
        """Returns the event that an event has become."""
        while self._same_as[event] != event:
            self._same_as[event] = self._same_as[self._same_as[event]]
            event = self._same_as[event]
        return event

    def joined(self, links: Sequence[_Link]) -> list[_Link]:
        """Joins events where a link is needless, and returns the links that are left.

        Once is enough: joining two events makes no further link needless.
        """
        for link in links:
            self._leaving[link.tail] += 1
            self._entering[link.head] += 1
        return [link for link in links if not self._join(link)]

    def _join(self, link: _Link) -> bool:
        """Makes the two events of a link one if nothing else tells them apart; says whether."""
        tail, head = self.find(link.tail), self.find(link.head)
        if self._leaving[tail] != 1 and self._entering[head] != 1:
            return False
        kept, gone = (tail, head) if head != _END else (head, tail)
        self._same_as[gone] = kept
        self._leaving[kept] += self._leaving[gone] - 1
        self._entering[kept] += self._entering[gone] - 1
        return True

    def codes(self, start: str, end: str) -> dict[int, str]:
        """Returns the code of each event that is left, start and end first."""
        found = {_START: start, _END: end}
        for at in range(self._tasks):
            for event, code in (
                (_begin(at), f"_b{at + 1}"),
                (_finish(at), f"_e{at + 1}"),
            ):
                if self.find(event) == event:
                    found[event] = code
        return found


def _work(task: TaskCard, codes: dict[int, str], events: _Events, at: int) -> ActivityCard:
    return ActivityCard(
        task.code,
        codes[events.find(_begin(at))],
        codes[events.find(_finish(at))],
        task.item,
        task.optimistic,
        task.likely,
        task.pessimistic,
        task.normal,
        task.crash,
        task.cost,
        task.slope,
        task.title,
    )


def _dummy(link: _Link, codes: dict[int, str], events: _Events) -> ActivityCard:
    tail, head = codes[events.find(link.tail)], codes[events.find(link.head)]
    return ActivityCard(link.code, tail, head, ITEM, 0, 0, 0, 0, 0, 0, 0)
