"""Finds the links between real tasks again in the cards of a deck.

A deck knows one link: a task begins when another one has ended, by an AFTER card, or at an event of
a network. `carry` makes the other links of planners from it, with parts of tasks, moments at their
starts and ends, and waits. This module goes the way back, for tables and exports. A link is found
for each walk of such cards between two real tasks, and of several between the same ends the one
with the longest lag.
"""

from collections.abc import Container, Iterator
from dataclasses import dataclass

from pert_companion.model.deck import Deck
from pert_companion.model.plan import LinkKind
from pert_companion.model.sidefile import SideFile, SideTask


@dataclass(frozen=True)
class RealLink:
    """A link between two real tasks, by the codes of their first cards; the lag is in units."""

    predecessor: str
    successor: str
    kind: LinkKind
    lag: int

    def text(self, unit: str) -> str:
        """Returns the link as planners write it: `DIG`, `DIGSS+2d`, `DIGFF-1d`."""
        if self.kind is LinkKind.FINISH_START and self.lag == 0:
            return self.predecessor
        lag = f"{self.lag:+d}{unit}" if self.lag else ""
        return f"{self.predecessor}{self.kind.value}{lag}"


@dataclass(frozen=True)
class _End:
    """What the end of a card means: how long after the start or finish of a real task it is."""

    task: str
    is_start: bool
    offset: int


@dataclass(frozen=True)
class FirstDayWait:
    """How many units after the first day of the project a task may start, and may finish."""

    start: int = 0
    finish: int = 0


def first_day_waits(deck: Deck, side: SideFile) -> dict[str, FirstDayWait]:
    """Returns the waits of tasks for days of the calendar, by the code of their first card.

    `carry` makes them of constraints and of tasks that are scheduled by hand: cards that come after
    nothing. Tasks without such a wait are not in it.
    """
    search = LinkSearch(deck, side)
    found = {}
    for task in side.tasks:
        wait = search.first_day_wait(task)
        if wait != FirstDayWait():
            found[task.code] = wait
    return found


def real_links(deck: Deck, side: SideFile) -> dict[str, list[RealLink]]:
    """Returns the links of each real task to those before it, by the code of its first card."""
    search = LinkSearch(deck, side)
    return {task.code: search.links_to(task) for task in side.tasks}


class LinkSearch:
    """Walks back from the cards of a task to the real tasks before it."""

    def __init__(self, deck: Deck, side: SideFile) -> None:
        self.normal = {card.code: card.normal for card in deck.work}
        self.ends = dict(_ends(side, self.normal))
        self.before = cards_before(deck, self.ends)
        self.owner: dict[str, str] = {}
        for task in side.tasks:
            self.owner.update(dict.fromkeys(_cards(task), task.code))

    def links_to(self, task: SideTask) -> list[RealLink]:
        """Returns the links of a task to those before it, in the order of the cards."""
        found: dict[tuple[str, LinkKind], int] = {}
        for card in _cards(task):
            to_finish = card == task.finish_moment
            for end, lag in self.ends_before(card, task.code):
                kind = _kind(end.is_start, to_finish)
                key = (end.task, kind)
                found[key] = max(found.get(key, lag), lag)
        return [RealLink(code, task.code, kind, lag) for (code, kind), lag in found.items()]

    def first_day_wait(self, task: SideTask) -> FirstDayWait:
        """Returns how long after the first day of the project a task may start, and may finish."""
        begins = [code for code in _cards(task) if code != task.finish_moment]
        start = max(self.first_day_lag(code, task.code) for code in begins)
        if task.finish_moment is None:
            return FirstDayWait(start)
        return FirstDayWait(start, self.first_day_lag(task.finish_moment, task.code))

    def first_day_lag(self, card: str, owner: str) -> int:
        """Returns the longest walk of waits from the project's start to a card, in units."""
        longest = 0
        reached: dict[str, int] = {}
        waiting = [(before, 0) for before in self.before.get(card, [])]
        while waiting:
            code, lag = waiting.pop()
            if self.owner.get(code) == owner or code in self.ends:
                continue
            lag += self.normal.get(code, 0)
            if reached.get(code, -1) >= lag:
                continue
            reached[code] = lag
            before = self.before.get(code, [])
            if not before:
                longest = max(longest, lag)
            waiting.extend((each, lag) for each in before)
        return longest

    def ends_before(self, card: str, owner: str) -> Iterator[tuple[_End, int]]:
        """Yields the ends of other real tasks that a card comes after, with the waits between."""
        longest: dict[str, int] = {}
        waiting = [(before, 0) for before in self.before.get(card, [])]
        while waiting:
            code, lag = waiting.pop()
            if self.owner.get(code) == owner:
                continue
            end = self.ends.get(code)
            if end is not None:
                yield end, lag + end.offset
                continue
            lag += self.normal.get(code, 0)
            if longest.get(code, -1) >= lag:
                continue
            longest[code] = lag
            waiting.extend((before, lag) for before in self.before.get(code, []))


def _cards(task: SideTask) -> list[str]:
    """Returns all cards of a real task: its start moment, its parts, its finish moment."""
    cards = list(task.parts)
    if task.start_moment is not None:
        cards.insert(0, task.start_moment)
    if task.finish_moment is not None:
        cards.append(task.finish_moment)
    return cards


def _ends(side: SideFile, normal: dict[str, int]) -> Iterator[tuple[str, _End]]:
    for task in side.tasks:
        if task.start_moment is not None:
            yield task.start_moment, _End(task.code, True, 0)
        if task.finish_moment is not None:
            yield task.finish_moment, _End(task.code, False, 0)
        left = 0
        for part in reversed(task.parts):
            yield part, _End(task.code, False, -left)
            left += normal.get(part, 0)


def _kind(from_start: bool, to_finish: bool) -> LinkKind:
    if from_start:
        return LinkKind.START_FINISH if to_finish else LinkKind.START_START
    return LinkKind.FINISH_FINISH if to_finish else LinkKind.FINISH_START


def cards_before(deck: Deck, ends: Container[str] = ()) -> dict[str, list[str]]:
    """Returns the cards that each card comes right after, by its code: those of AFTER cards, or the
    activities that end at the event at which it begins.

    They are walked from the last one: in a network first those in `ends`, then links and waits.
    """
    before: dict[str, list[str]] = {}
    for after in deck.afters:
        before.setdefault(after.task, []).append(after.before)
    tasks: dict[str, list[str]] = {}
    others: dict[str, list[str]] = {}
    for card in deck.activities:
        (tasks if card.code in ends else others).setdefault(card.ends, []).append(card.code)
    entering = {
        event: others.get(event, []) + tasks.get(event, [])[::-1] for event in {*tasks, *others}
    }
    for card in deck.activities:
        before[card.code] = entering.get(card.begins, [])
    return before
