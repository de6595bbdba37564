"""Makes a deck again after its links or its tasks changed, as an import makes it.

A deck knows one link; the other links of planners are cards of their own (`carry.network`). So they
are not changed card by card: the links are read from the cards, and the deck is made of the changed
links. Tasks that they do not concern have the same cards as before.
"""

from collections.abc import Iterator, Sequence
from dataclasses import replace
from itertools import chain

from pert_companion.carry.loads import shared
from pert_companion.carry.recounting import made_again
from pert_companion.model.cards import ActivityCard, AfterCard, LoadCard, TaskCard
from pert_companion.model.deck import Deck
from pert_companion.model.logic import Logic, LogicTie, Recount, TieWait, first_moment
from pert_companion.model.losses import Loss
from pert_companion.model.plan import LinkKind
from pert_companion.model.predecessors import LinkSearch
from pert_companion.model.sidefile import SideFile, SideTask

WorkCard = TaskCard | ActivityCard


class DeckTies:
    """What the tasks of a deck wait for: the logic of its side file, or what its cards say.

    A group's end, to which links of the group were tied, is a task of no duration in them. Of a day
    that cards wait for, the lag has the working minutes from the first day.
    """

    def __init__(self, deck: Deck, side: SideFile) -> None:
        """Takes a deck with its side file."""
        self._logic = side.logic
        self._side = _with_group_ends(deck, side) if side.logic is None else side
        self._search = LinkSearch(deck, self._side)
        self._known: dict[str, list[LogicTie]] = {}
        for tie in () if side.logic is None else side.logic.ties:
            self._known.setdefault(tie.task, []).append(tie)

    def to(self, task: SideTask) -> list[LogicTie]:
        """Returns what a task waits for; lags are in minutes."""
        if self._logic is None and task.code not in self._known:
            self._known[task.code] = list(self._of_cards(task))
        return self._known.get(task.code, [])

    def logic(self) -> Logic:
        """Returns what all tasks wait for, in the order of the tasks."""
        if self._logic is not None:
            return self._logic
        ties = tuple(chain.from_iterable(map(self.to, self._side.tasks)))
        return Logic(first_moment(self._side.calendar, self._side.start), (), ties)

    def _of_cards(self, task: SideTask) -> Iterator[LogicTie]:
        unit, first_day = self._side.unit_minutes, self._side.start
        for link in self._search.links_to(task):
            yield LogicTie(task.code, link.kind, link.predecessor, link.lag * unit)
        wait = self._search.first_day_wait(task)
        if wait.start:
            yield LogicTie(task.code, LinkKind.START_START, lag=wait.start * unit, day=first_day)
        if wait.finish:
            yield LogicTie(task.code, LinkKind.START_FINISH, lag=wait.finish * unit, day=first_day)


def remade(
    deck: Deck, side: SideFile, logic: Logic, dates: Recount
) -> tuple[Deck, SideFile, tuple[Loss, ...]]:
    """Returns the deck with its side file, made of a changed logic at its normal dates.

    Status cards stay with the cards that are still there, in the order of the work. Links that a
    deck cannot hold are losses. Errors are those of `made_again`.
    """
    made, new_side, losses = made_again(deck, replace(side, logic=logic), dates)
    known = {card.code: card for card in deck.work}
    made = replace(
        made,
        tasks=tuple(_same_title(card, known) for card in made.tasks),
        activities=tuple(_same_title(card, known) for card in made.activities),
        afters=_in_their_order(deck.afters, made.afters),
    )
    place = {card.code: at for at, card in enumerate(made.work)}
    kept = [card for card in deck.statuses if card.activity in place]
    made = replace(
        made,
        statuses=tuple(sorted(kept, key=lambda card: place[card.activity])),
        loads=tuple(_loads(deck, side, made, new_side)),
    )
    return made, replace(new_side, logic=None if side.logic is None else logic), losses


def waits_of_cards(logic: Logic) -> Recount:
    """Returns what the ties of a logic that is read from cards wait."""
    return Recount({}, tuple(TieWait(tie.lag, tie.day is not None) for tie in logic.ties), {})


def _with_group_ends(deck: Deck, side: SideFile) -> SideFile:
    """Returns a side file in which the ends of groups are tasks."""
    known = set(side.waits)
    ends = [card for card in deck.work if card.code in known and not card.normal]
    tasks = [SideTask(card.code, card.code, None, card.title, (), (card.code,)) for card in ends]
    waits = known - {card.code for card in ends}
    return replace(side, tasks=(*side.tasks, *tasks), waits=tuple(waits))


def _same_title(card: WorkCard, known: dict[str, WorkCard]) -> WorkCard:
    """Returns a card with the title that it had, which may be longer than an import makes it."""
    before = known.get(card.code)
    return card if before is None else replace(card, title=before.title)


def _in_their_order(old: Sequence[AfterCard], new: Sequence[AfterCard]) -> tuple[AfterCard, ...]:
    """Returns AFTER cards in the order of an import, or as a person wrote them, new ones last."""
    there = set(new)
    kept = [card for card in old if card in there]
    before = set(old)
    if kept == [card for card in new if card in before]:
        return tuple(new)
    return (*kept, *(card for card in new if card not in before))


def _loads(old: Deck, side: SideFile, new: Deck, new_side: SideFile) -> Iterator[LoadCard]:
    """Yields the loads of a deck: those of a task are shared among the parts that it has now."""
    normal = {card.code: card.normal for card in new.work}
    parts = {code: [(code, units)] for code, units in normal.items()}
    owner: dict[str, str] = {}
    for task in side.tasks:
        owner.update(dict.fromkeys(task.parts, task.code))
    for task in new_side.tasks:
        parts[task.code] = [(part, normal[part]) for part in task.parts]
    totals: dict[tuple[str, str], int] = {}
    for load in old.loads:
        key = owner.get(load.activity, load.activity), load.resource
        totals[key] = totals.get(key, 0) + load.quantity
    for (code, resource), quantity in totals.items():
        for part, share in shared(parts.get(code, []), quantity):
            if share:
                yield LoadCard(part, resource, share)
