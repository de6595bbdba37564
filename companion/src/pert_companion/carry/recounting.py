"""Counts the work of a deck again at other dates, as the import counted it at the normal ones.

A task with a calendar of its own, and a wait that does not run by the plan's, lasts other units of
the plan's calendar at other dates. The side file has the logic of the plan, so the deck is made
from it again: with the same tasks, costs and links, and with units of these dates.
"""

from dataclasses import replace
from decimal import Decimal
from fractions import Fraction

from pert_companion.carry.arrows import ITEM
from pert_companion.carry.carrying import within_limits
from pert_companion.carry.codes import Codes
from pert_companion.carry.model import End, Node, Tie
from pert_companion.carry.moments import resolve
from pert_companion.carry.network import Network
from pert_companion.carry.order import in_order
from pert_companion.carry.units import unit_name
from pert_companion.model.cards import ActivityCard, TaskCard
from pert_companion.model.deck import Deck
from pert_companion.model.errors import InputError
from pert_companion.model.logic import LogicTie, OwnTime, Recount, TieWait
from pert_companion.model.losses import Loss
from pert_companion.model.sidefile import SideFile, SideTask

WorkCard = ActivityCard | TaskCard


def recounted(deck: Deck, side: SideFile, dates: Recount) -> tuple[Deck, SideFile] | None:
    """Returns a deck of a plan with a logic, and its side file, with the units of other dates.

    Returns None if a link has no equivalent in units of these dates, or the deck would be more than
    it may.
    """
    try:
        made, counted, losses = made_again(deck, side, dates)
    except InputError:
        return None
    return None if losses else (made, counted)


def made_again(
    deck: Deck, side: SideFile, dates: Recount
) -> tuple[Deck, SideFile, tuple[Loss, ...]]:
    """Returns a deck of a plan with a logic, and its side file, made of that logic again.

    The deck has no status, and the loads of the parts that it still has. Links without equivalent
    in units of these dates are losses. Raises `InputError` that says why if tasks are linked in a
    circle, or the deck would be more than it may.
    """
    return _Maker(deck, side, dates).made()


class _Maker:
    """Makes one deck again."""

    def __init__(self, deck: Deck, side: SideFile, dates: Recount) -> None:
        self.deck = deck
        self.side = side
        self.dates = dates
        self.cards: dict[str, WorkCard] = {card.code: card for card in deck.work}
        self.nodes: dict[str, Node] = {}
        self.codes = Codes()

    def made(self) -> tuple[Deck, SideFile, tuple[Loss, ...]]:
        """Returns the deck and its side file, and the links that have no equivalent."""
        for task in self.side.tasks:
            self.nodes[task.code] = self._node(task)
        self._tie()
        nodes = list(self.nodes.values())
        for place, node in enumerate(nodes):
            node.place = place
            self.codes.take(node.code)
        losses = resolve(in_order(nodes))
        calendar, unit = self.side.calendar, self.side.unit_minutes
        network = Network(self.codes, unit_name(unit, calendar), unit, calendar)
        network.build(nodes, self.side.start)
        deck = within_limits(self._deck(network), network)
        return deck, self._side(network), tuple(losses)

    def _units(self, minutes: int) -> int:
        """Returns minutes of the plan's calendar in units, rounded up."""
        return -(-minutes // self.side.unit_minutes)

    def _node(self, task: SideTask) -> Node:
        """Returns the node of a task, with its times in units."""
        cards = [self.cards[part] for part in task.parts]
        node = Node(task.code, cards[0].item, task.name, "", task.minutes)
        node.normal = sum(card.normal for card in cards)
        node.crash = sum(card.crash for card in cards)
        node.cost, node.slope = sum(card.cost for card in cards), cards[0].slope
        node.estimates = (
            sum(card.optimistic for card in cards),
            sum(card.likely for card in cards),
            sum(card.pessimistic for card in cards),
        )
        own = self.side.own_time(task)
        if own is not None and task.minutes:
            start = self.dates.starts.get(task.code, own.start)
            self._count(node, task, own, replace(own, start=start))
        return node

    def _count(self, node: Node, task: SideTask, before: OwnTime, own: OwnTime) -> None:
        """Gives a task with a calendar of its own the units that it spans from another moment."""
        counted = before.minutes_in

        def again(units: int) -> int:
            return self._units(own.span(counted(units * self.side.unit_minutes)))

        known, normal = task.own, node.normal
        shortest, extra = None, Fraction(node.slope * (normal - node.crash))
        if known is not None and known.shortest is not None and task.actual_start is None:
            shortest = known.shortest
            extra = Fraction(known.shortening or Decimal(0)) * self.side.money_scale
        node.own = own
        node.normal = self._units(own.span(task.minutes))
        is_fixed = node.crash == normal and shortest is None
        node.crash = again(node.crash) if shortest is None else self._units(own.span(shortest))
        node.crash = node.normal if is_fixed else min(node.crash, node.normal)
        saved = node.normal - node.crash
        node.slope = -(-extra.numerator // (extra.denominator * saved)) if saved else 0
        low, likely, high = (
            node.normal if units == normal else again(units) for units in node.estimates
        )
        node.estimates = (min(low, likely), likely, max(likely, high))

    def _tie(self) -> None:
        """Adds the ties of the logic, and the milestones at the ends of groups."""
        assert self.side.logic is not None
        ties = self.side.logic.ties
        for tie in ties:
            if tie.task not in self.nodes:
                card = self.cards[tie.task]
                self.nodes[tie.task] = Node(tie.task, card.item, card.title, "", 0)
        for tie, wait in zip(ties, self.dates.waits, strict=True):
            node = self.nodes[tie.task]
            made = None if wait is None else self._made(tie, wait)
            if made is not None:
                (node.starts if tie.is_to_start else node.finishes).append(made)
        for code, minutes in self.dates.first_waits.items():
            if minutes > 0:
                self.nodes[code].starts.append(Tie(None, End.START, self._units(minutes)))

    def _made(self, tie: LogicTie, wait: TieWait) -> Tie | None:
        """Returns a tie with its lag in units; None if it is one to the first moment."""
        units = self._units(wait.minutes)
        if wait.since_start:
            return Tie(None, End.START, units, day=tie.day) if units > 0 else None
        end = End.START if tie.is_from_start else End.FINISH
        return Tie(self.nodes[tie.before], end, units)

    def _deck(self, network: Network) -> Deck:
        """Returns the deck of tasks."""
        codes = {card.code for card in network.tasks()}
        return replace(
            self.deck,
            items=tuple(item for item in self.deck.items if item.code != ITEM),
            tasks=network.tasks(),
            afters=network.afters(),
            events=(),
            activities=(),
            statuses=(),
            loads=tuple(load for load in self.deck.loads if load.activity in codes),
        )

    def _side(self, network: Network) -> SideFile:
        """Returns the side file of the deck that the network makes."""
        tasks = tuple(self._side_task(task, network) for task in self.side.tasks)
        known: set[str] = set()
        for task in tasks:
            known.update(task.cards())
        waits = tuple(card.code for card in network.tasks() if card.code not in known)
        return replace(self.side, tasks=tasks, waits=waits, cards=None)

    def _side_task(self, task: SideTask, network: Network) -> SideTask:
        node = self.nodes[task.code]
        made, own = network.of[node], task.own
        if own is not None and node.own is not None:
            own = replace(own, start=node.own.start)
        return replace(
            task,
            parts=tuple(part.code for part in made.parts),
            start_moment=made.start_moment,
            finish_moment=made.finish_moment,
            normal=node.normal,
            own=own,
        )
