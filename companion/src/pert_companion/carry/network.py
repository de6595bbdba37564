"""Makes the TASK and AFTER cards of tasks whose ties are resolved.

A task has a card, or one for each of its parts if others begin before its finish. Moments that no
card ends at get cards of no duration: the start of a task (`.S`), and its finish (`.F`) if that
waits for more than its work. A lag gets a card that waits (`.w5`).
"""

from collections.abc import Sequence
from dataclasses import dataclass, field
from datetime import date
from itertools import chain

from pert_companion.carry.codes import Codes, title
from pert_companion.carry.model import End, Moment, Node
from pert_companion.model.calendar import Calendar
from pert_companion.model.cards import AfterCard, TaskCard


@dataclass(frozen=True)
class Part:
    """One card of a task's work, with its normal duration and where it ends, in units."""

    code: str
    normal: int
    before_finish: int
    """How long before the finish of the task it ends."""


@dataclass
class NodeCards:
    """The cards of one task."""

    parts: list[Part] = field(default_factory=list)
    start_moment: str | None = None
    finish_moment: str | None = None
    cards: list[TaskCard] = field(default_factory=list)

    @property
    def first(self) -> str:
        """Returns the card at which the task begins."""
        return self.start_moment or self.parts[0].code

    @property
    def last(self) -> str:
        """Returns the card at whose end the task is finished."""
        return self.finish_moment or self.parts[-1].code


@dataclass(frozen=True)
class Wait:
    """A card that waits: after a moment, for so many units."""

    code: str
    moment: Moment


class Network:
    """The cards of a plan, in the order of its tasks."""

    def __init__(self, codes: Codes, unit_name: str, unit_minutes: int, calendar: Calendar) -> None:
        """Takes the codes of TASK cards, and what waits are named after."""
        self.of: dict[Node, NodeCards] = {}
        self.waits: dict[Moment, Wait] = {}
        self._codes = codes
        self._unit_name = unit_name
        self._unit_minutes = unit_minutes
        self._calendar = calendar
        self._afters: dict[AfterCard, None] = {}
        self._origin = 0

    def build(self, nodes: Sequence[Node], start: date) -> None:
        """Makes the cards of nodes, which are in the order of the plan; it begins on `start`."""
        self._origin = self._calendar.position(self._calendar.morning(start))
        for node in nodes:
            self.of[node] = self._node_cards(node)
        for node in nodes:
            made = self.of[node]
            for moment in node.after_start:
                self._link(made.first, self._code_of(moment, node))
            for moment in node.after_finish:
                self._link(made.last, self._code_of(moment, node))

    def tasks(self) -> tuple[TaskCard, ...]:
        """Returns the TASK cards."""
        return tuple(chain.from_iterable(made.cards for made in self.of.values()))

    def afters(self) -> tuple[AfterCard, ...]:
        """Returns the AFTER cards, each once, in the order of the TASK cards."""
        place = {card.code: at for at, card in enumerate(self.tasks())}

        def order(after: AfterCard) -> tuple[int, int]:
            return place[after.task], place[after.before]

        return tuple(sorted(self._afters, key=order))

    def followers(self, nodes: Sequence[Node]) -> dict[str, list[Node]]:
        """Returns the nodes that come right after each card, by the code of the card."""
        found: dict[str, list[Node]] = {}
        owner: dict[str, Node] = {}
        for node in nodes:
            owner[self.of[node].first] = node
            owner[self.of[node].last] = node
        for after in self._afters:
            if after.task in owner:
                found.setdefault(after.before, []).append(owner[after.task])
        return found

    def counts(self) -> str:
        """Returns how many TASK cards there are for what, as a text."""
        starts = sum(1 for made in self.of.values() if made.start_moment is not None)
        finishes = sum(1 for made in self.of.values() if made.finish_moment is not None)
        parts = sum(len(made.parts) - 1 for made in self.of.values())
        return (
            f"{len(self.of)} tasks and ends of groups, {starts} starts and {finishes} finishes that"
            f" links need, {parts} further parts of tasks with leads, {len(self.waits)} waits"
        )

    def _link(self, task: str, before: str) -> None:
        self._afters[AfterCard(task, before)] = None

    def _node_cards(self, node: Node) -> NodeCards:
        """Returns the cards of a task: its parts, and the moments that others or it wait for."""
        made = NodeCards()
        if node.needs_start:
            made.start_moment = self._milestone(made, node, ".S", "Start")
            self._link(node.code, made.start_moment)
        for before_finish in [*sorted(node.cuts, reverse=True), 0]:
            self._add_part(made, node, before_finish)
        if node.after_finish:
            made.finish_moment = self._milestone(made, node, ".F", "Finish")
            self._link(made.finish_moment, made.parts[-1].code)
        return made

    def _add_part(self, made: NodeCards, node: Node, before_finish: int) -> None:
        """Adds the next part of a task: the first can be shortened, the others cannot."""
        if not made.parts:
            card = _first_part(node, before_finish)
        else:
            number = len(made.parts) + 1
            length = made.parts[-1].before_finish - before_finish
            code = self._codes.make(node.code, f".{number}")
            card = _still(code, node.item, length, f"Part {number} of {node.name}")
            self._link(code, made.parts[-1].code)
        made.cards.append(card)
        made.parts.append(Part(card.code, card.normal, before_finish))

    def _milestone(self, made: NodeCards, node: Node, suffix: str, end: str) -> str:
        code = self._codes.make(node.code, suffix)
        made.cards.append(_still(code, node.item, 0, f"{end} of {node.name}"))
        return code

    def _code_of(self, moment: Moment, follower: Node) -> str:
        """Returns the code of the card that ends at a moment."""
        if moment.end is End.CUT:
            assert moment.node is not None
            return next(
                part.code for part in self.of[moment.node].parts if part.before_finish == moment.lag
            )
        if moment.node is not None and moment.lag == 0:
            made = self.of[moment.node]
            return made.first if moment.end is End.START else made.last
        if moment not in self.waits:
            self.waits[moment] = self._wait(moment, follower)
        return self.waits[moment].code

    def _wait(self, moment: Moment, follower: Node) -> Wait:
        """Returns a new card that waits after a moment; it is next to the task that it follows."""
        if moment.node is None:
            day = self._calendar.at(self._origin + moment.lag * self._unit_minutes).date()
            code = self._codes.make(f"D{day.isoformat()}")
            card = _still(code, follower.item, moment.lag, f"Until {day.isoformat()}")
            self.of[follower].cards.insert(0, card)
            return Wait(code, moment)
        node, made = moment.node, self.of[moment.node]
        is_start = moment.end is End.START
        code = self._codes.make(node.code, f"{'.S' if is_start else ''}.w{moment.lag}")
        end = "start" if is_start else "finish"
        name = f"Wait {moment.lag} {self._unit_name} after the {end} of {node.name}"
        made.cards.append(_still(code, node.item, moment.lag, name))
        self._link(code, made.first if is_start else made.last)
        return Wait(code, moment)


def _first_part(node: Node, before_finish: int) -> TaskCard:
    """Returns the card of a task, or of its first part: the one that can be shortened."""
    optimistic, likely, pessimistic = node.estimates
    return TaskCard(
        code=node.code,
        item=node.item,
        optimistic=optimistic - before_finish,
        likely=likely - before_finish,
        pessimistic=pessimistic - before_finish,
        normal=node.normal - before_finish,
        crash=node.crash - before_finish,
        cost=node.cost,
        slope=node.slope,
        title=title(node.name),
    )


def _still(code: str, item: str, units: int, name: str) -> TaskCard:
    """Returns a card that costs nothing and always takes so many units."""
    return TaskCard(code, item, units, units, units, units, units, 0, 0, title(name))
