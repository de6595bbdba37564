"""Turns assignments into RES and LOAD cards, in the largest unit in which all are whole."""

import math
from collections.abc import Mapping, Sequence
from dataclasses import dataclass
from decimal import Decimal
from fractions import Fraction

from pert_companion.carry.codes import CODE, Codes, one_line, shortened, title
from pert_companion.carry.model import Node
from pert_companion.carry.network import Network
from pert_companion.model.capacities import Capacity
from pert_companion.model.cards import LoadCard, ResourceCard
from pert_companion.model.losses import Loss, LossKind
from pert_companion.model.plan import Assignment, Plan, Resource, ResourceKind

MAX_QUANTITY = 10**12
MAX_DECIMALS = 3


@dataclass
class Loads:
    """The resources of a plan and how much of each its cards use."""

    resources: tuple[ResourceCard, ...]
    loads: tuple[LoadCard, ...]
    capacities: tuple[Capacity, ...]
    losses: tuple[Loss, ...]


def build(plan: Plan, nodes: Mapping[str, Node], network: Network) -> Loads:
    """Returns the RES and LOAD cards of a plan. Work is in hours, or in minutes if it must be."""
    builder = _Builder(plan, nodes, network)
    for resource in plan.resources:
        builder.add(resource)
    return Loads(
        tuple(builder.cards),
        tuple(builder.loads),
        tuple(builder.capacities),
        tuple(builder.losses),
    )


@dataclass(frozen=True)
class _Scale:
    """The unit of a resource in the deck: its name, and how much of the plan's unit it is."""

    name: str
    size: Fraction


class _Builder:
    def __init__(self, plan: Plan, nodes: Mapping[str, Node], network: Network) -> None:
        self.cards: list[ResourceCard] = []
        self.loads: list[LoadCard] = []
        self.capacities: list[Capacity] = []
        self.losses: list[Loss] = []
        self._codes = Codes()
        self._nodes = nodes
        self._network = network
        self._used: dict[str, dict[str, Decimal]] = {}
        for assignment in plan.assignments:
            self._use(assignment)

    def _use(self, assignment: Assignment) -> None:
        """Adds up what each task uses of each resource."""
        if assignment.task not in self._nodes:
            return
        used = self._used.setdefault(assignment.resource, {})
        used[assignment.task] = used.get(assignment.task, Decimal(0)) + assignment.quantity

    def add(self, resource: Resource) -> None:
        """Adds a resource that some task uses; what only costs money has no load."""
        used = {uid: units for uid, units in self._used.get(resource.uid, {}).items() if units}
        if resource.kind is ResourceKind.COST or not used:
            return
        is_usable = CODE.fullmatch(resource.name) and self._codes.is_free(resource.name)
        name = resource.name
        code = self._codes.take(name) if is_usable else self._codes.make(shortened(name))
        scale = _scale_of(resource, list(used.values()))
        self.cards.append(ResourceCard(code, title(f"{name} ({scale.name})")))
        if resource.capacity is not None:
            hourly = _hourly(resource, scale)
            said = resource.is_capacity_said
            self.capacities.append(Capacity(code, one_line(name), resource.capacity, hourly, said))
        for uid, quantity in used.items():
            self._add_load(self._nodes[uid], code, resource, Fraction(quantity) / scale.size)

    def _add_load(self, node: Node, code: str, resource: Resource, quantity: Fraction) -> None:
        """Adds the LOAD cards of a task's parts."""
        whole = math.ceil(quantity)
        if not 0 <= whole <= MAX_QUANTITY:
            self._lose(node, resource, quantity, "a deck has no such quantity")
            return
        if whole != quantity:
            self._lose(node, resource, quantity, f"rounded up to {whole}", LossKind.FRACTION)
        for part, share in shares(node, self._network, whole):
            if share:
                self.loads.append(LoadCard(part, code, share))

    def _lose(
        self,
        node: Node,
        resource: Resource,
        quantity: Fraction,
        why: str,
        kind: LossKind = LossKind.RESOURCE,
    ) -> None:
        text = f"{float(quantity):.10g}"
        self.losses.append(Loss(kind, node.where, node.name, resource.name, text, why))


def _scale_of(resource: Resource, quantities: Sequence[Decimal]) -> _Scale:
    """Returns the unit in which all quantities of a resource are whole, if there is one."""
    if resource.kind is ResourceKind.WORK:
        if all(quantity % 60 == 0 for quantity in quantities):
            return _Scale("hours", Fraction(60))
        return _Scale("minutes", Fraction(1))
    decimals = 0
    while decimals < MAX_DECIMALS and any(q % Decimal(1).scaleb(-decimals) for q in quantities):
        decimals += 1
    unit = resource.unit or "units"
    if decimals == 0:
        return _Scale(unit, Fraction(1))
    return _Scale(f"1/{10**decimals} {unit}", Fraction(1, 10**decimals))


def _hourly(resource: Resource, scale: _Scale) -> int:
    """Returns what a unit of a resource does in an hour of work, in units of its card."""
    unit = 60 if resource.kind is ResourceKind.WORK else 1
    return int(unit / scale.size)


def shares(node: Node, network: Network, amount: int) -> list[tuple[str, int]]:
    """Returns an amount shared among a task's parts by their durations; the first has the rest."""
    return shared([(part.code, part.normal) for part in network.of[node].parts], amount)


def shared(parts: Sequence[tuple[str, int]], amount: int) -> list[tuple[str, int]]:
    """Returns an amount shared among parts by their units; the first has the rest."""
    total = sum(units for _, units in parts) or 1
    later = [amount * units // total for _, units in parts[1:]]
    found = [amount - sum(later), *later]
    return [(code, share) for (code, _), share in zip(parts, found)]
