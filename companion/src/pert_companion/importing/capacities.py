"""Puts the capacities that people say into a plan: those of now, and those of the last import."""

from collections.abc import Mapping
from dataclasses import replace
from decimal import Decimal

from pert_companion.model.errors import UsageError
from pert_companion.model.plan import Plan, Resource, ResourceKind
from pert_companion.model.sidefile import SideFile


def kept_capacities(last: SideFile | None) -> dict[str, Decimal]:
    """Returns the capacities that the last import was told, by the names of their resources."""
    if last is None:
        return {}
    return {each.name: each.units for each in last.capacities if each.is_said}


def with_capacities(
    plan: Plan, said: Mapping[str, Decimal], kept: Mapping[str, Decimal] = {}
) -> Plan:
    """Returns a plan whose resources have the capacities that are said, by name in any case.

    `kept` are those of the last import; a resource that is no longer there is passed over. Raises
    `UsageError` that offers the names there are if a resource of `said` is none of the plan.
    """
    wanted = {name.casefold(): units for name, units in kept.items()}
    wanted.update((name.casefold(), units) for name, units in said.items())
    resources = tuple(_with_capacity(resource, wanted) for resource in plan.resources)
    known = [resource for resource in resources if resource.kind is not ResourceKind.COST]
    names = {resource.name.casefold() for resource in known}
    for name in said:
        if name.casefold() not in names:
            offered = ", ".join(sorted({resource.name for resource in known}))
            there = f"there are {offered}" if offered else "the file has none"
            raise UsageError(f"--capacity: there is no resource {name!r}; {there}")
    return replace(plan, resources=resources)


def _with_capacity(resource: Resource, wanted: Mapping[str, Decimal]) -> Resource:
    units = wanted.get(resource.name.casefold())
    if units is None or resource.kind is ResourceKind.COST:
        return resource
    return replace(resource, capacity=units, is_capacity_said=True)
