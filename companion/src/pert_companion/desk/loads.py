"""The JSON of what a length loads: cost and resources by week, and what is too much."""

from pert_companion.analysis.lengths import choice_of
from pert_companion.analysis.loading import Loading, Overload, ResourceLoad, chosen_loading
from pert_companion.desk.amounts import amounts_of
from pert_companion.desk.capacity_edits import name_of
from pert_companion.desk.views import Json, day_json
from pert_companion.model.figures import day_words, plain_number
from pert_companion.state.project import ProjectState
from pert_companion.writers.loading_text import at_once


def load_json(state: ProjectState, units: int, version: int) -> Json:
    """Returns what the schedule of a length costs and uses by week, as `pert-schedule --load`."""
    found = chosen_loading(state, choice_of(state.rest, units))
    amounts = amounts_of(state.side)
    names = {card.code: name_of(card) for card in state.deck.resources}
    return {
        "version": version,
        "period": day_words(found.period_minutes, found.day_minutes),
        "periods": [day_json(first) for first in found.periods],
        "costs": [amounts.money(cost) for cost in found.costs],
        "resources": [_resource(each, names[each.code], found) for each in found.resources],
        "overloads": [_overload(each, found) for each in found.overloads],
    }


def _resource(each: ResourceLoad, name: str, found: Loading) -> Json:
    above = [over.period for over in found.overloads if over.resource == each.code]
    return {
        "code": each.code,
        "name": name,
        "title": each.name,
        "amounts": [str(amount) for amount in each.amounts],
        "capacity": "" if each.capacity is None else plain_number(each.capacity),
        "above": above,
    }


def _overload(each: Overload, found: Loading) -> Json:
    used = {resource.code: resource for resource in found.resources}[each.resource]
    return {
        "first": day_json(each.first),
        "title": each.name,
        "amount": str(used.amounts[each.period]),
        "available": str(used.available),
        "most": at_once(each.most),
        "days": each.days,
        "capacity": plain_number(each.capacity),
        "tasks": list(each.tasks),
    }
