"""How much of each resource there is, as the side file has it."""

from dataclasses import dataclass
from decimal import Decimal
from typing import Any

from pert_companion.model import strict

MOST_HOURLY = 1000
"""The most units of a RES card that one unit of its resource is: thousandths of a material."""


@dataclass(frozen=True)
class Capacity:
    """How much of a resource there is."""

    code: str
    """The code of its RES card."""
    name: str
    """Its name in the source."""
    units: Decimal
    """How many of it work at once, or how much of a material an hour of work takes."""
    hourly: int
    """What one of these units does in an hour of work, in units of the RES card."""
    is_said: bool = False
    """Whether it was said when the plan was imported, and is not from the source."""


def capacity_json(capacity: Capacity) -> dict[str, Any]:
    """Returns a capacity as the side file has it."""
    return {
        "code": capacity.code,
        "name": capacity.name,
        "units": f"{capacity.units:f}",
        "hourly": capacity.hourly,
        "said": capacity.is_said,
    }


def read_capacities(fields: strict.Fields) -> tuple[Capacity, ...]:
    """Returns the capacities of a side file; none if it has no list of them."""
    if not fields.has("capacities"):
        return ()
    return tuple(_capacity(entry) for entry in fields.entries("capacities"))


def _capacity(fields: strict.Fields) -> Capacity:
    units = fields.optional_decimal("units")
    if units is None or units < 0:
        raise fields.fault("it is no number of units", "units")
    capacity = Capacity(
        code=fields.text("code"),
        name=fields.text("name"),
        units=units,
        hourly=fields.integer("hourly", 1, MOST_HOURLY),
        is_said=fields.boolean("said"),
    )
    fields.end()
    return capacity
