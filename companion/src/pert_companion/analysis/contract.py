"""The date that a project is held to: its contract date, the target of TERMS, or the plan's end."""

from dataclasses import dataclass, replace
from datetime import date

from pert_companion.analysis.options import Reason
from pert_companion.model.clock import Clock
from pert_companion.model.deck import Deck
from pert_companion.model.sidefile import SideFile
from pert_companion.state.project import ProjectState

CONTRACT_DATE, TARGET_DATE, PLANNED_END = "contract date", "target date", "planned end"


@dataclass(frozen=True)
class Contract:
    """The date that the project is held to."""

    day: date
    name: str
    """`contract date`, `target date` or `planned end`."""
    kind: str
    """Where it comes from, for people."""

    @property
    def is_binding(self) -> bool:
        """Says whether the deck has such a date; else it is the end of the plan."""
        return self.name != PLANNED_END


def contract_of(state: ProjectState, planned_end: date | None) -> Contract | None:
    """Returns the contract date, else the target of TERMS, else the end of the plan."""
    clock, deck = state.plan.clock, state.deck
    if deck.project.directed is not None:
        minutes = load_day_minutes(state.side, deck)
        day = Clock(replace(state.side, unit_minutes=minutes)).end(deck.project.directed)
        name, kind = CONTRACT_DATE, "of the deck's PROJECT card"
    elif deck.terms is not None and deck.terms.target:
        day, name, kind = clock.end(deck.terms.target), TARGET_DATE, "of the price of time (TERMS)"
    else:
        day, name, kind = planned_end, PLANNED_END, "the deck has no contract date"
    return None if day is None else Contract(day, name, kind)


def held_dates(contract: Contract | None) -> list[tuple[Reason, date]]:
    """Returns the days for options, besides the target of TERMS, which is one by itself."""
    reasons = {CONTRACT_DATE: Reason.CONTRACT, PLANNED_END: Reason.PLANNED}
    if contract is None or contract.name not in reasons:
        return []
    return [(reasons[contract.name], contract.day)]


def load_day_minutes(side: SideFile, deck: Deck) -> int:
    """Returns the working minutes of a day of `load` and of the directed end."""
    return max(1, side.unit_minutes // deck.project.unit_days)
