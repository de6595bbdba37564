"""What the JSON of `pert-schedule --chance` has: ends and chances, without the simulated runs."""

from dataclasses import dataclass
from datetime import date
from fractions import Fraction

from pert_companion.analysis.sureness import NOTHING_KNOWN, Driver, Sureness


@dataclass(frozen=True)
class ChanceOfDay:
    """A day, and the chance that the work ends by its evening."""

    day: date
    chance: Fraction


@dataclass(frozen=True)
class ChanceSummary:
    """How sure the end of what is left is: simulated, not proved."""

    runs: int
    """How many runs were simulated; 0 if no estimates differ, so that nothing is known."""
    even_end: date | None
    """P50: the first day by which at least half of the runs end."""
    likely_end: date | None
    """P80: the first day by which at least four in five runs end."""
    schedule: ChanceOfDay | None
    contract: ChanceOfDay | None
    drivers: tuple[Driver, ...]
    """Every task that was critical in some run, the most often critical one first."""
    note: str


def summary_of(found: Sureness | None, end: date | None, contract: date | None) -> ChanceSummary:
    """Returns what the JSON has of a simulation; `end` is the last day of the schedule."""
    if found is None:
        return ChanceSummary(0, None, None, None, None, (), NOTHING_KNOWN)
    return ChanceSummary(
        runs=len(found.runs.lengths),
        even_end=found.even_end,
        likely_end=found.likely_end,
        schedule=_chance(found, end),
        contract=_chance(found, contract),
        drivers=found.drivers(len(found.names)),
        note=found.scope,
    )


def _chance(found: Sureness, day: date | None) -> ChanceOfDay | None:
    return None if day is None else ChanceOfDay(day, found.chance_by(day))
