"""How sure the end of a project is, by the three estimates of what is left: simulated, not proved.

The end of a run is the last day of its work. The chance of a day is the share of runs that end by
its evening.
"""

from collections.abc import Mapping
from dataclasses import dataclass
from datetime import date
from fractions import Fraction

from pert_companion.analysis.chance import EVEN, LIKELY, Simulation, simulate
from pert_companion.model.clock import Clock
from pert_companion.state.work import Work

NOTHING_KNOWN = (
    "How sure this date is, the deck does not say: each task has one estimate, not three."
)
"""What is said where nothing can be simulated."""


@dataclass(frozen=True)
class Driver:
    """A task with its criticality index."""

    code: str
    name: str
    share: Fraction
    """The share of runs in which it was critical."""


@dataclass(frozen=True)
class Sureness:
    """The ends of the runs of one schedule, as days."""

    runs: Simulation
    clock: Clock
    names: Mapping[str, str]
    """The name of each task by the code of its first card, in the order of the plan."""

    @property
    def even_end(self) -> date | None:
        """Returns P50: the first day by which at least half of the runs end."""
        return self.clock.end(self.runs.length_with(EVEN))

    @property
    def likely_end(self) -> date | None:
        """Returns P80: the first day by which at least four in five runs end."""
        return self.clock.end(self.runs.length_with(LIKELY))

    def chance_by(self, day: date) -> Fraction:
        """Returns the chance of ending by the evening of a day."""
        return self.runs.chance_of(self.clock.units_until(day))

    def drivers(self, most: int) -> tuple[Driver, ...]:
        """Returns the tasks that were critical most often, at most so many, the first one most."""
        places = {code: place for place, code in enumerate(self.names)}
        shares = {code: share for code, share in self.runs.criticality.items() if share > 0}
        ordered = sorted(shares, key=lambda code: (-shares[code], places[code]))
        return tuple(Driver(code, self.names[code], shares[code]) for code in ordered[:most])

    @property
    def scope(self) -> str:
        """Returns how many tasks have three estimates, if not all have."""
        known, tasks = self.runs.uncertain, self.runs.tasks
        if known == tasks:
            return ""
        return (
            f"{known} of {tasks} tasks have estimates that differ; the others count as certain,"
            " so the end is less sure than this."
        )


def sureness(
    work: Work, durations: Mapping[str, int] | None = None, has_drivers: bool = True
) -> Sureness | None:
    """Returns how sure the end of the work is, or None if no estimates of it differ.

    `durations` are those of a schedule by activity; without them nothing is shortened. Without
    `has_drivers` there are no drivers, and half the work.
    """
    tasks = work.side.tasks
    runs = simulate(work.network, [task.parts for task in tasks], durations, has_drivers)
    if runs is None:
        return None
    return Sureness(runs, work.clock, {task.code: task.name or task.code for task in tasks})


def percent_text(chance: Fraction) -> str:
    """Returns a chance in whole per cent; none that is in doubt is called certain or impossible."""
    if 0 < chance < Fraction(1, 100):
        return "under 1 %"
    if Fraction(99, 100) < chance < 1:
        return "over 99 %"
    return f"{round(chance * 100)} %"
