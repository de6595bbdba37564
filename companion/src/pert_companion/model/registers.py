"""What a project keeps next to its decks: rules of packages, changes, renames, explanations.

They are tables that people write, found by name: `wing.packages.csv` for the deck `wing.csv`, or
else `packages.csv` in its folder, which all states of a project share.
"""

from collections.abc import Iterable, Mapping
from dataclasses import dataclass, field
from datetime import date
from decimal import Decimal
from enum import Enum
from functools import cached_property


class Technique(Enum):
    """How the work of a package is measured (ANSI/EIA-748; PMI, Practice Standard for EVM)."""

    PERCENT = "percent"
    """Percent complete of each task: the usual one."""
    AT_FINISH = "0/100"
    """A task earns its cost when it is finished."""
    HALVES = "50/50"
    """A task earns half of its cost when it starts and half when it is finished."""
    MILESTONES = "milestones"
    """The package earns the weight of each milestone that is reached."""
    EFFORT = "loe"
    """Level of effort: it earns what was planned, whatever was done."""
    APPORTIONED = "apportioned"
    """It earns the same share of its budget as another package."""
    UNDISTRIBUTED = "undistributed"
    """Budget of the baseline that no package has yet: it has no dates and earns nothing."""
    RESERVE = "reserve"
    """Management reserve: in no baseline."""

    @property
    def is_budget_alone(self) -> bool:
        """Says whether this is money without work."""
        return self in (Technique.UNDISTRIBUTED, Technique.RESERVE)


@dataclass(frozen=True)
class PackageRule:
    """How a package is measured and who answers for it."""

    item: str
    technique: Technique = Technique.PERCENT
    manager: str = ""
    weights: tuple[tuple[str, int], ...] = ()
    """The codes of milestones with their shares of 100, for `milestones`."""
    base: str = ""
    """The package that an apportioned one follows."""
    budget: Decimal | None = None
    """In the currency; for packages that no account of the deck has."""
    start: date | None = None
    finish: date | None = None
    """The first and the last day of level of effort; those of the project without them."""
    title: str = ""
    place: str = ""
    """The file without its folders and the row, for messages."""


@dataclass(frozen=True)
class BudgetChange:
    """One row of the change log: budget that moved, and who approved it."""

    day: date
    source: str
    """The package it came from, `reserve`, `undistributed`, or empty for new money."""
    target: str
    """The package it went to, `reserve`, `undistributed`, or empty for money given back."""
    amount: Decimal
    """In the currency."""
    reason: str = ""
    approved: str = ""
    place: str = ""


@dataclass(frozen=True)
class Rename:
    """A task, account or item that has another code now."""

    old: str
    new: str


@dataclass(frozen=True)
class Renames:
    """The renames of a project, which may follow one another."""

    rows: tuple[Rename, ...] = ()

    @cached_property
    def _before(self) -> Mapping[str, list[str]]:
        found: dict[str, list[str]] = {}
        for row in self.rows:
            found.setdefault(row.new, []).append(row.old)
        return found

    def former(self, code: str) -> tuple[str, ...]:
        """Returns the codes that something had before, the latest first; without its own."""
        found: list[str] = []
        waiting = [code]
        while waiting:
            for old in self._before.get(waiting.pop(0), []):
                if old != code and old not in found:
                    found.append(old)
                    waiting.append(old)
        return tuple(found)

    def later(self, code: str) -> tuple[str, ...]:
        """Returns the codes that something got afterwards, the next one first; without its own."""
        after = {row.old: row.new for row in self.rows}
        found: list[str] = []
        while after.get(code) is not None and after[code] not in (*found, code):
            code = after[code]
            found.append(code)
        return tuple(found)

    def others(self, code: str) -> tuple[str, ...]:
        """Returns all codes that something had before or got afterwards."""
        return (*self.former(code), *self.later(code))

    def names_of(self, codes: Iterable[str]) -> dict[str, str]:
        """Returns the code in a state, whose codes these are, for each code of any state.

        Where two have had a code, the one that has it in the state keeps it.
        """
        listed = list(codes)
        found: dict[str, str] = {}
        for code in listed:
            for other in self.others(code):
                found.setdefault(other, code)
        found.update({code: code for code in listed})
        return found


@dataclass(frozen=True)
class Explanation:
    """Why a figure is what it is, as somebody wrote it down."""

    day: date
    """The data date of the report that it is for."""
    item: str
    figure: str
    """`SV`, `CV` or `VAC`."""
    cause: str
    action: str = ""
    place: str = ""


@dataclass(frozen=True)
class Registers:
    """All tables next to a deck."""

    packages: tuple[PackageRule, ...] = ()
    changes: tuple[BudgetChange, ...] = ()
    renames: Renames = Renames()
    explanations: tuple[Explanation, ...] = ()
    notes: tuple[str, ...] = field(default=(), compare=False)

    @cached_property
    def rules(self) -> Mapping[str, PackageRule]:
        """Returns the rule of each package that has one, by item."""
        return {rule.item: rule for rule in self.packages}
