"""What the JSON of `pert-compare` has of a history: its figures, without the states themselves."""

from dataclasses import dataclass
from datetime import date

from pert_companion.analysis.changes import Change, Restated
from pert_companion.analysis.compare import (
    Comparison,
    CriticalChange,
    CurveRow,
    FloatChange,
    History,
    StateFigures,
)
from pert_companion.analysis.earned_value import EarnedValue
from pert_companion.analysis.renaming import Renaming
from pert_companion.analysis.restated_money import CreditNote


@dataclass(frozen=True)
class StateSummary:
    """The figures of one state."""

    name: str
    data_date: date
    end: date
    """The last day of work, forecast by what is left."""
    left_minutes: int
    day_minutes: int
    critical: tuple[str, ...]
    budget: int
    actual: int
    to_go: int
    latest: int
    value: int
    directed: date | None
    recovery_cost: int | None
    earned: EarnedValue | None
    """By the baseline that was in force."""
    by_newest: EarnedValue | None
    """By the newest baseline, if that is another one."""


@dataclass(frozen=True)
class ComparisonSummary:
    """What changed from one state to the next."""

    old: str
    new: str
    end_moved_minutes: int
    joined: tuple[CriticalChange, ...]
    left: tuple[CriticalChange, ...]
    changes: tuple[Change, ...]
    restated: tuple[Restated, ...]
    credits: tuple[CreditNote, ...]
    renamed: tuple[Renaming, ...]
    slack_used: tuple[FloatChange, ...]
    curves: tuple[CurveRow, ...]


@dataclass(frozen=True)
class HistorySummary:
    """The states of a project and what changed between them."""

    baselines: tuple[str, ...]
    states: tuple[StateSummary, ...]
    comparisons: tuple[ComparisonSummary, ...]


def summary_of(history: History) -> HistorySummary:
    """Returns what the JSON has of a history."""
    return HistorySummary(
        history.baselines,
        tuple(_state(state) for state in history.states),
        tuple(_comparison(comparison) for comparison in history.comparisons),
    )


def _state(figures: StateFigures) -> StateSummary:
    return StateSummary(
        name=figures.name,
        data_date=figures.data_day,
        end=figures.end,
        left_minutes=figures.left_minutes,
        day_minutes=figures.day_minutes,
        critical=figures.critical,
        budget=figures.budget,
        actual=figures.actual,
        to_go=figures.to_go,
        latest=figures.latest,
        value=figures.value,
        directed=figures.directed,
        recovery_cost=figures.recovery_cost,
        earned=figures.earned,
        by_newest=figures.by_newest,
    )


def _comparison(comparison: Comparison) -> ComparisonSummary:
    return ComparisonSummary(
        old=comparison.old.name,
        new=comparison.new.name,
        end_moved_minutes=comparison.end_moved_minutes,
        joined=comparison.joined,
        left=comparison.left,
        changes=comparison.changes,
        restated=comparison.restated,
        credits=comparison.credits,
        renamed=comparison.renamed,
        slack_used=comparison.slack_used,
        curves=comparison.curves,
    )
