"""What the JSON of `pert-schedule --forecast` has: the forecast without the schedule behind it."""

from collections.abc import Sequence
from dataclasses import dataclass
from datetime import date

from pert_companion.analysis.forecast import Forecast, ForecastTask


@dataclass(frozen=True)
class ForecastSummary:
    """The end of the work that is left, and unfinished tasks with their dates."""

    title: str
    code: str
    as_of: date
    data_date: date
    end: date
    """The last day of work by what is left of each task."""
    listed_end: date | None
    baseline_end: date | None
    value_end: date
    """The last day of work by the forecast of `pert value`."""
    why_different: str
    unit_minutes: int
    day_minutes: int
    tasks: tuple[ForecastTask, ...]
    """Those that the options choose, in their order."""
    notes: tuple[str, ...]
    """The assumptions on remaining durations."""


def summary_of(found: Forecast, tasks: Sequence[ForecastTask]) -> ForecastSummary:
    """Returns what the JSON has of a forecast, with some of its tasks."""
    return ForecastSummary(
        title=found.title,
        code=found.code,
        as_of=found.as_of,
        data_date=found.data_day,
        end=found.end,
        listed_end=found.listed_end,
        baseline_end=found.baseline_end,
        value_end=found.value_end,
        why_different=found.why_different,
        unit_minutes=found.unit_minutes,
        day_minutes=found.day_minutes,
        tasks=tuple(tasks),
        notes=found.notes,
    )
