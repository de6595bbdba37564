"""Writes a forecast as a table for people, and as CSV."""

from collections.abc import Sequence
from datetime import date

from pert_companion.analysis.forecast import Forecast, ForecastTask
from pert_companion.model.figures import NOTHING, days_text
from pert_companion.model.lines import csv_bytes
from pert_companion.model.text_form import TextForm
from pert_companion.writers.aligned import aligned
from pert_companion.writers.formula import plain_text

HEADINGS = (
    "Code",
    "State",
    "Days left",
    "Start",
    "Finish",
    "Listed finish",
    "Baseline finish",
    "Days behind list",
    "Days behind baseline",
    "Float days",
    "Name",
)
"""The columns of text, in capitals there: some of those of CSV."""
RIGHT = "llrllllrrrl"
CSV_HEADINGS = (
    "Row",
    "Code",
    "Id",
    "Outline",
    "Name",
    "State",
    "Days left",
    "Start",
    "Finish",
    "Listed start",
    "Listed finish",
    "Baseline start",
    "Baseline finish",
    "Days behind list",
    "Days behind baseline",
    "Float days",
    "Critical",
)


def to_text(forecast: Forecast, tasks: Sequence[ForecastTask], on_terminal: bool = False) -> str:
    """Returns the ends, the assumptions, and a row for each of the tasks, in the order given.

    Days behind the list are left out if there is a baseline, as are columns without anything known.
    """
    lines = [f"FORECAST {forecast.code} {forecast.data_day}"]
    lines.extend(_ends(forecast))
    form = TextForm(on_terminal)
    lines.extend(_table([_row(task, forecast, form) for task in tasks]))
    return "".join(f"{line}\n" for line in lines)


def _table(rows: Sequence[tuple[str, ...]]) -> list[str]:
    """Returns the table without the columns that have hyphens alone."""
    kept = []
    for at in range(len(HEADINGS)):
        if any(row[at] != NOTHING for row in rows):
            kept.append(at)
    headings = [HEADINGS[at].upper() for at in kept]
    chosen = []
    for row in rows:
        chosen.append([row[at] for at in kept])
    return aligned(headings, chosen, "".join(RIGHT[at] for at in kept))


def _ends(forecast: Forecast) -> list[str]:
    lines = [f"END {forecast.end}, by what is left of each task"]
    if forecast.listed_end is not None:
        lines.append(f"LISTED {forecast.listed_end}, the latest finish of the list")
    if forecast.baseline_end is not None:
        lines.append(f"BASELINE {forecast.baseline_end}, the end of the baseline")
    lines.append(f"VALUE {forecast.value_end}, the forecast of pert value")
    if forecast.why_different:
        lines.extend(_wrapped(forecast.why_different))
    return lines


def _wrapped(text: str, width: int = 96) -> list[str]:
    lines = [""]
    for word in text.split(" "):
        if len(lines[-1]) + 1 + len(word) > width:
            lines.append("")
        lines[-1] = f"{lines[-1]} {word}".strip()
    return [f"  {line}" for line in lines]


def _row(task: ForecastTask, forecast: Forecast, form: TextForm) -> tuple[str, ...]:
    late = None if forecast.baseline_end is not None else task.listed_late_minutes
    slack = form.days(task.total_float_minutes, forecast.day_minutes)
    return (
        task.code,
        task.state.value,
        form.days(task.left_minutes, forecast.day_minutes),
        str(task.first_day),
        str(task.last_day),
        _day(task.listed_finish),
        _day(task.baseline_finish),
        form.signed_days(late, forecast.day_minutes),
        form.signed_days(task.baseline_late_minutes, forecast.day_minutes),
        f"{slack}*" if task.is_critical else slack,
        task.name or task.code,
    )


def _day(day: date | None) -> str:
    return NOTHING if day is None else str(day)


def to_csv(forecast: Forecast, tasks: Sequence[ForecastTask]) -> bytes:
    """Returns a row for each of the tasks as CSV in UTF-8; finishes are the last day of work."""
    rows = [_csv_cells(task, forecast.day_minutes) for task in tasks]
    return csv_bytes([CSV_HEADINGS, *rows])


def _csv_cells(task: ForecastTask, day_minutes: int) -> list[str]:
    days = (
        task.listed_start,
        task.listed_finish,
        task.baseline_start,
        task.baseline_finish,
    )
    lates = (task.listed_late_minutes, task.baseline_late_minutes)
    return [
        "" if task.row is None else str(task.row),
        task.code,
        plain_text(task.uid),
        plain_text(" / ".join(task.outline)),
        plain_text(task.name),
        task.state.value,
        days_text(task.left_minutes, day_minutes),
        str(task.first_day),
        str(task.last_day),
        *("" if day is None else str(day) for day in days),
        *("" if late is None else days_text(late, day_minutes) for late in lates),
        days_text(task.total_float_minutes, day_minutes),
        "yes" if task.is_critical else "no",
    ]
