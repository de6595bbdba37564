"""The results that commands write as JSON, and so the schema of each."""

from typing import Any

from pert_companion.analysis.loading import Loading
from pert_companion.analysis.money import MoneyOverTime
from pert_companion.analysis.performance import Line, Performance
from pert_companion.analysis.plausibility import Doubt
from pert_companion.analysis.schedule import Schedule
from pert_companion.analysis.time_phased import Month
from pert_companion.analysis.variances import Variance
from pert_companion.cli.outcomes import CheckOutcome, ExportOutcome, ReportOutcome
from pert_companion.importing.outcomes import ImportOutcome, LedgerOutcome
from pert_companion.model.days import DayCount
from pert_companion.portfolio.row import Row
from pert_companion.writers.chance_json import ChanceSummary
from pert_companion.writers.compare_json import HistorySummary
from pert_companion.writers.forecast_json import ForecastSummary
from pert_companion.writers.json_file import schema_of
from pert_companion.writers.remaining_json import RemainingSummary

RESULTS: dict[str, Any] = {
    "pert-compare": HistorySummary,
    "pert-compare --money": MoneyOverTime,
    "pert-compare --earned": Performance,
    "pert-compare --earned --lines structure": tuple[Line, ...],
    "pert-compare --earned --lines accounts": tuple[Line, ...],
    "pert-compare --earned --lines managers": tuple[Line, ...],
    "pert-compare --earned --lines totals": tuple[Line, ...],
    "pert-compare --earned --lines months": tuple[Month, ...],
    "pert-compare --earned --threshold": tuple[Variance, ...],
    "pert-check-status": tuple[Doubt, ...],
    "pert-schedule": Schedule,
    "pert-schedule --forecast": ForecastSummary,
    "pert-schedule --load": Loading,
    "pert-schedule --chance": ChanceSummary,
    "pert-remaining": RemainingSummary,
    "pert-days --count": DayCount,
    "pert-import": ImportOutcome,
    "pert-ledger": LedgerOutcome,
    "pert-portfolio": tuple[Row, ...],
    "pert-export": ExportOutcome,
    "pert-report": ReportOutcome,
    "pert-report --check": CheckOutcome,
}
"""The type of the result of each command with `--json`."""


def file_name(command: str) -> str:
    """Returns the name of a schema's file: `pert-compare-earned.json`."""
    return command.replace(" --", "-").replace(" ", "-") + ".json"


def schemas() -> dict[str, dict[str, Any]]:
    """Returns the schema of each command by the name of its file."""
    return {file_name(command): schema_of(command, kind) for command, kind in RESULTS.items()}
