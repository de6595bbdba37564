"""What `pert-compare --earned` shows: earned value by package, account, manager or month."""

import argparse
import sys
from collections.abc import Sequence
from decimal import Decimal
from pathlib import Path

from pert_companion.analysis.budgets import changes_until
from pert_companion.analysis.compare import in_force
from pert_companion.analysis.performance import Line, Performance, performance
from pert_companion.analysis.time_phased import time_phased
from pert_companion.analysis.variances import Threshold, Variance, variances
from pert_companion.cli.common import output_form
from pert_companion.cli.writing import is_file
from pert_companion.model.errors import UsageError
from pert_companion.model.output import WORKBOOK, Output, Outputs
from pert_companion.model.sidefile import side_path
from pert_companion.state.project import ProjectState
from pert_companion.writers import earned_text, performance_text
from pert_companion.writers.contract_reports import ContractReport
from pert_companion.writers.contract_reports import to_xlsx as to_formats
from pert_companion.writers.json_file import result_text
from pert_companion.writers.performance_xlsx import PerformanceBook, to_xlsx
from pert_companion.writers.text import shown

COMMAND = "pert-compare --earned"
LINES = ("structure", "accounts", "managers", "totals", "months")


def add_earned_options(command: argparse.ArgumentParser) -> None:
    """Adds the options that go with `--earned`."""
    command.add_argument(
        "--lines",
        choices=LINES,
        help="with --earned: lines by these, instead of packages",
    )
    command.add_argument(
        "--threshold",
        metavar="PERCENT,AMOUNT",
        type=threshold_word,
        help="with --earned: explain variances of items or --lines from here on, as 10%%,50000",
    )
    command.add_argument(
        "-o",
        "--output",
        metavar="XLSX",
        type=Path,
        help="with --earned: write a workbook; with --threshold, the contract reports",
    )
    command.add_argument("--overwrite", action="store_true", help="replace a file of another kind")


def threshold_word(word: str) -> Threshold:
    """Returns the threshold of a word such as `10%,50000`, `10%` or `50000`."""
    percent = amount = None
    for part in word.split(","):
        number = part.strip().removesuffix("%")
        plain = number.replace(".", "", 1)
        if not (plain.isascii() and plain.isdigit() and len(plain) <= 13):
            raise argparse.ArgumentTypeError(f"{word!r} is no threshold such as 10%,50000")
        if part.strip().endswith("%"):
            percent = Decimal(number)
        else:
            amount = Decimal(number)
    return Threshold(percent, amount)


def check_earned_options(options: argparse.Namespace) -> None:
    """Raises `UsageError` if options of `--earned` stand without it."""
    given = (options.lines, options.threshold, options.output)
    if not options.earned and any(value is not None for value in given):
        raise UsageError("--lines, --threshold and --output go with --earned")
    if options.lines == "months" and options.threshold is not None:
        raise UsageError("--threshold goes with lines that have variances, not with months")
    if options.output is not None and is_file(options.output):
        if options.output.suffix.lower() != ".xlsx":
            raise UsageError(f"{options.output}: the name has to end with .xlsx")


def show_earned(
    options: argparse.Namespace,
    states: Sequence[ProjectState],
    baselines: Sequence[ProjectState],
) -> None:
    """Prints the earned value of the last state, or writes it as a workbook."""
    current = states[-1]
    baseline = in_force(current, baselines)
    begun = [state for state in states[:-1] if state.has_begun]
    found = performance(current, baseline, begun[-1] if begun else None)
    if options.output is not None:
        _write(options, states, baselines, found)
    elif options.lines == "months":
        sys.stdout.write(_months(options, states, baselines))
    elif options.threshold is not None:
        sys.stdout.write(_variances(options, current, found))
    elif options.lines is not None:
        sys.stdout.write(_lines(options, current, baseline, found))
    else:
        sys.stdout.write(_packages(options, current, baseline, found))


def _heading(what: str, current: ProjectState, baseline: ProjectState) -> str:
    code = current.deck.project.code
    return shown(f"{what} {code} {current.data_day}, baseline {baseline.name}")


def _json(result: object, current: ProjectState, words: str = "") -> str:
    return result_text(f"{COMMAND} {words}".strip(), current.side, result)


def _packages(
    options: argparse.Namespace,
    current: ProjectState,
    baseline: ProjectState,
    found: Performance,
) -> str:
    scale = current.side.money_scale
    if options.csv:
        return earned_text.to_csv(found.earned, scale).decode()
    if options.json:
        return _json(found, current)
    value = current.plan.value.items[current.plan.top].value
    heading = _heading("EARNED VALUE", current, baseline)
    day = current.side.calendar.day_minutes
    return earned_text.to_text(found.earned, heading, day, value, output_form(scale))


def _lines(
    options: argparse.Namespace,
    current: ProjectState,
    baseline: ProjectState,
    found: Performance,
) -> str:
    lines: tuple[Line, ...] = getattr(found, options.lines)
    scale = current.side.money_scale
    if options.csv:
        return performance_text.to_csv(lines, scale).decode()
    if options.json:
        return _json(lines, current, f"--lines {options.lines}")
    heading = _heading(f"EARNED VALUE by {options.lines}", current, baseline)
    return performance_text.to_text(lines, heading, output_form(scale))


def _months(
    options: argparse.Namespace,
    states: Sequence[ProjectState],
    baselines: Sequence[ProjectState],
) -> str:
    current = states[-1]
    months, scale = time_phased(states, baselines), current.side.money_scale
    if options.csv:
        return performance_text.months_to_csv(months, scale).decode()
    if options.json:
        return _json(months, current, "--lines months")
    baseline = in_force(current, baselines)
    heading = _heading("EARNED VALUE by account and month", current, baseline)
    return performance_text.months_to_text(months, heading, output_form(scale))


def _variances_of(
    options: argparse.Namespace, current: ProjectState, found: Performance
) -> tuple[Variance, ...]:
    lines: tuple[Line, ...] = getattr(found, options.lines or "structure")
    return variances(
        lines,
        options.threshold or Threshold(),
        current.registers.explanations,
        current.data_day,
        current.side.money_scale,
    )


def _variances(options: argparse.Namespace, current: ProjectState, found: Performance) -> str:
    listed = _variances_of(options, current, found)
    scale = current.side.money_scale
    if options.json:
        return _json(listed, current, "--threshold")
    if options.csv:
        return performance_text.variances_to_csv(listed, scale).decode()
    heading = shown(f"VARIANCES {current.deck.project.code} {current.data_day}")
    return performance_text.variances_to_text(listed, heading, output_form(scale))


def _write(
    options: argparse.Namespace,
    states: Sequence[ProjectState],
    baselines: Sequence[ProjectState],
    found: Performance,
) -> None:
    """Writes the workbook of earned value, or that of the contract reports."""
    current = states[-1]
    baseline = in_force(current, baselines)
    months, scale = time_phased(states, baselines), current.side.money_scale
    changes = changes_until(current, baseline)
    if options.threshold is None:
        data = to_xlsx(PerformanceBook(found, months, changes, scale))
    else:
        before = [state for state in states[:-1] if state.has_begun]
        since = before[-1] if before else baseline
        report = ContractReport(
            current.deck.project.title or current.deck.project.code,
            current.data_day,
            found,
            months,
            _variances_of(options, current, found),
            changes_until(current, since),
            scale,
            current.side.currency,
        )
        data = to_formats(report)
    read = [state.path for state in (*states, *baselines)]
    outputs = Outputs([*read, *map(side_path, read)], options.overwrite)
    outputs.write(Output(options.output, WORKBOOK, data))
