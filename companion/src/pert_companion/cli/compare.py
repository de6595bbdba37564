"""`pert-compare`: what changed from one state of a project to the next."""

import argparse
import sys
from pathlib import Path

from pert_companion.analysis.compare import baselines_of, compare, in_force
from pert_companion.analysis.money import money
from pert_companion.cli.choosing import add_bin_option, programs_of, said_left
from pert_companion.cli.common import CommandParser, say
from pert_companion.cli.earned import (
    add_earned_options,
    check_earned_options,
    show_earned,
)
from pert_companion.cli.opening import opened
from pert_companion.cli.words import day_word
from pert_companion.model.errors import UsageError
from pert_companion.state.project import ProjectState
from pert_companion.writers import compare_csv, compare_text, money_text
from pert_companion.writers.compare_json import summary_of
from pert_companion.writers.json_file import Document, to_json
from pert_companion.writers.text import shown

NAME = "pert-compare"
EXAMPLES = """\
  pert-compare march.csv april.csv          what changed from March to April
  pert-compare months                       a folder of decks, one for each data date
  pert-compare months --by 2026-06-10       and what ending on this day costs
  pert-compare months --earned              earned value of the last state, by package
  pert-compare months --earned --lines accounts  by account; or structure, managers, totals, months
  pert-compare months --earned -o value.xlsx    all of it as a workbook
  pert-compare months --earned --threshold 10%,50000 -o report.xlsx
                                            the contract reports: formats 1, 3 and 5
  pert-compare april.csv --money --csv      planned, spent and forecast money by day
  pert-compare april.csv may.csv --baseline plan.csv"""


def parser() -> CommandParser:
    """Returns the parser of the command's words."""
    command = CommandParser(
        NAME, "Compares states of one project: decks with their side files.", EXAMPLES
    )
    command.add_argument(
        "states",
        nargs="+",
        type=Path,
        metavar="STATE",
        help="decks in the order of their as-of dates, or a folder of decks",
    )
    command.add_argument(
        "--baseline",
        type=Path,
        metavar="DECK",
        action="append",
        default=[],
        help="the plan to measure by (default: the first state); further ones replaced it",
    )
    command.add_argument(
        "--left",
        type=Path,
        metavar="FILE",
        help="rows activity,left[,crash] for the last state",
    )
    command.add_argument(
        "--by",
        type=day_word,
        metavar="DATE",
        help="the last day to end on, and what that costs (default: the directed end of the deck)",
    )
    _add_forms(command)
    add_earned_options(command)
    add_bin_option(command)
    return command


def _add_forms(command: CommandParser) -> None:
    """Adds the options for what is printed, and how."""
    what = command.add_mutually_exclusive_group()
    what.add_argument("--earned", action="store_true", help="earned value of the last state")
    what.add_argument("--money", action="store_true", help="money over time of the last state")
    form = command.add_mutually_exclusive_group()
    form.add_argument("--csv", action="store_true", help="print CSV instead of text")
    form.add_argument("--json", action="store_true", help="print JSON instead of text")


def run(options: argparse.Namespace) -> int:
    """Prints what is asked for and returns the status."""
    check_earned_options(options)
    programs = programs_of(options)
    states = opened(options.states, programs)
    states[-1] = states[-1].with_said(said_left(options.left))
    named = opened(options.baseline, programs)
    if options.money:
        sys.stdout.write(_money(options, states, named))
        return 0
    if options.earned:
        show_earned(options, states, baselines_of(states, None, named))
        return 0
    if len(states) == 1 and not named:
        raise UsageError("one state alone: name two, a folder, or --baseline")
    sys.stdout.write(_history(options, states, named))
    return 0


def _history(
    options: argparse.Namespace, states: list[ProjectState], named: list[ProjectState]
) -> str:
    is_shown = sys.stdout.isatty() and not (options.csv or options.json)
    history = compare(states, None, options.by, named, is_shown)
    for note in history.states[-1].forecast.notes:
        say(NAME, note)
    if options.csv:
        return compare_csv.to_csv(history).decode()
    if options.json:
        result = summary_of(history)
        document = Document(NAME, history.money_scale, history.currency, result)
        return to_json(document).decode()
    return compare_text.to_text(history, is_shown)


def _money(
    options: argparse.Namespace, states: list[ProjectState], named: list[ProjectState]
) -> str:
    last = states[-1]
    first = in_force(last, baselines_of(states, None, named))
    found = money(last, first, states[:-1])
    if options.csv:
        return money_text.to_csv(found).decode()
    if options.json:
        document = Document(f"{NAME} --money", found.money_scale, found.currency, found)
        return to_json(document).decode()
    heading = shown(f"MONEY {last.deck.project.code} {last.data_day}, baseline {first.name}")
    return money_text.to_text(found, heading, sys.stdout.isatty())
