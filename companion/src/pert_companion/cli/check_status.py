"""`pert-check-status`: what of a state is hard to believe, before it is reported."""

import argparse
import sys
from pathlib import Path

from pert_companion.analysis.plausibility import Doubt, doubts
from pert_companion.cli.choosing import add_bin_option, programs_of
from pert_companion.cli.common import CommandParser
from pert_companion.cli.opening import opened
from pert_companion.state.project import ProjectState
from pert_companion.writers import doubts_text
from pert_companion.writers.json_file import result_text
from pert_companion.writers.text import shown

NAME = "pert-check-status"
EXAMPLES = """\
  pert-check-status april.csv                       what of April is hard to believe
  pert-check-status april.csv --previous march.csv  and what did not move since March
  pert-check-status months                          the last state of a folder, with the one before
  pert-check-status april.csv --baseline plan.csv   and budgets that changes.csv does not explain
  pert-check-status april.csv --strict              status 1 if there is anything"""


def parser() -> CommandParser:
    """Returns the parser of the command's words."""
    command = CommandParser(
        NAME,
        "Names what of a state is hard to believe, by row, figure and effect on the estimate.",
        EXAMPLES,
    )
    command.add_argument("deck", type=Path, help="a deck, or a folder of decks")
    command.add_argument(
        "--previous",
        metavar="DECK",
        type=Path,
        help="the state before (default: in the folder)",
    )
    command.add_argument(
        "--baseline",
        metavar="DECK",
        type=Path,
        help="the plan whose budgets are compared",
    )
    command.add_argument("--strict", action="store_true", help="status 1 if there is anything")
    which = command.add_mutually_exclusive_group()
    which.add_argument("--csv", action="store_true", help="print CSV instead of text")
    which.add_argument("--json", action="store_true", help="print JSON instead of text")
    add_bin_option(command)
    return command


def run(options: argparse.Namespace) -> int:
    """Prints what is found and returns the status."""
    programs = programs_of(options)
    states = opened([options.deck], programs)
    previous = states[-2] if len(states) > 1 else None
    baseline = states[0] if len(states) > 1 else None
    if options.previous is not None:
        previous = opened([options.previous], programs)[-1]
    if options.baseline is not None:
        baseline = opened([options.baseline], programs)[-1]
    state = states[-1]
    is_shown = sys.stdout.isatty() and not (options.csv or options.json)
    found = doubts(state, previous, baseline, is_shown)
    sys.stdout.write(_text(state, found, options))
    return 1 if options.strict and found else 0


def _text(state: ProjectState, found: tuple[Doubt, ...], options: argparse.Namespace) -> str:
    side = state.side
    if options.csv:
        return doubts_text.to_csv(found, side.money_scale).decode()
    if options.json:
        return result_text(NAME, side, found)
    heading = shown(f"STATUS {state.deck.project.code} {state.data_day}")
    return doubts_text.to_text(found, heading)
