"""The options with which commands choose a length and find the programs."""

import argparse
from decimal import Decimal
from pathlib import Path

from pert_companion.analysis.lengths import LengthChoice
from pert_companion.analysis.schedule import Schedule
from pert_companion.analysis.scheduling import plan_schedule, rest_schedule
from pert_companion.cli.words import day_word
from pert_companion.model.source import read_bytes, shown_name
from pert_companion.programs.client import Programs
from pert_companion.state.project import ProjectState
from pert_companion.state.remaining import Said, read_left

MOST_LEFT = 16 * 1024 * 1024
"""The bytes that a list of what is left may have."""


def add_length_options(command: argparse.ArgumentParser, prefers_optimum: bool = False) -> None:
    """Adds `--length`, `--by`, `--optimum`, `--normal` and `--bin`.

    `prefers_optimum` says that, without any of them, the command takes the optimum if the deck has
    TERMS; other commands take normal durations.
    """
    cheapest = "cheapest with the price of time (TERMS)"
    normal = "normal durations (the default)"
    if prefers_optimum:
        cheapest = "cheapest with the price of time (the default if the deck has TERMS)"
        normal = "normal durations (the default if the deck has no TERMS)"
    which = command.add_mutually_exclusive_group()
    which.add_argument(
        "--length", metavar="DAYS", type=length_word, help="cheapest for so many days, as 82.5"
    )
    which.add_argument(
        "--by", metavar="DATE", type=day_word, help="cheapest that ends by this day, as 2026-09-30"
    )
    which.add_argument("--optimum", action="store_true", help=cheapest)
    which.add_argument("--normal", action="store_true", help=normal)
    add_bin_option(command)


def add_plan_option(command: argparse.ArgumentParser) -> None:
    """Adds `--plan`."""
    command.add_argument(
        "--plan", action="store_true", help="the plan of the first day, not what is left of it"
    )


def add_bin_option(command: argparse.ArgumentParser) -> None:
    """Adds `--bin`."""
    command.add_argument(
        "--bin",
        metavar="DIR",
        type=Path,
        help="folder of pert, pert_check and pert_whatif",
    )


def length_word(word: str) -> Decimal:
    """Returns a length in days."""
    whole, _, part = word.partition(".")
    digits = whole + part
    if not (digits.isascii() and digits.isdigit() and whole and len(digits) <= 15):
        raise argparse.ArgumentTypeError(f"{word!r} is no length in days such as 76 or 82.5")
    return Decimal(word)


def programs_of(options: argparse.Namespace) -> Programs:
    """Returns the programs that `--bin` names, or those of the usual places."""
    return Programs(options.bin)


def said_left(path: Path | None) -> dict[str, Said]:
    """Returns what a list of what is left says, or nothing if there is none."""
    if path is None:
        return {}
    return read_left(read_bytes(path, MOST_LEFT), shown_name(path))


def length_choice(options: argparse.Namespace) -> LengthChoice:
    """Returns the length that the options choose."""
    return LengthChoice(options.length, options.by, options.optimum)


def schedule_of_options(
    state: ProjectState, options: argparse.Namespace, on_terminal: bool
) -> Schedule:
    """Returns the schedule that the options choose: of what is left, or of the plan.

    `on_terminal` says whether its texts are for a terminal.
    """
    if options.plan:
        return plan_schedule(state, length_choice(options), on_terminal)
    return rest_schedule(state, length_choice(options), on_terminal)
