"""Options that several commands have, and their types; a wrong word is an error of `argparse`."""

import argparse
from datetime import date
from enum import Enum
from typing import TypeVar

from pert_companion.model.strict import FIRST_YEAR, LAST_YEAR, parse_day

Kind = TypeVar("Kind", bound=Enum)


def day_word(word: str) -> date:
    """Returns a date of the years of decks that is written as YYYY-MM-DD."""
    day = parse_day(word)
    if day is None:
        raise argparse.ArgumentTypeError(f"{word!r} is no date such as 2026-09-01")
    if not FIRST_YEAR <= day.year <= LAST_YEAR:
        raise argparse.ArgumentTypeError(
            f"{word!r} is no date from {FIRST_YEAR}-01-01 to {LAST_YEAR}-12-31"
        )
    return day


def kind_word(word: str, kinds: type[Kind]) -> Kind:
    """Returns the kind that a word such as `deadline` names."""
    try:
        return kinds(word.strip().lower())
    except ValueError:
        known = ", ".join(kind.value for kind in kinds)
        raise argparse.ArgumentTypeError(f"{word.strip()!r} is none of {known}") from None


def add_cell_options(command: argparse.ArgumentParser, sheet: str) -> None:
    """Adds the options that say how the cells of a list are read; `sheet` is the help of one."""
    command.add_argument("--sheet", default="", help=sheet)
    command.add_argument("--decimal", choices=(".", ","), default="", help="the decimal mark")
    command.add_argument("--encoding", default="", metavar="NAME", help="the character set")
    which = command.add_mutually_exclusive_group()
    which.add_argument(
        "--day-first", action="store_true", default=None, help="03/04/2026 is 3 April"
    )
    which.add_argument(
        "--month-first",
        action="store_false",
        dest="day_first",
        help="03/04/2026 is 4 March",
    )
