"""`pert-days`: dates of a deck as counts of working time, and those of a report as days again."""

import argparse
import sys
from dataclasses import replace
from datetime import date
from pathlib import Path

from pert_companion.cli.common import CommandParser, message_form, output_form, say
from pert_companion.cli.words import day_word
from pert_companion.cli.writing import (
    add_output_options,
    check_deck,
    deck_outputs,
    outputs_of,
)
from pert_companion.model.days import Counts, DayCount, counted
from pert_companion.model.deck import Deck, read_deck
from pert_companion.model.errors import InputError, UsageError
from pert_companion.model.fitting import fitted_to
from pert_companion.model.output import SIDE_FILE, Output, Outputs
from pert_companion.model.sidefile import MAX_BYTES as MOST_SIDE
from pert_companion.model.sidefile import SideFile, as_of, from_json, side_path, to_json
from pert_companion.model.source import STANDARD_STREAM, read_bytes
from pert_companion.programs.client import Programs
from pert_companion.readers.calendar_files import calendar_of
from pert_companion.state.implied import implied_side_file
from pert_companion.state.project import ProjectState, open_state
from pert_companion.writers.json_file import result_text
from pert_companion.writers.report_dates import real_dates

NAME = "pert-days"
MAX_REPORT = 256 * 1024 * 1024
EXAMPLES = """\
  pert-days wing.csv | pert arrows | pert value         reports that count working time
  pert-days wing.csv | pert arrows | pert value | pert-days wing.csv --back
                                                        the same with days of the calendar
  pert-days wing.csv --count 2026-10-12                 how many units there are before that morning
  pert-days wing.csv --as-of 2026-10-10 -o later.csv    the deck as of that morning
  pert-days shed.csv --calendar --holidays days.txt     writes shed.json, the deck's calendar

A deck written by hand needs no side file: its calendar is then that of --weekdays and --holidays,
five days a week without them. --calendar makes a side file of it, which all commands use then.
A line of the file of holidays is a date or a range, and a name if you like:
  2026-12-24..2027-01-03 Christmas
"""


def parser() -> CommandParser:
    """Returns the parser of the command's words."""
    command = CommandParser(
        NAME,
        "Writes a deck whose dates are counts of working time, which pert needs if durations are"
        " working days or hours. A date is the morning of its day.",
        EXAMPLES,
    )
    command.add_argument("deck", type=Path, help="a deck with real dates, or - for standard input")
    which = command.add_mutually_exclusive_group()
    which.add_argument(
        "--back",
        action="store_true",
        help="write the report on standard input with real days",
    )
    which.add_argument(
        "--count",
        metavar="DATE",
        type=day_word,
        help="write the units before that morning",
    )
    which.add_argument(
        "--as-of",
        metavar="DATE",
        type=day_word,
        help="write the deck, with real dates, as of that morning: without later statuses",
    )
    which.add_argument(
        "--calendar",
        action="store_true",
        help="write the side file of a deck written by hand",
    )
    _add_calendar_options(command)
    add_output_options(command, "FILE", "the deck to write (default: to standard output)")
    command.add_argument("--json", action="store_true", help="with --count: print JSON")
    return command


def _add_calendar_options(command: CommandParser) -> None:
    """Adds the options that say which days are worked."""
    command.add_argument(
        "--weekdays", metavar="LIST", help="the days of work, as mon-fri or sun-thu,sat"
    )
    command.add_argument(
        "--holidays",
        metavar="FILE",
        type=Path,
        help="a file of days that are not worked",
    )
    command.add_argument(
        "--unit",
        choices=("days", "hours"),
        help="what the durations of the deck are counted in",
    )


def run(options: argparse.Namespace) -> int:
    """Does what the words say and returns the status."""
    if options.deck == STANDARD_STREAM and (options.back or options.calendar):
        raise UsageError("--back and --calendar need the name of the deck")
    if options.json and options.count is None:
        raise UsageError("--json goes with --count")
    outputs = outputs_of(options, [options.deck], [options.holidays])
    if options.calendar:
        return _write_calendar(options)
    check_deck(outputs, options.output)
    state = open_state(options.deck, Programs())
    side = _side_file(state, options)
    counts = Counts(side, state.deck.project.start_date)
    if options.count is not None:
        return _print_count(options.count, counts, options.json)
    if options.back:
        return _print_report(state, counts)
    if options.as_of is not None:
        return _write_as_of(state, options, outputs)
    outputs.write(*deck_outputs(options.output, counted(state.deck, side).to_bytes(), None))
    return 0


def _side_file(state: ProjectState, options: argparse.Namespace) -> SideFile:
    """Returns the side file of a deck, or one of the calendar that the words say."""
    words = (options.weekdays, options.holidays, options.unit)
    if not state.has_side_file:
        return _hand_made(state.deck, options)
    if any(word is not None for word in words):
        raise UsageError(
            f"{side_path(options.deck)} has the calendar; to change it, say --calendar too"
        )
    return state.side


def _hand_made(deck: Deck, options: argparse.Namespace) -> SideFile:
    """Returns the side file of a deck written by hand, with the calendar of the words."""
    weekdays = "mon-fri" if options.weekdays is None else options.weekdays
    calendar = calendar_of(weekdays, options.holidays)
    side = implied_side_file(deck, calendar)
    worked = sum(1 for shifts in calendar.week if shifts)
    if deck.project.unit_days > worked:
        raise InputError(
            f"a unit of the deck is {deck.project.unit_days} days and a week has {worked} working"
            " days, so this deck counts days of the calendar"
        )
    if options.unit != "hours":
        return side
    tasks = tuple(replace(task, minutes=task.normal * 60) for task in side.tasks)
    return replace(side, unit_minutes=60, tasks=tasks)


def _write_calendar(options: argparse.Namespace) -> int:
    """Writes the side file of a deck written by hand next to it."""
    path = side_path(options.deck)
    outputs = Outputs([options.deck, options.holidays], options.overwrite)
    outputs.check(path, SIDE_FILE)
    if path.exists() and not options.overwrite and _is_imported(path):
        raise InputError(f"{path}: pert-import wrote it; change the calendar in the plan instead")
    deck = read_deck(options.deck)
    side = fitted_to(replace(_hand_made(deck, options), deck_name=options.deck.name), deck)
    outputs.write(Output(path, SIDE_FILE, to_json(side)))
    free = len(side.calendar.exceptions)
    exceptions = "1 exception" if free == 1 else f"{free} exceptions"
    tasks = message_form().count(len(side.tasks))
    say(NAME, f"{path}: {side.calendar.name}, {exceptions}, {tasks} tasks")
    return 0


def _is_imported(path: Path) -> bool:
    """Says whether `pert-import` wrote a side file; one that is damaged counts as made by hand."""
    try:
        return bool(from_json(read_bytes(path, MOST_SIDE), str(path)).source)
    except InputError:
        return False


def _print_count(day: date, counts: Counts, is_json: bool) -> int:
    if day < counts.start:
        raise InputError(f"--count {day}: before the first day, {counts.start}")
    units = counts.count(day)
    if is_json:
        found = DayCount(day, counts.start, counts.side.unit_minutes, units)
        sys.stdout.write(result_text(f"{NAME} --count", counts.side, found))
    else:
        print(output_form().count(units))
    return 0


def _print_report(state: ProjectState, counts: Counts) -> int:
    """Writes the report on standard input with days of the calendar."""
    data = read_bytes(STANDARD_STREAM, MAX_REPORT)
    try:
        text = data.decode("utf-8")
    except UnicodeDecodeError as error:
        raise InputError(f"standard input: not in UTF-8 at byte {error.start + 1}") from None
    as_of = state.as_of
    report = real_dates(text, counts, as_of.isoformat(), counts.counted(as_of, as_of).isoformat())
    sys.stdout.buffer.write(report.encode())
    return 0


def _write_as_of(state: ProjectState, options: argparse.Namespace, outputs: Outputs) -> int:
    """Writes the deck as of another morning, and its side file if the deck has one."""
    day: date = options.as_of
    if day < state.deck.project.start_date:
        raise InputError(f"--as-of {day}: before the first day, {state.deck.project.start_date}")
    kept = tuple(card for card in state.deck.statuses if card.day <= day)
    deck = replace(state.deck, as_of=day, statuses=kept)
    side = None
    if state.has_side_file and options.output is not None:
        side = fitted_to(replace(as_of(state.side, day), deck_name=options.output.name), deck)
    outputs.write(*deck_outputs(options.output, deck.to_bytes(), side))
    return 0
