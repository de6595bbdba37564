"""`pert-export`: a schedule as a file for a planner, a spreadsheet or a calendar."""

import argparse
import sys
from collections.abc import Sequence
from dataclasses import dataclass
from pathlib import Path

from pert_companion.analysis.schedule import Schedule
from pert_companion.cli.choosing import (
    add_length_options,
    add_plan_option,
    length_choice,
    programs_of,
    schedule_of_options,
)
from pert_companion.cli.common import CommandParser, message_form, say
from pert_companion.cli.opening import with_tables
from pert_companion.cli.outcomes import ExportOutcome
from pert_companion.cli.writing import (
    add_output_options,
    check_json,
    is_file,
    named,
    outputs_of,
)
from pert_companion.importing.conversion import MAX_BYTES
from pert_companion.model.errors import InputError, UsageError
from pert_companion.model.output import Output
from pert_companion.model.source import Source, read_bytes
from pert_companion.readers import detect
from pert_companion.state.project import ProjectState, open_state
from pert_companion.writers.exporting import FORMATS, about_new_file, new_file
from pert_companion.writers.into import WAYS_BACK, WayBack
from pert_companion.writers.json_file import result_text

NAME = "pert-export"
EXAMPLES = """\
  pert-export wing.csv --length 76 -o wing-76.xlsx          a workbook: schedule, curve, reports
  pert-export wing.csv --by 2026-09-30 -o wing.ics          what ends by a day, as a calendar
  pert-export wing.csv --optimum -o wing.xml                a file for MS Project
  pert-export wing.csv --length 76 --into plan.xer -o new.xer    the plan it came from, in 76 days
  pert-export wing.csv --normal -o wing.ics                 a calendar file"""


def parser() -> CommandParser:
    """Returns the parser of the command's words."""
    command = CommandParser(
        NAME,
        "Writes the schedule of a deck as .xml (MS Project), .xlsx, .csv or .ics.",
        EXAMPLES,
    )
    command.add_argument("deck", type=Path, help="a deck or a deck of tasks")
    add_length_options(command)
    add_plan_option(command)
    add_output_options(command, "FILE", "the file to write", required=True)
    command.add_argument(
        "--format",
        choices=[ending.removeprefix(".") for ending in FORMATS],
        help="what to write (default: by the ending of the name, and csv to standard output)",
    )
    command.add_argument(
        "--into",
        metavar="ORIGINAL",
        type=Path,
        help="the planner's file that the deck came from: its durations and dates are changed",
    )
    command.add_argument("--json", action="store_true", help="print what was written as JSON")
    return command


def run(options: argparse.Namespace) -> int:
    """Writes the file and returns the status: 1 if a task of the deck is not in the original."""
    check_json(options, "the file")
    ending = _ending(options)
    original = None if options.into is None else _original(options, ending)
    kind = FORMATS[ending] if original is None else original.way.kind
    written = ending if original is None else original.way.ending
    outputs = outputs_of(options, [options.deck], [options.into])
    outputs.check(options.output, kind)
    state = with_tables(open_state(options.deck, programs_of(options)))
    schedule = schedule_of_options(state, options, message_form().on_terminal)
    missing: list[str] = []
    if original is None:
        data = new_file(ending, state, schedule, length_choice(options))
    else:
        data, missing = _into(state, original, schedule)
    outputs.write(Output(options.output, kind, data))
    lines = list(missing)
    if original is None:
        lines.extend(about_new_file(ending, state, schedule))
    for line in lines:
        say(NAME, line)
    if schedule.counting:
        say(NAME, f"note: {schedule.counting}")
    tasks = message_form().count(len(schedule.tasks))
    say(NAME, f"{named(options.output)}: {tasks} tasks, {schedule.start} to {schedule.end}")
    if options.json:
        outcome = _outcome(options, written, schedule, lines)
        sys.stdout.write(result_text(NAME, state.side, outcome))
    return 1 if missing else 0


def _outcome(
    options: argparse.Namespace, ending: str, schedule: Schedule, lines: Sequence[str]
) -> ExportOutcome:
    """Returns what was written, for JSON; `lines` are what is not in the file."""
    return ExportOutcome(
        file=str(options.output),
        format=ending.removeprefix("."),
        tasks=len(schedule.tasks),
        start=schedule.start,
        end=schedule.end,
        length=schedule.length,
        unit_minutes=schedule.unit_minutes,
        missing=tuple(lines),
    )


def _ending(options: argparse.Namespace) -> str:
    """Returns the ending of the format to write: `.csv` for a spreadsheet."""
    ending = str(options.output.suffix.lower())
    if options.format is not None:
        ending = f".{options.format}"
    elif not is_file(options.output):
        ending = ".csv" if options.into is None else ""
    endings = [*FORMATS] if options.into is None else _endings_of_planners()
    if ending not in endings and (ending or options.into is None):
        raise UsageError(f"{options.output}: the name has to end with {', '.join(endings)}")
    return ending


def _endings_of_planners() -> list[str]:
    """Returns the endings of the files into which a schedule can be put."""
    return list(dict.fromkeys(way.ending for way in WAYS_BACK.values()))


@dataclass(frozen=True)
class _Original:
    """A planner's file, and how a schedule gets into it."""

    source: Source
    way: WayBack


def _original(options: argparse.Namespace, ending: str) -> _Original:
    """Returns the planner's file; `ending` is that of the file to write, or empty."""
    source = Source(options.into, read_bytes(options.into, MAX_BYTES))
    way = WAYS_BACK.get(detect(source))
    if way is None:
        known = ", ".join(each.planner for each in WAYS_BACK.values())
        raise InputError(f"{source.name}: --into changes files of {known}")
    if ending not in ("", way.ending):
        raise UsageError(f"{options.output}: --into {source.name} writes {way.ending}")
    return _Original(source, way)


def _into(state: ProjectState, original: _Original, schedule: Schedule) -> tuple[bytes, list[str]]:
    name = original.source.name
    if not state.has_side_file:
        raise InputError(f"{state.path}: without its side file, tasks of {name} are not known")
    return original.way.put(original.source.data, name, schedule, state.side)
