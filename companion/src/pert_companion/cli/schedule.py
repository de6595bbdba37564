"""`pert-schedule`: the real tasks of a deck with their dates."""

import argparse
import os
import shutil
import sys
from collections.abc import Sequence
from dataclasses import replace
from datetime import date, timedelta
from pathlib import Path

from pert_companion.analysis.contract import contract_of
from pert_companion.analysis.forecast import forecast
from pert_companion.analysis.lengths import LengthChoice
from pert_companion.analysis.loading import chosen_loading
from pert_companion.analysis.schedule import Schedule, ScheduledTask
from pert_companion.analysis.scheduling import rest_schedule
from pert_companion.cli.choosing import (
    add_length_options,
    add_plan_option,
    length_choice,
    programs_of,
    said_left,
    schedule_of_options,
)
from pert_companion.cli.common import CommandParser, say
from pert_companion.cli.opening import with_tables
from pert_companion.model.errors import UsageError
from pert_companion.state.project import ProjectState, open_state
from pert_companion.writers import forecast_json, loading_text
from pert_companion.writers import forecast_text as forecast_writer
from pert_companion.writers.csv_file import to_csv
from pert_companion.writers.json_file import result_text
from pert_companion.writers.text import TableOptions, to_text

NAME = "pert-schedule"
EXAMPLES = """\
  pert-schedule wing.csv                     all tasks by start, at normal durations
  pert-schedule wing.csv --length 76 --gantt the cheapest schedule of 76 days, with bars
  pert-schedule wing.csv --by 2026-09-30     the cheapest schedule that ends by a day
  pert-schedule wing.csv --plan              the plan of the first day, also when work has begun
  pert-schedule wing.csv --critical          the critical tasks alone
  pert-schedule wing.csv --next 30d          what is at work in the 30 days from the data date on
  pert-schedule wing.csv --resource Crane    the tasks of one resource
  pert-schedule wing.csv --load --length 76  cost and resources by week, and what is too much
  pert-schedule wing.csv --chance            the even chance, and that of the contract date
  pert-schedule wing.csv --forecast          unfinished tasks, by what is left of each"""


def parser() -> CommandParser:
    """Returns the parser of the command's words."""
    command = CommandParser(NAME, "Prints the tasks of a deck with their dates.", EXAMPLES)
    command.add_argument("deck", type=Path, help="a deck or a deck of tasks")
    add_length_options(command)
    add_plan_option(command)
    command.add_argument("--gantt", action="store_true", help="draw bars, as wide as the terminal")
    command.add_argument("--critical", action="store_true", help="critical tasks alone")
    command.add_argument(
        "--next", metavar="DAYS", type=days_word, help="tasks at work in the next days, as 30d"
    )
    command.add_argument("--resource", metavar="NAME", help="tasks that use a resource")
    command.add_argument(
        "--order", choices=("start", "plan"), default="start", help="by start, or as in the plan"
    )
    command.add_argument(
        "--load", action="store_true", help="cost and resources by week, and what is too much"
    )
    command.add_argument(
        "--chance", action="store_true", help="how sure the end of what is left is (simulated)"
    )
    form = command.add_mutually_exclusive_group()
    form.add_argument("--csv", action="store_true", help="print CSV instead of a table")
    form.add_argument("--json", action="store_true", help="print JSON instead of a table")
    add_forecast_options(command)
    return command


def add_forecast_options(command: argparse.ArgumentParser) -> None:
    """Adds `--forecast` and what goes with it."""
    command.add_argument(
        "--forecast", action="store_true", help="unfinished tasks by what is left of each"
    )
    command.add_argument(
        "--baseline", metavar="DECK", type=Path, help="with --forecast: the plan to compare with"
    )
    command.add_argument(
        "--left", metavar="FILE", type=Path, help="with --forecast: rows activity,left[,crash]"
    )


def days_word(word: str) -> int:
    """Returns the days of a word such as `30d`, `2w` or `30`."""
    number = word.rstrip("dw")
    if not (number.isascii() and number.isdigit() and len(number) <= 4):
        raise argparse.ArgumentTypeError(f"{word!r} is no number of days such as 30d")
    return int(number) * (7 if word.endswith("w") else 1)


def selected(
    schedule: Schedule, state: ProjectState, options: argparse.Namespace
) -> list[ScheduledTask]:
    """Returns the tasks that the options ask for, in their order."""
    tasks = list(schedule.tasks)
    if options.critical:
        tasks = [task for task in tasks if task.is_critical]
    if options.next is not None:
        first = next_day(state)
        tasks = at_work(tasks, first, first + timedelta(days=options.next - 1))
    if options.resource is not None:
        name = resource_name(names_of_resources(schedule), options.resource)
        tasks = [task for task in tasks if name in task.resources]
    if options.order == "start":
        tasks.sort(key=lambda task: (task.start, task.finish))
    return tasks


def names_of_resources(schedule: Schedule) -> list[str]:
    """Returns the names of the resources that tasks use, each once."""
    names: dict[str, None] = {}
    for task in schedule.tasks:
        names.update(dict.fromkeys(task.resources))
    return list(names)


def resource_name(names: Sequence[str], wanted: str) -> str:
    """Returns the name of a resource, which may be said without its unit: `Crew (hours)`.

    Raises `UsageError` that offers the names there are if it is none of them.
    """
    for name in names:
        if wanted.casefold() in (name.casefold(), name.rpartition(" (")[0].casefold()):
            return name
    offered = f"there are {', '.join(sorted(names))}" if names else "no task uses any"
    raise UsageError(f"no task uses a resource named {wanted!r}; {offered}")


def next_day(state: ProjectState) -> date:
    """Returns the first day that is not past: the one after the data date, or the as-of day."""
    if state.side.data_date is not None:
        return state.side.data_date + timedelta(days=1)
    return state.as_of


def at_work(tasks: list[ScheduledTask], first: date, last: date) -> list[ScheduledTask]:
    """Returns the tasks that work on any day from `first` to `last`, both inclusive."""
    return [task for task in tasks if task.first_day <= last and task.last_day >= first]


def run(options: argparse.Namespace) -> int:
    """Prints the schedule and returns the status."""
    state = open_state(options.deck, programs_of(options))
    if options.forecast:
        sys.stdout.write(forecast_text(with_tables(state), options))
        return 0
    if options.baseline is not None or options.left is not None:
        raise UsageError("--baseline and --left go with --forecast")
    if options.chance:
        sys.stdout.write(chances(state, options))
        return 0
    if options.load:
        sys.stdout.write(load_text(state, options))
        return 0
    sys.stdout.write(schedule_text(state, options))
    return 0


def schedule_text(state: ProjectState, options: argparse.Namespace) -> str:
    """Returns the tasks that the options ask for, with their dates, as a table, CSV or JSON."""
    is_table = not (options.csv or options.json)
    schedule = schedule_of_options(state, options, is_table and sys.stdout.isatty())
    tasks = selected(schedule, state, options)
    if options.csv:
        return to_csv(replace(schedule, tasks=tuple(tasks))).decode()
    if options.json:
        return result_text(NAME, state.side, replace(schedule, tasks=tuple(tasks)))
    return to_text(schedule, tasks, table_options(options.gantt))


def forecast_text(state: ProjectState, options: argparse.Namespace) -> str:
    """Returns the forecast of the unfinished tasks that the options ask for."""
    if length_choice(options) != LengthChoice() or options.gantt or options.plan:
        raise UsageError("--forecast has no --length, --by, --optimum, --plan or --gantt")
    baseline = None
    if options.baseline is not None:
        baseline = open_state(options.baseline, state.programs)
    found = forecast(state.with_said(said_left(options.left)), baseline)
    for note in found.notes:
        say(NAME, note)
    unfinished = {task.code: task for task in found.tasks}
    chosen = [task.code for task in selected(found.schedule, state, options)]
    tasks = [unfinished[code] for code in chosen if code in unfinished]
    if options.csv:
        return forecast_writer.to_csv(found, tasks).decode()
    if options.json:
        summary = forecast_json.summary_of(found, tasks)
        return result_text(f"{NAME} --forecast", state.side, summary)
    return forecast_writer.to_text(found, tasks, sys.stdout.isatty())


def load_text(state: ProjectState, options: argparse.Namespace) -> str:
    """Returns what the schedule that the options choose loads, as a table, CSV or JSON."""
    if options.gantt or options.critical or options.next is not None:
        raise UsageError("--load has no --gantt, --critical or --next")
    found = chosen_loading(state, length_choice(options), options.plan)
    if options.resource is not None:
        name = resource_name([each.name for each in found.resources], options.resource)
        found = found.of_resource(name)
    if options.csv:
        return loading_text.to_csv(found).decode()
    if options.json:
        return result_text(f"{NAME} --load", state.side, found)
    return loading_text.to_text(found, sys.stdout.isatty())


def chances(state: ProjectState, options: argparse.Namespace) -> str:
    """Returns how sure the end of what is left is, at the length that the options choose."""
    if options.csv or options.gantt or options.critical:
        raise UsageError("--chance has no --csv, --gantt or --critical")
    # imported where it is wanted, since numpy takes its time
    from pert_companion.analysis.sureness import sureness
    from pert_companion.writers.chance_json import summary_of
    from pert_companion.writers.chance_text import chance_text

    rest = state.rest
    schedule = rest_schedule(state, length_choice(options))
    contract = contract_of(state, None)
    found = sureness(rest, rest.point(schedule.length).durations)
    day = None if contract is None else contract.day
    if options.json:
        summary = summary_of(found, schedule.end, day)
        return result_text(f"{NAME} --chance", state.side, summary)
    return chance_text(found, schedule.end, day, sys.stdout.isatty())


def table_options(gantt: bool) -> TableOptions:
    """Returns how a table looks here: coloured and as wide as the terminal, or plain in a pipe."""
    if not sys.stdout.isatty():
        return TableOptions(None, gantt, False)
    width = shutil.get_terminal_size().columns
    return TableOptions(width, gantt, not os.environ.get("NO_COLOR"))
