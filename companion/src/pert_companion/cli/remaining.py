"""`pert-remaining`: the deck of the work that is left."""

import argparse
import sys
from collections.abc import Mapping
from dataclasses import replace
from pathlib import Path

from pert_companion.cli.choosing import add_bin_option, programs_of, said_left
from pert_companion.cli.common import CommandParser, output_form, say
from pert_companion.cli.opening import with_tables
from pert_companion.cli.writing import (
    add_output_options,
    check_deck,
    check_json,
    deck_outputs,
    is_file,
    outputs_of,
)
from pert_companion.model.fitting import fitted_to
from pert_companion.model.output import Output
from pert_companion.model.sidefile import SideTask
from pert_companion.model.text_form import TextForm
from pert_companion.state.project import ProjectState, open_state
from pert_companion.state.remaining import Left, Remaining, State, left_of_tasks
from pert_companion.writers.aligned import aligned
from pert_companion.writers.json_file import result_text
from pert_companion.writers.remaining_json import summary_of

NAME = "pert-remaining"
EXAMPLES = """\
  pert-remaining wing.csv                        what is left of each task, as of the as-of date
  pert-remaining wing.csv -o rest.csv            the deck of the work that is left
  pert-remaining wing.csv --left left.csv -o rest.csv   with remaining durations of your own
  pert-remaining wing.csv -o rest.csv && pert curve < rest.csv"""


def parser() -> CommandParser:
    """Returns the parser of the command's words."""
    command = CommandParser(
        NAME,
        "Makes the deck of the work that is left, from a deck with status.",
        EXAMPLES,
    )
    command.add_argument("deck", type=Path, help="a deck or a deck of tasks, with STATUS cards")
    add_output_options(command, "REST", "the deck to write")
    command.add_argument(
        "--left",
        metavar="FILE",
        type=Path,
        help="rows activity,left[,crash] in units of the deck",
    )
    command.add_argument("--json", action="store_true", help="print JSON instead of a table")
    add_bin_option(command)
    return command


def run(options: argparse.Namespace) -> int:
    """Prints what is left, writes the deck if one is asked for, and returns the status."""
    check_json(options, "the deck")
    outputs = outputs_of(options, [options.deck], [options.left])
    check_deck(outputs, options.output)
    opened = with_tables(open_state(options.deck, programs_of(options)))
    state = opened.with_said(said_left(options.left))
    rest = state.remaining
    state.rest.check()
    for note in rest.notes:
        say(NAME, note)
    if options.output is None or is_file(options.output):
        sys.stdout.write(_text(state, rest, options.json))
    if options.output is not None:
        outputs.write(*rest_outputs(state, rest, options.output))
    return 0


def _text(state: ProjectState, rest: Remaining, is_json: bool) -> str:
    if not is_json:
        return table(state, output_form(rest.side.money_scale))
    rows = rows_of(rest, state.has_side_file)
    return result_text(NAME, rest.side, summary_of(rest, rows, state.data_day))


def rest_outputs(state: ProjectState, rest: Remaining, path: Path) -> list[Output]:
    """Returns the deck, and its side file if the original has one, as files to write."""
    side = None
    if state.has_side_file:
        side = fitted_to(replace(rest.side, deck_name=path.name), rest.deck)
    return deck_outputs(path, rest.deck.to_bytes(), side)


def rows_of(rest: Remaining, has_side_file: bool) -> list[tuple[Left, int]]:
    """Returns each real task, or each activity of a deck without a side file, with its cost."""
    costs = {card.code: card.cost for card in rest.deck.work}
    if not has_side_file:
        return [(left, costs[left.code]) for left in rest.left]
    of_tasks = {task.code: _cost(task, costs) for task in rest.side.tasks}
    return [(left, of_tasks[left.code]) for left in left_of_tasks(rest)]


def table(state: ProjectState, form: TextForm) -> str:
    """Returns a row for each task, with its state, durations, costs, and what they rest on."""
    rest = state.remaining
    lefts = rows_of(rest, state.has_side_file)
    total = sum(card.cost for card in rest.deck.work)
    rows = [_row(left, cost, form) for left, cost in lefts]
    done = sum(left.state is State.FINISHED for left, _ in lefts)
    sunk = sum(left.sunk for left in rest.left)
    finished = f"{form.count(done)} of {form.count(len(lefts))} finished"
    rows.append(("TOTAL", finished, "", "", form.money(total), form.money(sunk), ""))
    headings = ("ACTIVITY", "STATE", "LEFT", "CRASH", "COST", "SUNK", "BY")
    lines = [f"REMAINING {rest.deck.project.code} {state.data_day}"]
    lines.extend(aligned(headings, rows, "llrrrrl"))
    return "".join(f"{line}\n" for line in lines)


def _cost(task: SideTask, costs: Mapping[str, int]) -> int:
    """Returns what a real task costs: the sum of its cards."""
    return sum(costs[part] for part in task.parts)


def _row(left: Left, cost: int, form: TextForm) -> tuple[str, ...]:
    amounts = form.money(cost), form.money(left.sunk)
    numbers = (form.count(left.normal), form.count(left.crash), *amounts)
    return (left.code, left.state.value, *numbers, left.basis.value)
