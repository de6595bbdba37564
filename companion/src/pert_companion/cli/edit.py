"""`pert-edit`: changes tasks, links and figures of a deck and its side file together."""

import argparse
from pathlib import Path

from pert_companion.cli.choosing import add_bin_option, programs_of
from pert_companion.cli.common import CommandParser, say
from pert_companion.cli.opening import opened
from pert_companion.cli.writing import add_output_options, check_deck, named, outputs_of
from pert_companion.desk.changes import changes_between
from pert_companion.desk.edits import edit_of, with_edits
from pert_companion.desk.saving import files_of
from pert_companion.importing.month_end import Books
from pert_companion.model.errors import UsageError
from pert_companion.model.ledger import Ledger
from pert_companion.model.output import DECK, LEDGER, SIDE_FILE, Output
from pert_companion.state.project import state_of

NAME = "pert-edit"
EXAMPLES = """\
  pert-edit wing.csv DIG.normal=4 -o wing.csv --overwrite      4 days instead of 5
  pert-edit wing.csv DIG.shortest=2 DIG.price=350 -o new.csv   it can be shortened to 2 days
  pert-edit wing.csv POUR.links='DIG, 12SS+2d' -o new.csv      it comes after these two
  pert-edit wing.csv FORM.new=DIG FORM.normal=3 -o new.csv     a new task after DIG in the table
  pert-edit wing.csv FORM.remove= -o new.csv                   the task and its links go
  pert-edit wing.csv data-date=2026-04-30 DIG.actual-start=2026-04-02 DIG.percent=50 -o april.csv
  pert-edit wing.csv overhead=4000 contract=2026-08-11 penalty=2500 -o new.csv
  pert-edit wing.csv Crane.capacity=1 -o new.csv               one crane works at once
  pert-edit wing.csv DIG.normal=4                              what would change

Fields of a task, durations in days and the price that of a day less: name, normal, shortest, price,
cost, optimistic, likely, pessimistic, links, new, remove, percent, actual-start, actual-finish,
remaining. Links name tasks by code or row, with a kind and a lag in days: DIG, 12SS+2d, DIGFF-1d.
Fields of a resource, named by code or name: capacity, as pert-import --capacity has it.
Fields of the project: data-date, overhead, bonus, penalty (of a working day), contract.
"""


def parser() -> CommandParser:
    """Returns the parser of the command's words."""
    command = CommandParser(
        NAME,
        "Changes tasks, links and figures of a deck and its side file, so that they fit each other."
        " The desk (pert-desk) shows such a command for each of its steps.",
        EXAMPLES,
    )
    command.add_argument("deck", type=Path, help="the deck, with its side file and ledger")
    command.add_argument("edit", nargs="+", help="TASK.FIELD=VALUE, or FIELD=VALUE of the project")
    add_output_options(command, "DECK", "the deck to write, with its side file and ledger")
    add_bin_option(command)
    return command


def run(options: argparse.Namespace) -> int:
    """Makes the edits, writes the files if a deck is named, and returns the status."""
    outputs = outputs_of(options, [options.deck])
    check_deck(outputs, options.output)
    edits = [edit_of(word) for word in options.edit]
    state = opened([options.deck], programs_of(options))[0]
    ledger = state.ledger or Ledger()
    before = Books(
        state.deck,
        state.side,
        state.has_side_file,
        ledger,
        state.ledger is not None,
        state.registers.renames,
    )
    after = with_edits(before, edits)
    state_of(after.deck, state.programs).plan.check()
    for change in changes_between(before, after):
        what = f"{change.task}: {change.field}" if change.task else change.field
        say(NAME, f"{what}: {change.before or '-'} -> {change.after or '-'}")
    if options.output is None:
        say(NAME, "nothing is written; say -o DECK")
        return 0
    if str(options.output) == "-":
        raise UsageError("name a file: a deck is written with its side file")
    parts = files_of(after).parts(options.output)
    kinds = (DECK, *([SIDE_FILE] if after.has_side_file else []), LEDGER)
    outputs.write(*(Output(path, kind, data) for (path, data), kind in zip(parts, kinds)))
    say(NAME, f"{named(options.output)}: written")
    return 0
