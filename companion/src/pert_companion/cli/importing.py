"""`pert-import`: a planner's file becomes a deck and its side file."""

import argparse
import sys
from decimal import Decimal
from fractions import Fraction
from pathlib import Path

from pert_companion.carry import CarryOptions
from pert_companion.cli.choosing import add_bin_option, programs_of
from pert_companion.cli.common import CommandParser, message_form, say
from pert_companion.cli.words import add_cell_options, day_word, kind_word
from pert_companion.cli.writing import (
    add_output_options,
    check_deck,
    deck_outputs,
    is_file,
    named,
    outputs_of,
)
from pert_companion.importing import conversion as importing
from pert_companion.importing.capacities import kept_capacities
from pert_companion.importing.conversion import Capacities, CrashSources, Imported
from pert_companion.importing.last import last_import
from pert_companion.importing.outcomes import import_outcome
from pert_companion.importing.overtime import Overtime, parse_overtime
from pert_companion.importing.reconcile import Reconciliation
from pert_companion.model.errors import UsageError
from pert_companion.model.losses import MEANINGS, Acceptance, LossKind, counted_kinds
from pert_companion.model.output import WORKBOOK, Output, Outputs
from pert_companion.model.sidefile import SideFile, side_path
from pert_companion.model.terms import NO_TERMS, Terms
from pert_companion.readers.base import ReaderOptions
from pert_companion.state.project import ProjectState
from pert_companion.readers.calendar_files import holidays_of
from pert_companion.writers.json_file import result_text

NAME = "pert-import"
SAME = "same"
"""Accepts the losses that the last import accepted."""
EXAMPLES = """\
  pert-import plan.xml -o wing.csv                      wing.csv and wing.json, its side file
  pert-import list.xlsx --start 2026-09-01 -o wing.csv  the first day, if the list has no dates
  pert-import plan.xer --as-of 2026-10-02 -o wing.csv   progress as of that day's evening
  pert-import plan.xml --accept link,loe -o wing.csv    without the links that a deck cannot say
  pert-import plan.xml --crash-sheet ask.xlsx           a sheet of shortest durations to fill in
  pert-import plan.xml --with-crash ask.xlsx -o w.csv   with those that were filled in
  pert-import plan.xml --differences -o wing.csv        every task with other dates than the file's
  pert-import plan.xml --overhead 4000/day --contract 2026-08-11 --penalty 2500 -o april.csv
  pert-import plan.xml --with april.csv --accept same -o may.csv  as the last import was told
  pert-import plan.xml --capacity Crane=1 --capacity Crew=3 -o wing.csv

Statuses: 0; 1 if something is not carried over and not accepted (no deck is written), or if dates
differ and --strict is given; 2 for wrong words. Losses have these kinds for --accept:
"""


def parser() -> CommandParser:
    """Returns the parser of the command's words."""
    kinds = "\n".join(f"  {kind.value:<12}{meaning}" for kind, meaning in MEANINGS.items())
    command = CommandParser(
        NAME,
        "Makes a deck and its side file from a list (.csv, .xlsx) or a planner's file (MS Project"
        " XML, Primavera .xer and .xml, GanttProject, GNOME Planner). The format is found by the"
        " content.",
        EXAMPLES + kinds + "\n",
    )
    command.add_argument("file", type=Path, help="the planner's file, or - for standard input")
    what = "the deck to write, with its side file (default: the deck alone, to standard output)"
    add_output_options(command, "DECK", what)
    _add_carry_options(command)
    _add_terms_options(command)
    _add_crash_options(command)
    _add_reader_options(command)
    command.add_argument(
        "--json", action="store_true", help="with -o DECK: print what was done as JSON"
    )
    add_bin_option(command)
    return command


def _add_carry_options(command: argparse.ArgumentParser) -> None:
    """Adds the options that say how the plan becomes a deck."""
    command.add_argument(
        "--accept",
        metavar="KINDS",
        type=kinds_word,
        action="append",
        default=[],
        help="losses to accept, by kind, as deadline,title; all lists and accepts every one; same"
        " those of the last import (--with)",
    )
    command.add_argument(
        "--strict",
        action="store_true",
        help="status 1 if dates differ from those of the file",
    )
    command.add_argument(
        "--differences", action="store_true", help="name every task whose dates differ"
    )
    command.add_argument(
        "--unit",
        default="auto",
        metavar="UNIT",
        help="what durations are counted in: auto (the default: days, or the longest time of which"
        " all durations are multiples), days, hours, or a number of minutes",
    )
    command.add_argument("--cents", action="store_true", help="write all amounts in cents")
    command.add_argument("--no-progress", action="store_true", help="leave progress out")


def _add_terms_options(command: argparse.ArgumentParser) -> None:
    """Adds the options that say what time costs."""
    command.add_argument(
        "--with",
        dest="last",
        metavar="DECK",
        type=Path,
        help="the deck of the last import of this plan: its terms and the capacities that it was"
        " told hold on, and --accept same takes what it accepted",
    )
    command.add_argument(
        "--contract",
        metavar="DATE",
        type=day_word,
        help="the last day of work by the contract: the directed end, and the target of TERMS",
    )
    for name, what in (
        ("overhead", "what each working day of the project costs, as 4000/day"),
        ("bonus", "what each working day before the contract's date earns"),
        ("penalty", "what each working day after the contract's date costs"),
    ):
        command.add_argument(f"--{name}", metavar="AMOUNT", type=price_word, help=what)
    command.add_argument(
        "--capacity",
        metavar="NAME=UNITS",
        type=capacity_word,
        action="append",
        default=[],
        help="how many of a resource work at once, as Crane=1 or Crew=250%%; for a material, how"
        " much of it an hour of work takes",
    )


def capacity_word(word: str) -> tuple[str, Decimal]:
    """Returns the name and the units of a word such as `Crew=2.5` or `Crew=250%`."""
    name, _, units = word.rpartition("=")
    number = units.strip().removesuffix("%")
    whole, mark, part = number.partition(".")
    digits = whole + part
    if not (name.strip() and digits.isascii() and digits.isdigit() and bool(mark) == bool(part)):
        raise argparse.ArgumentTypeError(f"{word!r} is not NAME=UNITS such as Crew=2")
    if len(whole) > 9 or len(part) > 4 or not int(digits):
        raise argparse.ArgumentTypeError(f"{word!r} is no capacity from 0.0001 to 999999999")
    found = Decimal(number)
    return name.strip(), found / 100 if units.strip().endswith("%") else found


def price_word(word: str) -> Decimal:
    """Returns the amount for a working day in a word such as `4000/day` or `62.50`."""
    amount = word.removesuffix("/day")
    whole, mark, part = amount.partition(".")
    digits = whole + part
    if not (digits.isascii() and digits.isdigit() and whole and bool(mark) == bool(part)):
        raise argparse.ArgumentTypeError(f"{word!r} is no amount for a working day as 4000/day")
    if len(whole) > 15 or len(part) > 4:
        raise argparse.ArgumentTypeError(f"{word!r} has too many digits")
    return Decimal(amount)


def _add_crash_options(command: argparse.ArgumentParser) -> None:
    """Adds the options that say where shortest durations come from besides the file."""
    command.add_argument(
        "--crash-sheet",
        metavar="XLSX",
        type=Path,
        help="write the critical and nearly critical tasks as a workbook in which people fill in"
        " shortest durations; without -o no deck is written",
    )
    command.add_argument(
        "--with-crash",
        metavar="XLSX",
        type=Path,
        help="take the shortest durations of a filled workbook",
    )
    command.add_argument(
        "--overtime",
        metavar="HOURS@PERCENT",
        type=overtime_word,
        help="propose shortest durations from overtime at the rates of the resources, as 2h@50%%;"
        " each proposal is listed",
    )


def overtime_word(word: str) -> Overtime:
    """Returns the overtime of a word such as `2h@50%`."""
    try:
        return parse_overtime(word)
    except UsageError as error:
        raise argparse.ArgumentTypeError(str(error)) from None


def _add_reader_options(command: argparse.ArgumentParser) -> None:
    """Adds the options that say what the file does not."""
    command.add_argument("--name", default="", help="the name of the project")
    command.add_argument("--start", metavar="DATE", type=day_word, help="the first day")
    command.add_argument(
        "--as-of",
        metavar="DATE",
        type=day_word,
        help="the data date: the last day that the progress is about, as of its evening",
    )
    command.add_argument(
        "--calendar",
        default="",
        metavar="NAME",
        help="the calendar of the file that the plan uses",
    )
    command.add_argument(
        "--holidays",
        metavar="FILE",
        type=Path,
        help="a file of free days, added to the calendar",
    )
    _add_field_options(command)
    _add_list_options(command)


def _add_field_options(command: argparse.ArgumentParser) -> None:
    """Adds the options for the fields and columns of a file."""
    command.add_argument(
        "--crash-field",
        default="",
        metavar="FIELD",
        help="the field of shortest durations",
    )
    command.add_argument(
        "--crash-cost-field",
        default="",
        metavar="FIELD",
        help="the field of costs at them",
    )
    command.add_argument(
        "--column",
        metavar="FIELD=HEADING",
        type=column_word,
        action="append",
        default=[],
        help="the heading of a column of a list; without a heading the column is passed over",
    )


def _add_list_options(command: argparse.ArgumentParser) -> None:
    """Adds the options that say how the cells of a list are read."""
    add_cell_options(command, "the sheet of a workbook")
    command.add_argument("--day-hours", type=hours_word, metavar="N", help="hours of one day")
    command.add_argument("--week-hours", type=hours_word, metavar="N", help="hours of one week")
    command.add_argument(
        "--month-days",
        type=int,
        choices=range(1, 32),
        metavar="N",
        help="days of one month",
    )


def kinds_word(word: str) -> frozenset[LossKind | str]:
    """Returns the kinds of losses in a word such as `deadline,title`, and `same` if it has it."""
    if word.strip().lower() == "all":
        return frozenset(LossKind)
    found: set[LossKind | str] = set()
    for part in word.split(","):
        is_same = part.strip().lower() == SAME
        found.add(SAME if is_same else kind_word(part, LossKind))
    return frozenset(found)


def column_word(word: str) -> tuple[str, str]:
    """Returns the field and the heading in a word such as `duration=Length`."""
    field, mark, heading = word.partition("=")
    if not mark or not field:
        raise argparse.ArgumentTypeError(f"{word!r} is not FIELD=HEADING")
    return field.strip(), heading.strip()


def hours_word(word: str) -> int:
    """Returns a number of hours, such as 7.5, in minutes."""
    whole, _, part = word.partition(".")
    digits = whole + part
    if digits.isascii() and digits.isdigit() and len(digits) <= 5:
        minutes = Fraction(int(digits) * 60, 10 ** len(part))
        if minutes > 0 and minutes.denominator == 1:
            return int(minutes)
    raise argparse.ArgumentTypeError(f"{word!r} is no number of hours such as 8 or 7.5")


def run(options: argparse.Namespace) -> int:
    """Imports the file and returns the status."""
    deck: Path | None = options.output if is_file(options.output) else None
    if options.json and deck is None:
        raise UsageError("--json goes with -o DECK, since without a name the deck is printed")
    last = None if options.last is None else last_import(options.last)
    acceptance = acceptance_of(options, last)
    read = [options.file, options.with_crash, options.holidays]
    outputs = outputs_of(options, [options.last], read)
    check_deck(outputs, deck)
    if options.crash_sheet is not None:
        outputs.check(options.crash_sheet, WORKBOOK)
    source = importing.read_source(options.file)
    imported = importing.import_plan(
        source,
        reader_options(options),
        carry_options(options, terms_of(options, last)),
        deck,
        _crash_sources(options),
        Capacities(dict(options.capacity), kept_capacities(last)),
    )
    for note in (*imported.plan.notes, *imported.carried.notes):
        say(NAME, f"note: {note}")
    if options.output is not None or options.crash_sheet is None:
        complete = _accepted(imported, acceptance)
        if complete is None:
            _print_outcome(options, imported, acceptance, None, "")
            return 1
        imported = complete
    state = importing.state_of(imported, programs_of(options))
    dates = _compared_dates(imported, state, options)
    _write(imported, state, outputs, options)
    _print_outcome(options, imported, acceptance, dates, str(deck))
    return 1 if options.strict and dates is not None and dates.differences else 0


def _write(
    imported: Imported, state: ProjectState, outputs: Outputs, options: argparse.Namespace
) -> None:
    """Writes the deck with its side file, and the sheet to fill in, where they are asked for."""
    deck: Path | None = options.output if is_file(options.output) else None
    written = []
    lines = []
    if options.crash_sheet is not None:
        data, count = importing.sheet_to_fill_in(imported, state)
        written.append(Output(options.crash_sheet, WORKBOOK, data))
        tasks = message_form().count(count)
        lines.append(f"{named(options.crash_sheet)}: {tasks} tasks to fill in")
    if options.output is not None or options.crash_sheet is None:
        written += deck_outputs(deck, imported.carried.data, imported.side)
    if deck is not None:
        lines.append(f"{deck} and {side_path(deck)}: {importing.summary(imported, message_form())}")
    outputs.write(*written)
    for line in lines:
        say(NAME, line)


def _print_outcome(
    options: argparse.Namespace,
    imported: Imported,
    acceptance: Acceptance,
    dates: Reconciliation | None,
    deck: str,
) -> None:
    """Prints what was done as JSON, if it is asked for."""
    if options.json:
        outcome = import_outcome(imported, acceptance, dates, deck)
        sys.stdout.write(result_text(NAME, imported.side, outcome))


def _crash_sources(options: argparse.Namespace) -> CrashSources:
    """Returns where shortest durations come from besides the file."""
    sheet = None
    if options.with_crash is not None:
        sheet = importing.read_source(options.with_crash)
    return CrashSources(sheet, options.overtime)


def reader_options(options: argparse.Namespace) -> ReaderOptions:
    """Returns what the words say about the file."""
    return ReaderOptions(
        name=options.name,
        start=options.start,
        data_date=options.as_of,
        decimal=options.decimal,
        day_first=options.day_first,
        encoding=options.encoding,
        sheet=options.sheet,
        columns=tuple(options.column),
        crash_field=options.crash_field,
        crash_cost_field=options.crash_cost_field,
        calendar=options.calendar,
        day_minutes=options.day_hours,
        week_minutes=options.week_hours,
        month_days=options.month_days,
        holidays=() if options.holidays is None else holidays_of(options.holidays),
    )


def terms_of(options: argparse.Namespace, last: SideFile | None) -> Terms:
    """Returns what the words say of the price of time, over what the last import was told."""
    said = Terms(options.overhead, options.bonus, options.penalty, options.contract)
    if last is None or last.terms == NO_TERMS:
        return said
    say(NAME, f"note: the import of {options.last} was told {last.terms.text()}")
    return said.over(last.terms)


def carry_options(options: argparse.Namespace, terms: Terms = NO_TERMS) -> CarryOptions:
    """Returns what the words say about the deck."""
    return CarryOptions(options.unit, options.cents, not options.no_progress, terms)


def acceptance_of(options: argparse.Namespace, last: SideFile | None) -> Acceptance:
    """Returns what the words accept. Raises `UsageError` for `same` without `--with`."""
    words: frozenset[LossKind | str] = frozenset().union(*options.accept)
    if SAME in words and last is None:
        raise UsageError("--accept same needs the deck of the last import: --with DECK")
    kinds = frozenset(word for word in words if isinstance(word, LossKind))
    return Acceptance(kinds, last.accepted if last is not None and SAME in words else ())


def _accepted(imported: Imported, acceptance: Acceptance) -> Imported | None:
    """Names what is not carried over; returns the import with what the user accepts.

    Returns None if there is more than that.
    """
    taken, refused = acceptance.divided(imported.losses)
    if taken:
        if acceptance.kinds == frozenset(LossKind):
            for loss in taken:
                say(NAME, loss.line(imported.source.name))
        say(NAME, f"not carried over, as accepted: {counted_kinds(taken)}")
    for loss in refused:
        say(NAME, loss.line(imported.source.name))
    if not refused:
        return importing.with_accepted(imported, taken)
    kinds = ",".join(dict.fromkeys(loss.kind.value for loss in refused))
    words = f"{SAME},{kinds}" if acceptance.earlier else kinds
    say(
        NAME,
        f"not carried over: {counted_kinds(refused)}; change the file, or say"
        f" --accept {words}; no deck is written",
    )
    return None


def _compared_dates(
    imported: Imported, state: ProjectState, options: argparse.Namespace
) -> Reconciliation | None:
    """Compares dates with those of the file, without `pert` None, and names tasks that pause."""
    try:
        state.programs.find("pert")
    except UsageError as error:
        if options.strict or options.differences:
            raise
        say(NAME, f"dates are not compared with those of the file: {error}")
        return None
    found = importing.compare_dates(state)
    say(NAME, found.summary(message_form()))
    if options.differences:
        for difference in found.differences:
            say(NAME, f"difference: {difference.line()}")
    line = importing.pause_line(imported, state)
    if line:
        say(NAME, line)
    return found
