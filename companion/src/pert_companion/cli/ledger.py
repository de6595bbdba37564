"""`pert-ledger`: vouchers, amounts to go and progress of a month become a state of the project."""

import argparse
import sys
from collections.abc import Iterable
from dataclasses import replace
from datetime import date
from pathlib import Path

from pert_companion.carry.charges import close_of
from pert_companion.cli.choosing import add_bin_option, programs_of
from pert_companion.cli.common import CommandParser, message_form, say
from pert_companion.cli.importing import column_word
from pert_companion.cli.opening import opened
from pert_companion.cli.words import add_cell_options, day_word, kind_word
from pert_companion.cli.writing import (
    add_output_options,
    check_deck,
    check_json,
    deck_outputs,
    is_file,
    named,
    outputs_of,
)
from pert_companion.importing.conversion import read_source
from pert_companion.importing.month_end import Books, Lists, MonthEnd, close_month
from pert_companion.importing.outcomes import ledger_outcome
from pert_companion.model.bookings import MEANINGS, BookingKind, Finding, not_accepted
from pert_companion.model.fitting import fitted_to
from pert_companion.model.ledger import Ledger, ledger_path, read_ledger, to_bytes
from pert_companion.model.output import LEDGER, Output, Outputs
from pert_companion.programs.client import Programs
from pert_companion.readers.base import ReaderOptions
from pert_companion.readers.estimates import PROGRESS, TO_GO, read_progress, read_to_go
from pert_companion.readers.vouchers import VOUCHERS, read_vouchers
from pert_companion.state.project import ProjectState, state_of
from pert_companion.writers.json_file import result_text

NAME = "pert-ledger"
MOST_LINES = 20
"""So many findings are named one by one; the others are counted."""
FIELDS = tuple(dict.fromkeys((*VOUCHERS.headings, *TO_GO.headings, *PROGRESS.headings)))
"""The fields of lists, as `--column` names them."""
EXAMPLES = """\
  pert-ledger april.csv vouchers.xlsx                    what booking them would do
  pert-ledger april.csv vouchers.xlsx -o april.csv --overwrite
                                                         april.csv and its ledger
  pert-ledger march.csv april.csv --as-of 2026-04-30 --progress done.csv --to-go togo.csv \\
      -o april.csv                                       the next state: schedule, status, money
  pert-ledger april.csv v.csv --column account=Kostenart a heading that is remembered
  pert-ledger april.csv v.csv --accept later,closed -o .. what is odd and meant so

Columns are found by their headings, in any order: date, account, amount (or debit and credit, or
amount and D/C), number, text, currency. Without -o nothing is written. What is odd has these kinds
for --accept:
"""


def parser() -> CommandParser:
    """Returns the parser of the command's words."""
    kinds = "\n".join(f"  {kind.value:<12}{meaning}" for kind, meaning in MEANINGS.items())
    command = CommandParser(
        NAME,
        "Books vouchers (.csv, .xlsx) on the accounts of a deck. The ledger next to it keeps every"
        " voucher; the deck has its balances at the close of the data date.",
        EXAMPLES + kinds + "\n",
    )
    command.add_argument("deck", type=Path, help="the deck, with its side file and ledger")
    command.add_argument("vouchers", type=Path, nargs="*", help="lists of vouchers")
    add_output_options(command, "DECK", "the deck to write, with its side file and ledger")
    command.add_argument(
        "--as-of",
        metavar="DATE",
        type=day_word,
        help="the data date: the close of this day (default: that of the deck)",
    )
    command.add_argument(
        "--ledger",
        metavar="LEDGER",
        type=Path,
        help="the ledger so far, if it is not the one next to the deck",
    )
    _add_list_options(command)
    command.add_argument("--json", action="store_true", help="print what was done as JSON")
    add_bin_option(command)
    return command


def _add_list_options(command: argparse.ArgumentParser) -> None:
    """Adds the options for further lists, and for how lists are read."""
    command.add_argument(
        "--to-go",
        metavar="LIST",
        type=Path,
        action="append",
        default=[],
        help="amounts to go",
    )
    command.add_argument(
        "--progress",
        metavar="LIST",
        type=Path,
        action="append",
        default=[],
        help="percent complete, remaining duration, actual dates of tasks",
    )
    command.add_argument(
        "--accept",
        metavar="KINDS",
        type=kinds_word,
        action="append",
        default=[],
        help="what to accept, by kind, as later,closed",
    )
    command.add_argument(
        "--column",
        metavar="FIELD=HEADING",
        type=heading_word,
        action="append",
        default=[],
        help="the heading of a column; it is remembered, and later lists may have it too",
    )
    add_cell_options(command, "the sheet of a workbook of vouchers")


def kinds_word(word: str) -> frozenset[BookingKind]:
    """Returns the kinds of findings in a word such as `later,closed`."""
    return frozenset(kind_word(part, BookingKind) for part in word.split(","))


def run(options: argparse.Namespace) -> int:
    """Books the lists and returns the status: 1 if something is odd and not accepted."""
    check_json(options, "the deck")
    outputs = _outputs(options)
    programs = programs_of(options)
    state = opened([options.deck], programs)[0]
    if options.ledger is not None:
        state = replace(state, ledger=read_ledger(options.ledger))
    month = close_month(_books(state), _lists(state, options), options.as_of)
    for note in month.notes:
        say(NAME, f"note: {note}")
    is_accepted = _is_accepted(month.findings, frozenset().union(*options.accept))
    if is_accepted:
        _book(month, programs, outputs, options)
    if options.json:
        sys.stdout.write(_json(month, is_accepted, options))
    return 0 if is_accepted else 1


def _book(
    month: MonthEnd, programs: Programs, outputs: Outputs, options: argparse.Namespace
) -> None:
    """Checks the new deck, says what was booked, and writes the files if they are asked for."""
    books = month.books
    state_of(books.deck, programs).plan.check()
    for line in _credit_lines(month):
        say(NAME, line)
    say(NAME, month.sums.line(books.ledger.currency or books.side.currency, message_form()))
    if options.output is None:
        say(NAME, "nothing is written; say -o DECK")
    else:
        outputs.write(*_files(books, options.output))
        say(NAME, _summary(month, options.output))


def _json(month: MonthEnd, is_accepted: bool, options: argparse.Namespace) -> str:
    """Returns what was done as JSON."""
    deck = str(options.output) if is_accepted and options.output is not None else ""
    outcome = ledger_outcome(month, frozenset().union(*options.accept), deck)
    return result_text(NAME, month.books.side, outcome)


def _outputs(options: argparse.Namespace) -> Outputs:
    """Returns what writes the files; refuses to write over what is read, unless it is meant."""
    lists = (*options.vouchers, *options.to_go, *options.progress, options.ledger)
    outputs = outputs_of(options, [options.deck], [ledger_path(options.deck), *lists])
    check_deck(outputs, options.output)
    if is_file(options.output):
        outputs.check(ledger_path(options.output), LEDGER)
    return outputs


def _books(state: ProjectState) -> Books:
    ledger = state.ledger or Ledger()
    has_ledger = state.ledger is not None
    renames = state.registers.renames
    return Books(state.deck, state.side, state.has_side_file, ledger, has_ledger, renames)


def _lists(state: ProjectState, options: argparse.Namespace) -> Lists:
    """Returns the lists of the words; headings that were named for earlier ones are known."""
    calendar = state.side.calendar
    words = ReaderOptions(
        decimal=options.decimal,
        day_first=options.day_first,
        encoding=options.encoding,
        day_minutes=calendar.day_minutes,
        week_minutes=calendar.week_minutes,
    )
    of_vouchers = [pair for pair in options.column if pair[0] in VOUCHERS.headings]
    voucher_words = replace(words, sheet=options.sheet, columns=tuple(of_vouchers))
    known = () if state.ledger is None else state.ledger.headings
    named = tuple((dict(known) | dict(options.column)).items())
    close: date = options.as_of or close_of(state.deck)
    return Lists(
        tuple(read_vouchers(read_source(path), voucher_words, named) for path in options.vouchers),
        tuple(read_to_go(read_source(path), words, close, named) for path in options.to_go),
        tuple(read_progress(read_source(path), words, named) for path in options.progress),
        tuple(options.column),
    )


def heading_word(word: str) -> tuple[str, str]:
    """Returns the field of a list and the heading in a word such as `account=Kostenart`."""
    name, heading = column_word(word)
    field = name.replace("-", " ")
    if field not in FIELDS:
        raise argparse.ArgumentTypeError(f"{name[:40]!r} is none of {', '.join(FIELDS)}")
    return field, heading


def _is_accepted(findings: Iterable[Finding], accepted: frozenset[BookingKind]) -> bool:
    """Names what is odd, and says whether the user accepts it."""
    listed = list(findings)
    refused = not_accepted(listed, accepted)
    taken = [finding for finding in listed if finding.kind in accepted]
    if taken:
        say(NAME, f"accepted: {_counted(taken)}")
    for finding in refused[:MOST_LINES]:
        say(NAME, finding.line())
    if len(refused) > MOST_LINES:
        say(NAME, f"and {message_form().count(len(refused) - MOST_LINES)} more")
    if refused:
        kinds = ",".join(dict.fromkeys(finding.kind.value for finding in refused))
        say(
            NAME,
            f"not booked: {_counted(refused)}; change the list, or say --accept {kinds}; nothing is"
            " written",
        )
    return not refused


def _counted(findings: Iterable[Finding]) -> str:
    """Returns how many findings there are of each kind: `3 later, 1 closed`."""
    counts: dict[str, int] = {}
    for finding in findings:
        counts[finding.kind.value] = counts.get(finding.kind.value, 0) + 1
    form = message_form()
    return ", ".join(f"{form.count(count)} {kind}" for kind, count in counts.items())


def _credit_lines(month: MonthEnd) -> Iterable[str]:
    """Yields a line for each new credit, with the days of the charges that it reduces."""
    form = message_form(month.books.side.money_scale)
    vouchers = month.books.booked_ledger.vouchers
    new = {(each.account, each.day) for each in vouchers[len(vouchers) - month.count :]}
    credits = [credit for credit in month.booked.credits if (credit.account, credit.day) in new]
    for credit in credits[:MOST_LINES]:
        days = ", ".join(str(day) for day, _ in credit.reduced)
        yield (
            f"credit: {credit.account} {credit.day}, {form.money(credit.amount)}, reduces"
            f" what was charged on {days}"
        )
    if len(credits) > MOST_LINES:
        yield f"and {form.count(len(credits) - MOST_LINES)} credits more"


def _files(books: Books, path: Path) -> list[Output]:
    """Returns the deck, its side file if it has one, and its ledger, as files to write."""
    side = None
    if books.has_side_file:
        side = fitted_to(replace(books.side, deck_name=path.name), books.deck)
    files = deck_outputs(path, books.deck.to_bytes(), side)
    if is_file(path):
        files.append(Output(ledger_path(path), LEDGER, to_bytes(books.ledger)))
    return files


def _summary(month: MonthEnd, path: Path) -> str:
    form = message_form()
    new, vouchers = form.count(month.count), form.count(len(month.books.ledger.vouchers))
    close = close_of(month.books.deck)
    files = f"{path} and its ledger" if is_file(path) else named(path)
    return f"{files}: {new} new of {vouchers} vouchers, at the close of {close}"
