"""`pert-portfolio`: one page of several projects."""

import argparse
import os
import sys
import tempfile
from collections.abc import Sequence
from pathlib import Path

from pert_companion.cli.choosing import add_bin_option, programs_of
from pert_companion.cli.common import CommandParser, message_form, say
from pert_companion.cli.writing import add_output_options, check_json, is_file, named, outputs_of
from pert_companion.model.deck import read_bytes as read_deck_bytes
from pert_companion.model.errors import CompanionError, UsageError
from pert_companion.model.lines import one_line
from pert_companion.model.output import PAGE, Output, Outputs
from pert_companion.model.source import STANDARD_STREAM
from pert_companion.portfolio.hosts import Hosts
from pert_companion.portfolio.job import Job
from pert_companion.portfolio.page import render
from pert_companion.portfolio.row import Row
from pert_companion.portfolio.stored import Cache
from pert_companion.portfolio.table import PORTFOLIO_TABLE, table_csv
from pert_companion.portfolio.work import rows_of, serve
from pert_companion.programs.client import Programs
from pert_companion.writers.json_file import Document, to_json

NAME = "pert-portfolio"
EXAMPLES = """\
  pert-portfolio wing.csv hull.csv -o page.html         a row for each project
  pert-portfolio now/*.csv --previous before -o page.html
                                                        with what moved since before/wing.csv ..
  pert-portfolio now/*.csv --baseline plan -o page.html
                                                        against plan/wing.csv ..
  pert-portfolio now/*.csv --csv -o page.html           page.csv too, for a spreadsheet
  pert-portfolio now/*.csv --json                       the rows for other programs
  pert-portfolio now/*.csv --hosts hosts.txt -o page.html
                                                        decks are read on the hosts of the file

Statuses: 0; 1 if a deck is refused (the page has its fault); 2 for wrong words.
"""
WIDTH = 30
"""The columns of the bar."""


def parser() -> CommandParser:
    """Returns the parser of the command's words."""
    command = CommandParser(
        NAME,
        "Writes a page with a row for each project, and what their resources share.",
        EXAMPLES,
    )
    command.add_argument("deck", type=Path, nargs="*", help="a deck of one project each")
    add_output_options(command, "FILE", "the page to write")
    command.add_argument(
        "--csv", action="store_true", help="write the rows as CSV too, next to the page"
    )
    command.add_argument(
        "--json", action="store_true", help="print the rows as JSON, with or without a page"
    )
    command.add_argument(
        "--previous",
        metavar="DIR",
        type=Path,
        help="a folder with the decks of the report before, under the same names",
    )
    command.add_argument(
        "--baseline",
        metavar="DIR",
        type=Path,
        help="a folder with the plans that they are held to, under the same names",
    )
    _add_keeping_options(command)
    _add_host_options(command)
    add_bin_option(command)
    return command


def _add_keeping_options(command: CommandParser) -> None:
    """Adds the options for rows that are old, and for rows that are kept."""
    command.add_argument(
        "--stale",
        metavar="DAYS",
        type=days_word,
        default=31,
        help="flag figures that are so many days older than the newest (31)",
    )
    command.add_argument(
        "--cache",
        metavar="DIR",
        type=Path,
        help="where rows are kept (the user's cache)",
    )
    command.add_argument("--no-cache", action="store_true", help="keep no rows, and use none")


def _add_host_options(command: CommandParser) -> None:
    """Adds the options for rows that other hosts make."""
    command.add_argument(
        "--hosts",
        metavar="FILE",
        type=Path,
        help="read decks on these hosts, by GNU parallel",
    )
    command.add_argument(
        "--remote",
        metavar="COMMAND",
        default=NAME,
        help="what runs on a host (pert-portfolio, from the path there)",
    )
    command.add_argument(
        "--worker", action="store_true", help="what runs on a host: decks in, rows out"
    )


def days_word(word: str) -> int:
    """Returns a number of days."""
    if not (word.isascii() and word.isdigit() and len(word) <= 6):
        raise argparse.ArgumentTypeError(f"{word!r} is no number of days")
    return int(word)


def run(options: argparse.Namespace) -> int:
    """Writes the page and returns the status."""
    programs = programs_of(options)
    if options.worker:
        serve(programs, sys.stdin.buffer)
        return 0
    _check_words(options)
    with tempfile.TemporaryDirectory() as folder:
        return _write_page(programs, _jobs(options, Path(folder)), options)


def _jobs(options: argparse.Namespace, folder: Path) -> list[Job]:
    """Returns the decks to read. That of standard input gets a file in a folder."""
    jobs = []
    for path in options.deck:
        place = _kept_input(folder) if path == STANDARD_STREAM else path
        previous, baseline = _like(path, options.previous), _like(path, options.baseline)
        jobs.append(Job(place, previous, str(path), baseline))
    return jobs


def _kept_input(folder: Path) -> Path:
    """Returns a file with what standard input has, since workers and hosts have another one.

    If it cannot be read, it stays standard input, and the row of the deck says why.
    """
    path = folder / "deck.csv"
    try:
        path.write_bytes(read_deck_bytes(STANDARD_STREAM))
    except (CompanionError, OSError):
        return STANDARD_STREAM
    return path


def _write_page(programs: Programs, jobs: Sequence[Job], options: argparse.Namespace) -> int:
    """Makes the rows, writes what is asked for, and returns the status."""
    outputs = _outputs(options, jobs)
    for name in ("pert", "pert_check"):
        if options.hosts is None:
            programs.find(name)
    folder = None if options.no_cache or options.hosts is not None else _cache_folder(options.cache)
    hosts = None if options.hosts is None else Hosts(options.hosts, options.remote)
    bar = Bar(sys.stderr.isatty())
    try:
        rows = rows_of(programs, jobs, Cache(folder, programs), hosts, bar)
    finally:
        bar.clear()
    for line in [] if hosts is None else hosts.left_out:
        say(NAME, f"left out: {line}")
    if options.output is not None:
        outputs.write(*_pages(rows, options))
    if options.json:
        sys.stdout.write(to_json(Document(NAME, 1, "", tuple(rows))).decode())
    return _tell(rows, options.output)


def _check_words(options: argparse.Namespace) -> None:
    """Raises `UsageError` if there are no decks, or no place for what is made of them."""
    if not options.deck or (options.output is None and not options.json):
        raise UsageError("name decks and a page: pert-portfolio DECK.. -o PAGE")
    check_json(options, "the page")
    for option, folder in (("--previous", options.previous), ("--baseline", options.baseline)):
        if folder is not None and not folder.is_dir():
            raise UsageError(f"{option}: there is no folder {folder}")
    if options.csv and not is_file(options.output):
        raise UsageError("--csv needs a page with a name, since the table gets the same")


def _like(path: Path, folder: Path | None) -> Path | None:
    """Returns the deck of the same name in another folder, or None if there is none."""
    if folder is None or not (folder / path.name).is_file():
        return None
    return folder / path.name


def _cache_folder(chosen: Path | None) -> Path | None:
    """Returns where rows are kept, or None if the user has no place for it."""
    if chosen is not None:
        return chosen
    base = os.environ.get("XDG_CACHE_HOME", "")
    if base and os.path.isabs(base):
        return Path(base, "pert-portfolio")
    home = os.environ.get("HOME", "")
    return Path(home, ".cache", "pert-portfolio") if home else None


def _outputs(options: argparse.Namespace, jobs: Sequence[Job]) -> Outputs:
    """Returns what writes the page, which must be no deck."""
    decks = list(options.deck)
    for job in jobs:
        decks.extend(path for _, path in job.decks())
    outputs = outputs_of(options, decks, [options.hosts])
    if options.output is not None:
        outputs.check(options.output, PAGE)
    if options.csv:
        outputs.check(options.output.with_suffix(".csv"), PORTFOLIO_TABLE)
    return outputs


def _pages(rows: Sequence[Row], options: argparse.Namespace) -> list[Output]:
    """Returns the page, and the table if it is wanted."""
    files = [Output(options.output, PAGE, render(rows, options.output, options.stale))]
    if options.csv:
        path = options.output.with_suffix(".csv")
        files.append(Output(path, PORTFOLIO_TABLE, table_csv(rows, options.stale)))
    return files


def _tell(rows: Sequence[Row], output: Path | None) -> int:
    """Names refused decks and what was written, and returns the status."""
    refused = [row for row in rows if row.fault]
    for row in refused:
        line = row.fault if row.fault.startswith(row.path) else f"{row.path}: {row.fault}"
        say(NAME, line)
    place = "standard output" if output is None else named(output)
    form = message_form()
    decks = "1 deck" if len(rows) == 1 else f"{form.count(len(rows))} decks"
    say(NAME, f"{place}: {decks}, {form.count(len(refused))} refused")
    return 1 if refused else 0


class Bar:
    """A bar on standard error that grows with each deck; on a terminal alone."""

    def __init__(self, is_shown: bool) -> None:
        """Takes whether anybody looks."""
        self.is_shown = is_shown

    def __call__(self, done: int, count: int, name: str) -> None:
        """Shows how many decks are done, and the last one."""
        if not self.is_shown:
            return
        filled = WIDTH * done // max(1, count)
        bar = "#" * filled + "." * (WIDTH - filled)
        sys.stderr.write(f"\r\x1b[K[{bar}] {done} of {count} {one_line(name)[:40]}")
        sys.stderr.flush()

    def clear(self) -> None:
        """Takes the bar away."""
        if self.is_shown:
            sys.stderr.write("\r\x1b[K")
            sys.stderr.flush()
