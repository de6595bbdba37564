"""`pert-report`: a page about a project for people who decide."""

import argparse
import sys
import time
from pathlib import Path

from pert_companion.analysis.lengths import named_length
from pert_companion.cli.choosing import add_length_options, length_choice, programs_of
from pert_companion.cli.common import CommandParser, message_form, say
from pert_companion.cli.opening import with_tables
from pert_companion.cli.outcomes import CheckOutcome, ReportOutcome
from pert_companion.cli.writing import add_output_options, check_json, named, outputs_of
from pert_companion.model.errors import UsageError
from pert_companion.model.lines import one_line
from pert_companion.model.output import PAGE, Output
from pert_companion.model.source import read_bytes, shown_name
from pert_companion.page.again import check_page
from pert_companion.page.gathering import Gathered, gather
from pert_companion.page.render import render
from pert_companion.page.report import page_of
from pert_companion.page.source import Source, Wishes
from pert_companion.page.verify import verify_page
from pert_companion.state.project import open_state
from pert_companion.writers.json_file import Document, result_text, to_json

NAME = "pert-report"
EXAMPLES = """\
  pert-report wing.csv -o wing.html                 the page of a project
  pert-report wing.csv --length 76 -o wing.html     76 days are chosen when it opens
  pert-report m3.csv --baseline m0.csv --previous m2.csv -o m3.html   with what changed
  pert-report wing.csv --brief -o wing.html         what fits on one sheet of paper
  pert-report --check wing.html                     whether it is what its data make
  pert-report --verify-page pert-verify.html        the page that checks such pages"""
MOST_BYTES = 256 * 1024 * 1024
"""The longest page that `--check` reads."""
PAUSE = 0.2
"""Seconds between two lines of progress."""


def parser() -> CommandParser:
    """Returns the parser of the command's words."""
    command = CommandParser(NAME, "Writes a page about a project as one HTML file.", EXAMPLES)
    command.add_argument("deck", type=Path, nargs="?", help="a deck or a deck of tasks")
    add_length_options(command, prefers_optimum=True)
    add_output_options(command, "PAGE", "the page to write")
    command.add_argument(
        "--baseline", metavar="DECK", type=Path, help="the plan that progress is compared with"
    )
    command.add_argument(
        "--previous", metavar="DECK", type=Path, help="the deck of the report before this one"
    )
    command.add_argument("--currency", metavar="TEXT", help="what stands after amounts, as EUR")
    command.add_argument("--brief", action="store_true", help="only what fits on one sheet")
    command.add_argument(
        "--check", metavar="PAGE", type=Path, help="make a page again from its data, and compare"
    )
    command.add_argument(
        "--verify-page", metavar="OUT", type=Path, help="write the page that checks such pages"
    )
    command.add_argument("--json", action="store_true", help="print what was done as JSON")
    return command


class Meter:
    """Shows how far a long computation is, on a terminal alone."""

    def __init__(self, is_shown: bool) -> None:
        """Takes whether anybody looks."""
        self.is_shown = is_shown
        self.begun = time.monotonic()
        self.last = 0.0

    def __call__(self, text: str) -> None:
        """Shows a text in the place of the one before, if some time has passed."""
        now = time.monotonic()
        if self.is_shown and now - self.last >= PAUSE:
            self.last = now
            self.write(f"{text}{self.estimate(text, now)}")

    def estimate(self, text: str, now: float) -> str:
        """Returns how many seconds are left if it goes on like this."""
        share = text.removesuffix(" %").rpartition(" ")[2]
        if not share.isdigit() or int(share) < 5:
            return ""
        passed = now - self.begun
        return f", about {round(passed * (100 - int(share)) / int(share))} s left"

    def write(self, text: str) -> None:
        """Writes a text over the line of the terminal."""
        sys.stderr.write(f"\r\x1b[K{one_line(text)}")
        sys.stderr.flush()

    def __enter__(self) -> "Meter":
        return self

    def __exit__(self, *error: object) -> None:
        """Takes the last text away."""
        if self.is_shown and self.last:
            self.write("")
            sys.stderr.write("\r")


def run(options: argparse.Namespace) -> int:
    """Writes the page and returns the status."""
    check_json(options, "the page")
    outputs = outputs_of(options, [options.deck, options.baseline, options.previous])
    if options.verify_page is not None:
        outputs.write(Output(options.verify_page, PAGE, verify_page()))
        say(NAME, f"{named(options.verify_page)}: the page that checks a report or a certificate")
        if options.deck is None:
            return 0
    if options.check is not None:
        return check(options)
    if options.deck is None or options.output is None:
        raise UsageError("name a deck and a page: pert-report DECK -o PAGE")
    outputs.check(options.output, PAGE)
    state = with_tables(open_state(options.deck, programs_of(options)))
    wishes = Wishes(
        named_length(state.rest, length_choice(options)),
        options.optimum,
        options.normal,
        options.currency,
        options.brief,
    )
    others = []
    for path in (options.baseline, options.previous):
        others.append(None if path is None else with_tables(open_state(path, state.programs)))
    source = Source(wishes, state, *others)
    with Meter(sys.stderr.isatty()) as meter:
        gathered = gather(source, meter)
    page = render(page_of(gathered))
    outputs.write(Output(options.output, PAGE, page))
    say(
        NAME, f"{named(options.output)}: {message_form().count(len(page))} bytes, {gathered.answer}"
    )
    if options.json:
        sys.stdout.write(result_text(NAME, state.side, _outcome(options.output, page, gathered)))
    return 0


def _outcome(path: Path, page: bytes, gathered: Gathered) -> ReportOutcome:
    """Returns what was written, for JSON."""
    state = gathered.state
    unit = state.rest.side.unit_minutes
    return ReportOutcome(
        str(path), len(page), gathered.answer, state.data_day, gathered.length, unit
    )


def check(options: argparse.Namespace) -> int:
    """Says whether a page is what this version makes of the data in it."""
    if options.deck is not None or options.output is not None:
        raise UsageError("--check takes a page alone: pert-report --check PAGE")
    page = read_bytes(options.check, MOST_BYTES, "page")
    with Meter(sys.stderr.isatty()) as meter:
        verdict = check_page(page, shown_name(options.check), programs_of(options), meter)
    if options.json:
        outcome = CheckOutcome(shown_name(options.check), verdict.is_right, verdict.text)
        sys.stdout.write(to_json(Document(f"{NAME} --check", 1, "", outcome)).decode())
    else:
        print(verdict.text)
    return 0 if verdict.is_right else 1
