"""The options with which commands write files, and what they write."""

import argparse
from collections.abc import Iterable
from pathlib import Path

from pert_companion.model.errors import UsageError
from pert_companion.model.output import DECK, SIDE_FILE, Output, Outputs
from pert_companion.model.sidefile import SideFile, side_path, to_json
from pert_companion.model.source import STANDARD_STREAM


def add_output_options(
    command: argparse.ArgumentParser, metavar: str, what: str, required: bool = False
) -> None:
    """Adds `--output` with `what` as its help, and `--overwrite`."""
    command.add_argument(
        "-o",
        "--output",
        metavar=metavar,
        type=Path,
        required=required,
        help=f"{what}; - is standard output",
    )
    command.add_argument(
        "--overwrite",
        action="store_true",
        help="replace files of another kind, and files that are read, too",
    )


def outputs_of(
    options: argparse.Namespace,
    decks: Iterable[Path | None],
    files: Iterable[Path | None] = (),
) -> Outputs:
    """Returns what writes the files of a command that reads these decks and files."""
    read = [path for path in decks if path is not None]
    inputs = [*read, *map(side_path, read), *files]
    return Outputs(inputs, options.overwrite)


def is_file(path: Path | None) -> bool:
    """Says whether an output is a file, and not standard output."""
    return path is not None and path != STANDARD_STREAM


def named(path: Path) -> str:
    """Returns the name of an output for messages."""
    return str(path) if is_file(path) else "standard output"


def check_json(options: argparse.Namespace, what: str) -> None:
    """Raises `UsageError` if `--json` and `-o -` would both print; `what` is what -o writes."""
    if options.json and options.output is not None and not is_file(options.output):
        raise UsageError(f"--json and -o - both print to standard output; name {what}")


def check_deck(outputs: Outputs, path: Path | None) -> None:
    """Raises `UsageError` if a deck and its side file must not be written to a path."""
    if path is None or not is_file(path):
        return
    if path.suffix.lower() == ".json":
        raise UsageError(f"{path}: this is the name of a side file; name the deck, as in wing.csv")
    outputs.check(path, DECK)
    outputs.check(side_path(path), SIDE_FILE)


def deck_outputs(path: Path | None, data: bytes, side: SideFile | None) -> list[Output]:
    """Returns a deck and its side file as files to write.

    The deck alone goes to standard output if there is no path or no side file.
    """
    place = STANDARD_STREAM if path is None else path
    written = [Output(place, DECK, data)]
    if side is not None and is_file(path):
        written.append(Output(side_path(place), SIDE_FILE, to_json(side)))
    return written
