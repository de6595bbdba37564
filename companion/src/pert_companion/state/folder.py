"""Opens the states of a project: decks, or a folder of decks, each as of its own day."""

from collections.abc import Iterable, Iterator
from pathlib import Path

from pert_companion.model.errors import InputError
from pert_companion.programs.client import Programs
from pert_companion.state.project import ProjectState, open_state

FIRST_BYTES = (
    b"PROJECT,",
    b'"PROJECT",',
    b"\xef\xbb\xbfPROJECT,",
    b'\xef\xbb\xbf"PROJECT",',
)


def open_states(paths: Iterable[Path], programs: Programs) -> list[ProjectState]:
    """Returns the states of decks in the order given; a folder is its decks by as-of date.

    Files of a folder that do not begin with a PROJECT card are no decks and passed over.
    """
    states: list[ProjectState] = []
    for path in paths:
        if path.is_dir():
            states.extend(_folder_states(path, programs))
        else:
            states.append(open_state(path, programs))
    return states


def _folder_states(folder: Path, programs: Programs) -> list[ProjectState]:
    found = [open_state(path, programs) for path in _decks(folder)]
    if not found:
        raise InputError(f"{folder}: no deck in this folder")
    return sorted(found, key=lambda state: (state.as_of, state.name))


def _decks(folder: Path) -> Iterator[Path]:
    for path in sorted(folder.glob("*.csv")):
        if is_deck(path):
            yield path


def is_deck(path: Path) -> bool:
    """Says whether a file begins as a deck does."""
    with path.open("rb") as file:
        return file.read(16).startswith(FIRST_BYTES)
