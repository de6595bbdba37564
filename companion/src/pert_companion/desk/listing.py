"""The names of the desk for the files of its folder: the browser gets and sends these alone.

A name is made of the file's name, so that an address holds after a restart; it is looked up in the
list of the folder, and never turned into a path.
"""

import csv
import io
from collections.abc import Iterator
from hashlib import sha256
from pathlib import Path

from pert_companion.desk.errors import MissingError
from pert_companion.state.folder import is_deck

PLANNER_ENDINGS = (".xml", ".xer", ".xlsx", ".csv", ".txt", ".gan", ".planner", ".mpp")
"""The endings of files that may be planners' files."""
HIDDEN = ".pert-desk"
"""The folder of the desk in the user's folder: journals, and what was there before each save."""
_TITLE = 7
"""The place of the title in a PROJECT card."""
MOST_FILES = 2000
"""Files of the folder that are looked at."""


def name_of(path: Path) -> str:
    """Returns the desk's name for a file of its folder."""
    return sha256(path.name.encode("utf-8", "surrogateescape")).hexdigest()[:16]


def decks_of(folder: Path) -> list[Path]:
    """Returns the decks of a folder by name. Files that do not begin as a deck are passed over."""
    return [path for path in _files(folder) if path.suffix.lower() == ".csv" and is_deck(path)]


def planner_files(folder: Path) -> list[Path]:
    """Returns the files of a folder that may be planners' files."""
    found = []
    for path in _files(folder):
        is_ours = path.name.endswith((".ledger.csv", ".before.csv"))
        if path.suffix.lower() in PLANNER_ENDINGS and not is_ours and not is_deck(path):
            found.append(path)
    return found


def found_in(paths: list[Path], name: str, what: str) -> Path:
    """Returns the file of a list with a name of the desk; `MissingError` if there is none."""
    for path in paths:
        if name_of(path) == name:
            return path
    raise MissingError(f"there is no such {what} in the folder; was it renamed or removed?")


def title_of(deck: Path) -> str:
    """Returns the title of a project by the first card of its deck; without one the file's name."""
    with deck.open("rb") as file:
        beginning = file.read(1 << 12).decode("utf-8", "replace").lstrip("\ufeff")
    card: list[str] = next(csv.reader(io.StringIO(beginning, newline="")), [])
    return card[_TITLE] if len(card) > _TITLE and card[_TITLE] else deck.stem


def free_name(folder: Path, name: str, ending: str) -> Path:
    """Returns a path of a folder that no file has: `wing.csv`, or `wing-2.csv`.

    Characters that are no letters, digits, hyphens, points or underscores become hyphens.
    """
    plain = "".join(char if char.isalnum() or char in "-._ " else "-" for char in name)
    stem = plain.strip(" .-")[:80] or "project"
    path, number = folder / f"{stem}{ending}", 1
    while path.exists() or path.with_suffix(".json").exists():
        number += 1
        path = folder / f"{stem}-{number}{ending}"
    return path


def _files(folder: Path) -> Iterator[Path]:
    """Yields the regular files of a folder that are not hidden, by name."""
    for path in sorted(folder.iterdir())[:MOST_FILES]:
        if not path.name.startswith(".") and path.is_file():
            yield path
