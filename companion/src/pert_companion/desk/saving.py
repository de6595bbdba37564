"""Writes the files of a project: all of them as they were, or all of them as they will be.

A deck and its side file belong together, and no system replaces two files at once. So the new
content is complete in the desk's own folder before the first of them is replaced; when a desk opens
the folder after one that was killed in between, it finishes what had begun. What was there before a
save is kept, each time.
"""

import json
import shutil
from dataclasses import dataclass
from datetime import datetime
from hashlib import sha256
from pathlib import Path

from pert_companion.desk.listing import HIDDEN
from pert_companion.importing.month_end import Books
from pert_companion.model import deck as decks
from pert_companion.model.fitting import fitted_to
from pert_companion.model.ledger import ledger_path, to_bytes
from pert_companion.model.output import write_together, write_whole
from pert_companion.model.sidefile import side_path, to_json

COMPLETE = "complete"
"""The file that says that all new content is there; it has the place of the deck."""
PARTS = ("deck", "side", "ledger")


@dataclass(frozen=True)
class Files:
    """The content of the files of a project; None where there is none."""

    deck: bytes
    side: bytes | None = None
    ledger: bytes | None = None

    @property
    def digest(self) -> str:
        """Returns what the files are known by."""
        found = sha256()
        for data in (self.deck, self.side, self.ledger):
            found.update(b"none " if data is None else b"%d " % len(data))
            found.update(data or b"")
        return found.hexdigest()

    def parts(self, deck: Path) -> list[tuple[Path, bytes]]:
        """Returns the files of a deck's path with their content."""
        paths = (deck, side_path(deck), ledger_path(deck))
        contents = (self.deck, self.side, self.ledger)
        return [(path, data) for path, data in zip(paths, contents) if data is not None]


def read_files(deck: Path) -> Files:
    """Returns the files of a project as they are; `OSError` if there is no deck."""
    data = decks.read_bytes(deck)
    side, ledger = side_path(deck), ledger_path(deck)
    return Files(
        data,
        side.read_bytes() if side.is_file() else None,
        ledger.read_bytes() if ledger.is_file() else None,
    )


def files_of(books: Books) -> Files:
    """Returns the files that a project is written as."""
    return Files(
        books.deck.to_bytes(),
        to_json(fitted_to(books.side, books.deck)) if books.has_side_file else None,
        to_bytes(books.ledger) if books.has_ledger else None,
    )


def save(deck: Path, files: Files) -> Path:
    """Writes the files of a project, and returns where the deck of before is kept."""
    before = keep_before(deck)
    waiting = deck.parent / HIDDEN / "saving" / deck.name
    _prepare(waiting, deck, files)
    write_together(files.parts(deck))
    shutil.rmtree(waiting, ignore_errors=True)
    return before


def keep_before(deck: Path) -> Path:
    """Keeps the files of a project as they are, and returns the path of the deck that is kept.

    A deck that somebody else has removed leaves nothing to keep.
    """
    folder = deck.parent / HIDDEN / "before" / deck.stem
    folder.mkdir(parents=True, exist_ok=True)
    moment = datetime.now().strftime("%Y-%m-%dT%H-%M-%S-%f")
    kept = folder / f"{moment}.csv"
    if deck.is_file():
        write_together(read_files(deck).parts(kept))
    return kept


def _prepare(waiting: Path, deck: Path, files: Files) -> None:
    """Writes all new content, and then that it is complete."""
    shutil.rmtree(waiting, ignore_errors=True)
    waiting.mkdir(parents=True)
    parts = files.parts(deck)
    for path, data in parts:
        write_whole(waiting / path.name, data)
    names = json.dumps([path.name for path, _ in parts])
    write_whole(waiting / COMPLETE, names.encode())


def finish_saves(folder: Path) -> list[str]:
    """Finishes what a desk was saving when it was killed; returns the names of these decks.

    A save of which no file had been replaced is forgotten.
    """
    finished = []
    for waiting in sorted((folder / HIDDEN / "saving").glob("*")):
        parts = _waiting_parts(waiting, folder)
        has_begun = any(path.is_file() and path.read_bytes() == data for path, data in parts)
        if has_begun:
            write_together(parts)
            finished.append(waiting.name)
        shutil.rmtree(waiting, ignore_errors=True)
    return finished


def _waiting_parts(waiting: Path, folder: Path) -> list[tuple[Path, bytes]]:
    """Returns the files that a save was to write; none if its new content is not complete."""
    try:
        names = json.loads((waiting / COMPLETE).read_text())
        return [(folder / Path(name).name, (waiting / name).read_bytes()) for name in names]
    except (OSError, ValueError):
        return []
