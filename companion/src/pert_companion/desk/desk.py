"""The desk: the folder that is open, its projects, and what was dropped on it."""

import shutil
import tempfile
from collections.abc import Iterator
from contextlib import contextmanager
from dataclasses import replace
from pathlib import Path
from threading import RLock

from pert_companion.desk.errors import RefusedError
from pert_companion.desk.listing import HIDDEN, decks_of, found_in, name_of
from pert_companion.desk.projects import OpenProject
from pert_companion.desk.rows import FolderRows
from pert_companion.desk.saving import finish_saves
from pert_companion.desk.uploads import Uploads
from pert_companion.desk.workers import Workers
from pert_companion.importing.month_end import Books
from pert_companion.model.errors import CompanionError
from pert_companion.model.ledger import Ledger
from pert_companion.portfolio.stored import Cache
from pert_companion.programs.client import Programs

MOST_SESSIONS = 8
"""Projects whose session of `pert_whatif` runs; others begin a new one when they are edited."""


class Desk:
    """A folder of projects that is open in the browser."""

    def __init__(self, folder: Path, programs: Programs) -> None:
        """Opens a folder, and finishes what a killed desk was saving."""
        self.folder = folder
        self.programs = programs
        self.lock = RLock()
        self.finished = finish_saves(folder)
        self.scratch = Path(tempfile.mkdtemp(prefix="pert-desk-"))
        self.workers = Workers()
        self.uploads = Uploads(self.scratch / "uploads", self.workers)
        self.exports: dict[str, Path] = {}
        self.rows = FolderRows(programs, Cache(folder / HIDDEN / "rows", programs))
        self._projects: dict[str, OpenProject] = {}

    def deck(self, key: str) -> Path:
        """Returns the deck of a project of the folder; `MissingError` if there is none."""
        return found_in(decks_of(self.folder), key, "project")

    def project(self, key: str) -> OpenProject:
        """Returns a project, opened if it is not; `DeskError` if it cannot be opened."""
        with self.lock:
            found = self._projects.pop(key, None)
            if found is None:
                path = self.deck(key)
                try:
                    found = OpenProject(path, self.programs)
                except CompanionError as error:
                    raise RefusedError(str(error).replace(str(path), path.name)) from error
            self._projects[key] = found
            for other in list(self._projects.values())[:-MOST_SESSIONS]:
                other.rest_session()
        return found

    @contextmanager
    def changing(self, key: str, version: int | None) -> Iterator[OpenProject]:
        """Gives a project that no other request changes meanwhile.

        Raises `ConflictError` or `OutsideError` if it is not the one that the browser shows.
        """
        project = self.project(key)
        with project.lock:
            if version is not None:
                project.check_version(version)
                project.check_outside()
            yield project

    def unsaved(self, path: Path) -> int:
        """Returns how many changes of a deck are not saved, also those of a killed desk."""
        found = self._projects.get(name_of(path))
        if found is not None:
            return found.unsaved
        return FolderRows.unsaved_of(path)

    @staticmethod
    def with_ledger(books: Books, ledger: Ledger, has_ledger: bool) -> Books:
        """Returns a deck with the ledger of the project that it is a newer state of."""
        return replace(books, ledger=ledger, has_ledger=has_ledger) if has_ledger else books

    def close(self) -> None:
        """Ends all processes of the desk, and removes what it does not need any more."""
        self.workers.close()
        with self.lock:
            for project in self._projects.values():
                project.close()
        shutil.rmtree(self.scratch, ignore_errors=True)
