"""Files that were dropped: read in a process of their own, with its steps as events."""

import secrets
import shutil
from collections.abc import Callable
from dataclasses import dataclass, field
from pathlib import Path
from threading import Lock, Thread
from typing import Any

from pert_companion.desk.errors import BusyError, MissingError, desk_error
from pert_companion.desk.workers import Workers

MOST_KEPT = 16
"""Uploads that are kept; the oldest are forgotten."""

Finish = Callable[["Upload", dict[str, Any]], None]
"""Is called in the process of the desk with an outcome, before the browser gets it."""


@dataclass
class Upload:
    """A file that was dropped, and how far reading it is."""

    name: str
    folder: Path
    """The folder of the desk in which the file is, and what is made of it."""
    file: Path
    options: dict[str, Any]
    key: str = field(default_factory=lambda: secrets.token_hex(8))
    events: list[tuple[str, dict[str, Any]]] = field(default_factory=list)
    """What the browser is told: `progress`, then `outcome` or `failed`."""
    version: int = 0
    """The version of the project that a list is booked on."""
    runs: int = 0

    @property
    def is_done(self) -> bool:
        """Says whether there is an outcome or a failure."""
        return bool(self.events) and self.events[-1][0] != "progress"


class Uploads:
    """The files that were dropped since the desk was opened."""

    def __init__(self, folder: Path, workers: Workers) -> None:
        """Takes a folder for the files, and the processes that read them."""
        self._folder = folder
        self._workers = workers
        self._kept: dict[str, Upload] = {}
        self._lock = Lock()

    def add(self, name: str, options: dict[str, Any]) -> Upload:
        """Returns a new upload with a folder of its own, in which its file is to be."""
        key = secrets.token_hex(8)
        folder = self._folder / key
        folder.mkdir(parents=True)
        upload = Upload(name, folder, folder / name, options, key)
        with self._lock:
            self._kept[key] = upload
            old = [each for each in self._kept.values() if each.is_done or not each.runs]
            for each in old[: max(0, len(self._kept) - MOST_KEPT)]:
                self._drop(each)
            if len(self._kept) > MOST_KEPT:
                self._drop(upload)
                raise BusyError("too many files are being read; wait for some of them")
        return upload

    def get(self, key: str) -> Upload:
        """Returns an upload; `MissingError` if there is none of this name."""
        with self._lock:
            if key not in self._kept:
                raise MissingError("this file is not known any more; drop it again")
            return self._kept[key]

    def remove(self, key: str) -> None:
        """Forgets an upload."""
        with self._lock:
            if key in self._kept:
                self._drop(self._kept[key])

    def begin(self, upload: Upload, request: dict[str, Any], finish: Finish) -> None:
        """Begins to read a file; `upload.events` get what happens."""
        if upload.runs and not upload.is_done:
            raise BusyError("this file is being read")
        upload.runs += 1
        upload.events = []
        Thread(target=self._read, args=(upload, request, finish), daemon=True).start()

    def read(self, request: dict[str, Any]) -> dict[str, Any]:
        """Returns the outcome of reading a file, at once."""
        return self._workers.run(request, lambda _percent, _text: None)

    def _read(self, upload: Upload, request: dict[str, Any], finish: Finish) -> None:
        events = upload.events

        def tell(percent: int, text: str) -> None:
            events.append(("progress", {"percent": percent, "text": text}))

        try:
            outcome = self._workers.run(request, tell)
            finish(upload, outcome)
            events.append(("outcome", outcome))
        except Exception as error:  # pylint: disable=broad-except
            events.append(("failed", desk_error(error).json()))

    def _drop(self, upload: Upload) -> None:
        self._kept.pop(upload.key, None)
        shutil.rmtree(upload.folder, ignore_errors=True)
