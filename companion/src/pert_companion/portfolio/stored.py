"""Rows as JSON: in the cache, and between the hosts of a large portfolio.

What is read is checked: an unknown key, a wrong type, a wrong version, a value that no deck has, or
a row of another deck is no row.
"""

import json
import os
from dataclasses import asdict, fields
from hashlib import sha256
from pathlib import Path
from typing import Any, get_args

from pert_companion import VERSION
from pert_companion.model.output import write_whole
from pert_companion.model.sidefile import side_path
from pert_companion.portfolio.job import Job
from pert_companion.portfolio.plausible import is_plausible
from pert_companion.portfolio.row import Milestone, Row, WeekLoad
from pert_companion.programs.client import Programs

FORM = 4
"""The form of what is stored; another one is not read."""
MOST_BYTES = 16 * 1024 * 1024


def row_text(row: Row) -> str:
    """Returns a row as one line of JSON."""
    return json.dumps({"form": FORM, **asdict(row)}, ensure_ascii=True, sort_keys=True)


def row_from(text: str, name: str) -> Row | None:
    """Returns the row of a text of `row_text`, or None if it is none of the deck of this name."""
    try:
        found = json.loads(text)
        if not isinstance(found, dict) or found.pop("form", None) != FORM:
            return None
        row = _checked(found)
    except (ValueError, TypeError, KeyError, RecursionError):
        return None
    return row if row.path == name and is_plausible(row) else None


def _checked(found: dict[str, Any]) -> Row:
    milestone, loads = found.pop("milestone"), found.pop("loads")
    plain = [field for field in fields(Row) if field.name not in ("milestone", "loads")]
    if set(found) != {field.name for field in plain}:
        raise ValueError("other keys")
    for field in plain:
        _require(found[field.name], field.type)
    return Row(
        **found,
        milestone=None if milestone is None else Milestone(**_of(milestone, Milestone)),
        loads=tuple(WeekLoad(**_of(load, WeekLoad)) for load in loads),
    )


def _of(found: dict[str, Any], kind: type[Milestone] | type[WeekLoad]) -> dict[str, Any]:
    for field in fields(kind):
        _require(found[field.name], field.type)
    return found


def _require(value: object, annotation: Any) -> None:
    """Raises `ValueError` if a value is not of the type of a field, such as int or int | None."""
    types = get_args(annotation) or (annotation,)
    if not isinstance(value, types) or (isinstance(value, bool) and bool not in types):
        raise ValueError("another type")


class Cache:
    """Rows of earlier runs, in a folder, by the checksum of all that they are made of."""

    def __init__(self, folder: Path | None, programs: Programs) -> None:
        """Takes the folder, or None to keep nothing, and the programs that make the figures."""
        self.folder = folder
        self.start = sha256(f"{FORM} {VERSION}".encode())
        if folder is not None:
            for name in ("pert", "pert_check"):
                _add(self.start, Path(programs.find(name)))

    def key(self, job: Job) -> str:
        """Returns the checksum of a deck, those it is compared with, side files and programs."""
        digest = self.start.copy()
        named = os.fsencode(job.name)
        digest.update(b"%d %b" % (len(named), named))
        for deck in (job.path, job.previous, job.baseline):
            for part in (None, None) if deck is None else (deck, side_path(deck)):
                _add(digest, part)
        return digest.hexdigest()

    def get(self, key: str, name: str) -> Row | None:
        """Returns the row that is kept under a key for the deck of a name, or None."""
        if self.folder is None:
            return None
        path = self.folder / f"{key}.json"
        try:
            if path.stat().st_size > MOST_BYTES:
                return None
            return row_from(path.read_text("utf-8"), name)
        except (OSError, UnicodeDecodeError):
            return None

    def put(self, key: str, row: Row) -> None:
        """Keeps a row; a cache that cannot be written to keeps nothing."""
        if self.folder is None:
            return
        try:
            self.folder.mkdir(parents=True, exist_ok=True)
            write_whole(self.folder / f"{key}.json", row_text(row).encode())
        except OSError:
            self.folder = None


def _add(digest: Any, path: Path | None) -> None:
    """Adds the content of a file to a checksum, with its length; or that there is none."""
    try:
        data = None if path is None else path.read_bytes()
    except OSError:
        data = None
    digest.update(b"none " if data is None else b"%d " % len(data))
    digest.update(data or b"")
