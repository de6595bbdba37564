"""The journal of a project: what was changed and is not saved, so that a killed desk loses nothing.

It begins with what the files were; each line after it is a step. A line that was not written to its
end is none.
"""

import json
import os
from dataclasses import dataclass
from pathlib import Path

from pert_companion.desk.listing import HIDDEN

Record = dict[str, object]


@dataclass(frozen=True)
class Kept:
    """What a journal has."""

    digest: str
    """What the files were when it began."""
    records: tuple[Record, ...]


class Journal:
    """The journal of one deck."""

    def __init__(self, deck: Path) -> None:
        """Takes the deck."""
        self.path = deck.parent / HIDDEN / "journal" / f"{deck.name}.jsonl"

    def read(self) -> Kept | None:
        """Returns what the journal has, or None if there is none."""
        try:
            lines = self.path.read_bytes().split(b"\n")[:-1]
            first, *others = [json.loads(line) for line in lines]
        except (OSError, ValueError):
            return None
        if not isinstance(first, dict) or not isinstance(first.get("files"), str):
            return None
        return Kept(first["files"], tuple(each for each in others if isinstance(each, dict)))

    def begin(self, digest: str) -> None:
        """Begins a journal for files that are known by a digest: nothing is unsaved."""
        self.path.parent.mkdir(parents=True, exist_ok=True)
        new = self.path.with_suffix(".new")
        new.write_bytes(_line({"files": digest}))
        os.replace(new, self.path)

    def append(self, record: Record) -> None:
        """Adds a step; if the disk does not take it, the journal is as it was."""
        with self.path.open("r+b") as file:
            end = file.seek(0, os.SEEK_END)
            try:
                file.write(_line(record))
                file.flush()
            except OSError:
                os.ftruncate(file.fileno(), end)
                raise

    def remove(self) -> None:
        """Removes the journal."""
        self.path.unlink(missing_ok=True)


def _line(record: Record) -> bytes:
    return (json.dumps(record, ensure_ascii=False) + "\n").encode("utf-8", "surrogateescape")
