"""Files that are read, and standard input under the name `-`."""

import sys
from dataclasses import dataclass
from pathlib import Path

from pert_companion.model.errors import InputError

STANDARD_STREAM = Path("-")
"""Standard input among the files to read, and standard output among those to write."""


@dataclass(frozen=True)
class Source:
    """A file that is read: its name as the user gave it, and its bytes."""

    path: Path
    data: bytes

    @property
    def name(self) -> str:
        """Returns the name for messages."""
        return shown_name(self.path)


def shown_name(path: Path) -> str:
    """Returns the name of a file for messages."""
    return "standard input" if path == STANDARD_STREAM else str(path)


def read_bytes(path: Path, most: int, what: str = "") -> bytes:
    """Returns the content of a file, or of standard input if its name is `-`.

    Raises `InputError` if it has more than `most` bytes; `what` says what it cannot be then.
    """
    if path == STANDARD_STREAM:
        data = sys.stdin.buffer.read(most + 1)
        if not data:
            raise InputError("standard input: empty; it can be read once")
    else:
        with path.open("rb") as file:
            data = file.read(most + 1)
    if len(data) > most:
        end = f", no {what}" if what else ""
        raise InputError(f"{shown_name(path)}: more than {most} bytes{end}")
    return data
