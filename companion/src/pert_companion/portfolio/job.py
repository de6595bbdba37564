"""A deck to read for a page of several projects."""

from collections.abc import Iterator
from dataclasses import dataclass
from pathlib import Path


@dataclass(frozen=True)
class Job:
    """A deck to read: its file, those that it is compared with, and what the page calls it."""

    path: Path
    previous: Path | None
    """The deck of the report before, if there is one."""
    name: str
    baseline: Path | None = None
    """The deck of the plan that it is held to, if one is given."""

    def decks(self) -> Iterator[tuple[str, Path]]:
        """Yields its decks, each with what it is to the row."""
        yield "deck", self.path
        if self.previous is not None:
            yield "previous", self.previous
        if self.baseline is not None:
            yield "baseline", self.baseline
