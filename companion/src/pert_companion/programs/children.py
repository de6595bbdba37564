"""Ends the processes that this one has started."""

import os
import signal
from pathlib import Path


def end_children() -> None:
    """Ends all processes that this one has started and that still run."""
    for task in Path("/proc/self/task").glob("*/children"):
        for child in _listed(task):
            try:
                os.kill(child, signal.SIGTERM)
            except ProcessLookupError:
                pass  # it has ended by itself


def _listed(path: Path) -> list[int]:
    try:
        return [int(word) for word in path.read_text().split()]
    except OSError:
        return []  # the thread has ended
