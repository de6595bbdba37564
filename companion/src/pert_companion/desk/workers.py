"""Runs the processes that read files: a few at once, none longer than the desk."""

import json
import subprocess
import sys
from collections.abc import Callable
from pathlib import Path
from threading import BoundedSemaphore, Lock, Timer
from typing import Any

from pert_companion.desk.errors import FailedError, RefusedError

AT_ONCE = 2
"""Processes that read files at the same time."""
SECONDS = 600.0
"""The longest that a process may take by the clock."""
START = (
    "import sys; sys.path.insert(0, sys.argv[1]);"
    "from pert_companion.desk.reading import main; main()"
)


class Workers:
    """The processes of a desk that read files."""

    def __init__(self) -> None:
        """Starts nothing yet."""
        self._places = BoundedSemaphore(AT_ONCE)
        self._running: set[subprocess.Popen[bytes]] = set()
        self._lock = Lock()
        self._is_closed = False

    def run(self, request: dict[str, Any], tell: Callable[[int, str], None]) -> dict[str, Any]:
        """Returns the outcome of a request; `tell` gets each step that is done.

        Raises `RefusedError` with the line for people if the file cannot be used, and
        `FailedError` if the process was ended.
        """
        with self._places:
            process = self._start()
            watch = Timer(SECONDS, process.kill)
            watch.start()
            try:
                return _outcome(process, request, tell)
            finally:
                watch.cancel()
                self._end(process)

    def close(self) -> None:
        """Ends all processes, and lets no other begin."""
        with self._lock:
            self._is_closed = True
            for process in self._running:
                process.kill()

    def _start(self) -> "subprocess.Popen[bytes]":
        """Starts a process. It is isolated from the environment if this one is."""
        root = str(Path(__file__).resolve().parents[2])
        flags = "-IB" if sys.flags.isolated else "-B"
        with self._lock:
            if self._is_closed:
                raise FailedError("the desk is about to end")
            process = subprocess.Popen(
                [sys.executable, flags, "-c", START, root],
                stdin=subprocess.PIPE,
                stdout=subprocess.PIPE,
                stderr=subprocess.DEVNULL,
            )
            self._running.add(process)
        return process

    def _end(self, process: "subprocess.Popen[bytes]") -> None:
        process.kill()
        for pipe in (process.stdin, process.stdout):
            assert pipe is not None
            try:
                pipe.close()
            except OSError:
                pass  # what was not sent is not wanted any more
        process.wait()
        with self._lock:
            self._running.discard(process)


def _outcome(
    process: "subprocess.Popen[bytes]",
    request: dict[str, Any],
    tell: Callable[[int, str], None],
) -> dict[str, Any]:
    """Returns what a process answers at last."""
    assert process.stdin is not None and process.stdout is not None
    try:
        process.stdin.write(json.dumps(request).encode() + b"\n")
        process.stdin.flush()
    except BrokenPipeError:
        pass  # it has ended; its answer says why, if there is one
    for line in process.stdout:
        answer: dict[str, Any] = json.loads(line)
        if "outcome" in answer:
            outcome: dict[str, Any] = answer["outcome"]
            return outcome
        if "failed" in answer:
            raise RefusedError(answer["failed"])
        tell(answer["percent"], answer["text"])
    raise FailedError("reading this file took too much time or memory; nothing was changed")
