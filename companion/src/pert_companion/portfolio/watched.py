"""Runs a command for GNU parallel, and ends it when nothing comes from its host any more.

    python3 watched.py SECONDS COMMAND WORD..

`ssh` alone ends a connection to a host that is unplugged after most of a minute, and never one to a
host whose worker hangs. It imports nothing of the package, so that it starts quickly.
"""

import os
import select
import subprocess
import sys
from collections.abc import Sequence

SILENT = 124
"""The status for a command that was ended because it was silent, as that of `timeout`."""
MOST_BYTES = 65536


def run(seconds: float, words: Sequence[str]) -> int:
    """Runs a command, passes on what it writes, and returns its status, or `SILENT`.

    A command that a signal ended has 128 more than the signal as its status, as in a shell.
    """
    running = subprocess.Popen(words, stdout=subprocess.PIPE)
    try:
        assert running.stdout is not None
        if not _pass_on(running.stdout.fileno(), seconds):
            return SILENT
        status = running.wait()
        return status if status >= 0 else 128 - status
    finally:
        running.kill()
        running.wait()


def _pass_on(source: int, seconds: float) -> bool:
    """Writes what comes to standard output; returns whether it ended before it was silent."""
    while select.select([source], [], [], seconds)[0]:
        part = os.read(source, MOST_BYTES)
        if not part:
            return True
        sys.stdout.buffer.write(part)
        sys.stdout.buffer.flush()
    return False


if __name__ == "__main__":
    sys.exit(run(float(sys.argv[1]), sys.argv[2:]))
