"""A session of `pert_whatif`: a process that answers lines about one network (docs/whatif.md)."""

import os
import subprocess
import tempfile
from collections.abc import Callable
from pathlib import Path
from threading import Timer

from pert_companion.model.errors import ProgramEndedError, ProgramError, UsageError
from pert_companion.programs import results
from pert_companion.programs.client import Programs

PATIENCE = 60.0
"""Seconds after which a program that does not answer is ended."""

REASONS = {
    1: "this is no line of a session",
    2: "no activity has this code",
    3: "a number is over its limit",
    4: "the shortest duration is above the normal one",
    5: "the three estimates are out of order",
    6: "a further slope (PIECE) no longer fits",
    7: "there is nothing to take back",
    8: "the length is outside the curve",
}
"""What the number after `NO` means."""


class RefusedLineError(ProgramError):
    """A line that the session refuses; it has changed nothing."""


class WhatIf:
    """One process of `pert_whatif`. It ends with this object, and when this process ends."""

    def __init__(self, programs: Programs, network: bytes) -> None:
        """Starts a session about a network deck.

        Raises `UsageError` if there is no program. A deck that it refuses is a `ProgramError` of
        the first line.
        """
        command = programs.find("pert_whatif")
        with tempfile.TemporaryDirectory() as folder:
            path = Path(folder, "deck.csv")
            path.write_bytes(network)
            try:
                self._process = subprocess.Popen(
                    [command, os.fspath(path)],
                    stdin=subprocess.PIPE,
                    stdout=subprocess.PIPE,
                    stderr=subprocess.PIPE,
                )
            except OSError as error:
                raise UsageError(f"{command}: {error.strerror}") from error
            try:
                self._is_ready()
            except BaseException:
                self.close()
                raise

    def edit(self, *words: object) -> None:
        """Sends a line that changes the project.

        Raises `RefusedLineError` if the session refuses it, and `ProgramError` if it has ended.
        """
        line = " ".join(map(str, words))
        answer = self._ask(line, lambda text: True).decode().rstrip("\n")
        if answer == "OK":
            return
        number = answer.removeprefix("NO ")
        why = REASONS.get(int(number), answer) if number.isdigit() else answer
        raise RefusedLineError(f"pert_whatif refuses {line!r}: {why}")

    def curve(self) -> tuple[results.Breakpoint, ...]:
        """Returns the curve of the project as the lines before leave it."""
        return tuple(results.read_curve(self._ask("CURVE", _ends_curve)))

    def close(self) -> None:
        """Ends the process."""
        self._process.kill()
        for pipe in (self._process.stdin, self._process.stdout, self._process.stderr):
            assert pipe is not None
            try:
                pipe.close()
            except OSError:
                pass  # what was not sent is not wanted any more
        self._process.wait()

    def _is_ready(self) -> None:
        """Waits until the deck has been read: an empty line is refused, and changes nothing."""
        self._ask("", lambda text: True)

    def _ask(self, line: str, is_last: Callable[[bytes], bool]) -> bytes:
        """Returns the lines of an answer, up to the one that is the last."""
        assert self._process.stdin is not None and self._process.stdout is not None
        watch = Timer(PATIENCE, self._process.kill)
        watch.start()
        found = []
        try:
            self._process.stdin.write(f"{line}\n".encode())
            self._process.stdin.flush()
            for text in self._process.stdout:
                found.append(text)
                if is_last(text) or text.startswith(b"NO "):
                    return b"".join(found)
        except (BrokenPipeError, ValueError):
            pass  # it has ended, or was closed
        finally:
            watch.cancel()
        raise self._ending()

    def _ending(self) -> ProgramError:
        """Returns the error, with the line for the user, of a process that has ended by itself."""
        if self._process.poll() is None:
            self._process.kill()
        status = self._process.wait()
        assert self._process.stderr is not None
        try:
            line = self._process.stderr.read().decode("utf-8", "replace").strip("\n")
        except ValueError:
            line = ""
        if line:
            return ProgramError(line)
        return ProgramEndedError(f"pert_whatif ended with status {status}")


def _ends_curve(line: bytes) -> bool:
    """Says whether a line of a curve is that of the shortest length."""
    return line.endswith(b" -\n")
