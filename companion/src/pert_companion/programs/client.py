"""Finds and runs `pert`, `pert_check` and `pert_whatif`.

Programs are looked for in the folder that the user names, next to this package's checkout
(`bin/`), and on the PATH. A refusal of a program is a `ProgramError` with the program's own line.
"""

import os
import shutil
import subprocess
import tempfile
from collections.abc import Iterable, Iterator, Sequence
from dataclasses import dataclass
from functools import partial
from io import BufferedReader
from pathlib import Path
from typing import IO, cast

from pert_companion.model.deck import Deck, parse_deck
from pert_companion.model.errors import ProgramEndedError, ProgramError, UsageError
from pert_companion.programs import results
from pert_companion.programs.certificate import parts

_CHUNK = 1 << 16
"""The most bytes of a certificate that are read at once."""


@dataclass(frozen=True)
class Programs:
    """The programs of one folder, or of the usual places if `folder` is None."""

    folder: Path | None = None

    def find(self, name: str) -> str:
        """Returns the path of a program, or raises `UsageError` if there is none."""
        if self.folder is not None:
            found = shutil.which(name, path=os.fspath(self.folder))
        else:
            checkout = Path(__file__).resolve().parents[4] / "bin"
            found = shutil.which(name, path=os.fspath(checkout)) or shutil.which(name)
        if found is None:
            place = f"in {self.folder}" if self.folder else "in bin/ or on the PATH"
            raise UsageError(f"no program {name} {place}; build it with `make`, or name --bin")
        return os.path.abspath(found)

    def run(self, name: str, words: Sequence[str], data: bytes) -> bytes:
        """Returns what a program prints for `data` on its standard input."""
        command = [self.find(name), *words]
        try:
            done = subprocess.run(command, input=data, capture_output=True, check=False)
        except OSError as error:
            raise UsageError(f"{command[0]}: {error.strerror}") from error
        if done.returncode != 0:
            raise _refusal(name, done.returncode, done.stderr)
        return done.stdout

    def pert(self, deck: bytes, *words: str) -> bytes:
        """Returns what `pert WORD..` prints for a deck."""
        return self.run("pert", words, deck)

    def network(self, deck: Deck) -> Deck:
        """Returns the network deck of a deck: itself, or for one of tasks what `arrows` makes."""
        if not deck.is_of_tasks:
            return deck
        return parse_deck(self.pert(deck.to_bytes(), "arrows"), "the network of the plan")

    def normal(self, deck: Deck) -> results.Point:
        """Returns the schedule at normal durations of a network deck."""
        return results.read_point(self.pert(deck.to_bytes(), "normal"), deck, "normal")

    def point(self, deck: Deck, length: int) -> results.Point:
        """Returns a cheapest schedule of a network deck for a length in units."""
        return results.read_point(self.pert(deck.to_bytes(), "point", str(length)), deck)

    def curve(self, deck: Deck) -> list[results.Breakpoint]:
        """Returns the curve of a network deck."""
        return results.read_curve(self.pert(deck.to_bytes(), "curve"))

    def optimum(self, deck: Deck) -> results.Optimum:
        """Returns the cheapest length of a network deck with its price of time."""
        return results.read_optimum(self.pert(deck.to_bytes(), "optimum"), deck)

    def times(self, deck: Deck) -> results.Times:
        """Returns the report `times` of a network deck."""
        return results.read_times(self.pert(deck.to_bytes(), "times"), deck)

    def summary(self, deck: Deck) -> dict[str, results.SummaryRow]:
        """Returns the report `summary` of a network deck."""
        return results.read_summary(self.pert(deck.to_bytes(), "summary"), deck)

    def value(self, deck: Deck) -> results.Value:
        """Returns the report `value` of a network deck."""
        return results.read_value(self.pert(deck.to_bytes(), "value"), deck)

    def load(self, deck: Deck, period: int) -> results.Load:
        """Returns the report `load` of a network deck, with periods of so many days."""
        return results.read_load(self.pert(deck.to_bytes(), "load", str(period)), deck)

    def certify(self, deck: bytes) -> Iterator[bytes]:
        """Yields the certificate as `pert certify` prints it, in parts (`certificate.parts`)."""
        with tempfile.TemporaryFile() as text, tempfile.TemporaryFile() as errors:
            text.write(deck)
            text.seek(0)
            command = [self.find("pert"), "certify"]
            with subprocess.Popen(
                command, stdin=text, stdout=subprocess.PIPE, stderr=errors
            ) as running:
                output = cast(BufferedReader, running.stdout)
                yield from parts(iter(partial(output.read1, _CHUNK), b""))
                status = running.wait()
            if status != 0:
                errors.seek(0)
                raise _refusal("pert", status, errors.read())

    def check(self, deck: bytes, certificate: Iterable[bytes]) -> str:
        """Returns the line of `pert_check`: `certified 6`, or `not certified line 9 reason 4`.

        `certificate` gives its text as it comes. It is read to its end, also where the program has
        its verdict before.
        """
        with tempfile.TemporaryDirectory() as folder, tempfile.TemporaryFile() as errors:
            name = Path(folder, "deck.csv")
            name.write_bytes(deck)
            command = [self.find("pert_check"), os.fspath(name)]
            with subprocess.Popen(
                command, stdin=subprocess.PIPE, stdout=subprocess.PIPE, stderr=errors
            ) as running:
                assert running.stdin is not None and running.stdout is not None
                _feed(running.stdin, certificate)
                answer = running.stdout.read()
                status = running.wait()
            if status not in (0, 6):
                errors.seek(0)
                raise _refusal("pert_check", status, errors.read())
        return answer.decode().rstrip("\n")


def _feed(pipe: IO[bytes], texts: Iterable[bytes]) -> None:
    """Writes texts to a program, which may end before it has read them all."""
    is_read = True
    for text in texts:
        try:
            if is_read:
                pipe.write(text)
        except BrokenPipeError:
            is_read = False
    try:
        pipe.close()
    except BrokenPipeError:
        pass  # it has ended


def _refusal(name: str, status: int, errors: bytes) -> ProgramError:
    """Returns the error, with the line for the user, of a program that ends with another status."""
    line = errors.decode("utf-8", "replace").strip("\n")
    return ProgramError(line) if line else ProgramEndedError(f"{name} ended with status {status}")
