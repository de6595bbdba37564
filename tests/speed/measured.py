"""How long a program takes, how much memory and how many instructions, and what it is measured on:
the programs of this folder and the decks of `large-deck`.
"""

from __future__ import annotations

import os
import re
import shutil
import subprocess
import sys
import time
from dataclasses import dataclass
from pathlib import Path
from typing import IO

HERE = Path(__file__).resolve().parent
TOP = HERE.parent.parent
Sink = int | IO[bytes]


def program(folder: str | None, name: str) -> str | None:
    """Returns the path of a built program, if it is there."""
    path = (Path(folder) if folder else TOP / "crates" / name / "out") / name
    return str(path) if os.access(path, os.X_OK) else None


def write_deck(words: str, deck: str) -> None:
    """Writes the deck that `large-deck` has for these words."""
    with open(deck, "wb") as out:
        subprocess.run(
            [sys.executable, str(HERE / "large-deck.py"), *words.split()], stdout=out, check=True
        )


def built(compilers: tuple[str, ...], source: str, target: str, flags: tuple[str, ...]) -> bool:
    """Builds a program of this folder by the first compiler that is there, and returns whether
    that is done.
    """
    compiler = next((it for it in map(shutil.which, compilers) if it), None)
    if not compiler:
        return False
    command = [compiler, "-O2", *flags, "-o", target, str(HERE / source)]
    return subprocess.run(command, check=False).returncode == 0


def compiled(scratch: str, name: str, *flags: str) -> str | None:
    """Returns a C++ program of this folder, if there is a compiler."""
    target = os.path.join(scratch, name + "".join(flags))
    return target if built(("g++", "clang++"), f"{name}.cc", target, flags) else None


def launcher(scratch: str) -> list[str]:
    """Returns the beginning of a command that measures memory: the program of `peak.c` and the file
    to which it writes. Without a C compiler it is empty.
    """
    target = os.path.join(scratch, "launcher")
    is_built = built(("cc", "gcc", "clang"), "peak.c", target, ())
    return [target, os.path.join(scratch, "peak")] if is_built else []


def reader_alone(scratch: str) -> str | None:
    """Returns the program of `csv-alone.rattle`, if there is an `rt` to prove and build it."""
    if not shutil.which("rt"):
        return None
    crate = Path(scratch) / "crates" / "csv_alone"
    for folder in ("src", "specs", "proofs"):
        (crate / folder).mkdir(parents=True)
    shutil.copy(HERE / "csv-alone.rattle", crate / "src" / "main.rt")
    for folder in ("specs", "proofs"):
        (crate / folder / "Lib.antt").touch()
    (Path(scratch) / "crates.txt").write_text("csv_alone: csv\n", encoding="ascii")
    subprocess.run(["git", "init", "-q", scratch], check=False)
    none = subprocess.DEVNULL
    subprocess.run(["rt", "run"], cwd=crate, stdin=none, stdout=none, stderr=none, check=False)
    made = crate / "out" / "csv_alone"
    return str(made) if os.access(made, os.X_OK) else None


@dataclass(frozen=True)
class Counted:
    """A run under valgrind: its status, how many instructions it took, and what it printed."""

    status: int
    instructions: int | None
    printed: str


def counted(command: list[str], source: str, sink: Sink, *functions: str) -> Counted:
    """Runs a command under valgrind, which counts its instructions, or those of these functions."""
    counter = ["valgrind", "--tool=callgrind", f"--callgrind-out-file={os.devnull}"]
    counter += [f"--toggle-collect=*{name}*" for name in functions]
    with open(source, "rb") as stream:
        done = subprocess.run(
            [*counter, *command],
            stdin=stream,
            stdout=sink,
            stderr=subprocess.PIPE,
            text=True,
            check=False,
        )
    found = re.search(r"Collected : (\d+)", done.stderr)
    return Counted(done.returncode, int(found[1]) if found else None, done.stdout or "")


@dataclass(frozen=True)
class Run:
    """The status of a command, its wall time in seconds and, if it was measured, its peak memory in
    bytes.
    """

    status: int
    wall: float
    memory: int


@dataclass(frozen=True)
class Meter:
    """Measures commands. `peak` is the beginning of a command that measures memory."""

    peak: list[str]
    counts: bool

    def once(self, command: list[str], source: str, out: str) -> Run:
        """Runs a command on a file."""
        with open(source, "rb") as stream, open(out, "wb") as sink:
            begin = time.monotonic()
            done = subprocess.run(
                [*self.peak, *command],
                stdin=stream,
                stdout=sink,
                stderr=subprocess.DEVNULL,
                check=False,
            )
            wall = time.monotonic() - begin
        if not self.peak:
            return Run(done.returncode, wall, 0)
        memory = int(Path(self.peak[1]).read_text(encoding="ascii")) * 1024
        return Run(done.returncode, wall, memory)

    def instructions(self, command: list[str], source: str) -> str:
        """Returns how many million instructions a command takes, if they are counted."""
        if not self.counts:
            return ""
        count = counted(command, source, subprocess.DEVNULL).instructions
        return f"{count / 1e6:.1f}" if count is not None else "-"
