"""Finds and runs the programs `pert`, `pert_check` and `pert_whatif` for the scripts of this
folder.
"""

from __future__ import annotations

import argparse
import os
import shutil
import subprocess
from pathlib import Path


class Refused(Exception):
    """What a program or a script refuses: the line for standard error, and the status to end
    with.
    """

    def __init__(self, line: str, status: int = 1) -> None:
        """Keeps the line, and the status with which a script ends."""
        super().__init__(line)
        self.status = status


def find(name: str, folder: str | None = None) -> str:
    """Returns the path of a program: in `folder` if one is given, else in bin/ or companion/bin/
    next to the folder of this script, else on the PATH.
    """
    top = Path(__file__).resolve().parent.parent
    here = top / "bin"
    found = shutil.which(name, path=os.fspath(folder or f"{here}:{top / 'companion' / 'bin'}")) or (
        None if folder else shutil.which(name)
    )
    if not found:
        places = folder or f"{here} or on the PATH"
        raise Refused(
            f"no program {name} in {places}; build it with `make`, or name its folder with --bin"
        )
    return os.path.abspath(found)


def run(command: list[str], text: bytes) -> str:
    """Runs a program with `text` as its standard input and returns what it prints. Its fault
    line, if it has one, is raised as it is.
    """
    try:
        done = subprocess.run(command, input=text, capture_output=True)
    except OSError as reason:
        raise Refused(f"{command[0]}: {reason.strerror}")
    if done.returncode:
        line = (
            done.stderr.decode(errors="replace").strip()
            or done.stdout.decode(errors="replace").strip()
        )
        raise Refused(
            line or f"{command[0]} ended with the status {done.returncode}", max(done.returncode, 1)
        )
    return done.stdout.decode()


def whole(text: str) -> int:
    """The type of an option that is a whole number."""
    if not text.isascii() or not text.isdigit():
        raise argparse.ArgumentTypeError(f"{text!r} is not a whole number")
    return int(text)
