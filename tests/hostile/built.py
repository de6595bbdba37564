"""The built programs, and how one of them answers an input."""

from __future__ import annotations

import os
import subprocess
import sys
from pathlib import Path

TOP = Path(__file__).resolve().parents[2]
Answer = tuple[int, bytes, bytes]


def program(step: str, folder: str, name: str) -> str:
    """Returns the path of a program, and ends with a line of the step if it is not there."""
    path = (Path(folder) if folder else TOP / "crates" / name / "out").resolve() / name
    if not os.access(path, os.X_OK):
        print(f"{step}: no program at {path} (run 'make' or 'rt ci' first)")
        sys.exit(1)
    return str(path)


def answer(command: list[str], text: bytes) -> Answer:
    """Returns the status of a command and what it prints, if this is its input."""
    done = subprocess.run(command, input=text, capture_output=True, check=False)
    return done.returncode, done.stdout, done.stderr


def forms_without_number() -> list[str]:
    """Returns the forms of pert that are a single word, as the usage line names them."""
    usage = (TOP / "tests" / "acceptance" / "no-words" / "stderr").read_text(encoding="utf-8")
    names = [name.strip() for name in usage.removeprefix("usage: pert ").split("|")]
    return [name for name in names if " " not in name]
