#!/usr/bin/env python3
"""Measures how the work of reports grows when there are twice as many cards of a kind.

    tests/hostile/growth.py [--time] [FOLDER [KIND..]]

FOLDER is where the programs are (default: as `rt ci` leaves them), KIND a kind in small letters, as
`event`. Each kind of card is tried in decks with an eighth, a quarter, a half and all of the cards
that version 2 may have, with each of the commands that docs/speed.md says are linear. The last two
sizes are judged: the larger deck may take at most 2.6 times the work of the smaller one.

Work is instructions, as `valgrind --tool=callgrind` counts them, or with --time the processor time
of the program and of the system for it, the least of three runs. Without valgrind it is skipped.
"""

from __future__ import annotations

import os
import re
import resource
import shutil
import subprocess
import sys
import tempfile
from collections.abc import Callable

from built import program
from cards import LIMITS, Limit, deck, text

MOST = 2.6
PARTS = (8, 4, 2, 1)
FORMS = ("check", "times", "summary", "value", "load 30", "migrate")
Work = Callable[[list[str], str], float]


class Refused(Exception):
    """A deck was not answered, or its work could not be measured."""


def instructions(command: list[str], source: str) -> float:
    """Returns how many instructions a command takes with a file as its input, in millions."""
    counter = ["valgrind", "--tool=callgrind", "--callgrind-out-file=/dev/null"]
    with open(source, "rb") as stream:
        done = subprocess.run(
            [*counter, *command],
            stdin=stream,
            stdout=subprocess.DEVNULL,
            stderr=subprocess.PIPE,
            check=False,
        )
    counted = re.search(rb"Collected : (\d+)", done.stderr)
    if done.returncode != 0 or not counted:
        raise Refused(f"status {done.returncode}, {done.stderr[-100:]!r}")
    return int(counted[1]) / 1e6


def milliseconds(command: list[str], source: str) -> float:
    """Returns the processor time that a command takes with a file as its input, the least of
    three runs, in milliseconds.
    """
    return min(once(command, source) for _ in range(3))


def once(command: list[str], source: str) -> float:
    """Returns the processor time of one run, in milliseconds."""
    before = resource.getrusage(resource.RUSAGE_CHILDREN)
    with open(source, "rb") as stream:
        done = subprocess.run(command, stdin=stream, stdout=subprocess.DEVNULL, check=False)
    after = resource.getrusage(resource.RUSAGE_CHILDREN)
    if done.returncode != 0:
        raise Refused(f"status {done.returncode}")
    return 1000 * (after.ru_utime + after.ru_stime - before.ru_utime - before.ru_stime)


def sizes(limit: Limit, scratch: str) -> list[str]:
    """Writes the decks of one kind, and returns their files."""
    files = []
    for part in PARTS:
        files.append(os.path.join(scratch, f"{limit.kind}-{part}"))
        with open(files[-1], "wb") as file:
            file.write(text(deck(limit, 2, limit.most[1] // part)))
    return files


def forms_of(limit: Limit) -> tuple[str, ...]:
    """Returns the commands that are measured with a kind of card."""
    return ("arrows",) if limit.is_of_tasks else FORMS


def is_found(name: str, command: list[str], files: list[str], work: Work) -> bool:
    """Measures a command with decks of doubling sizes, prints a line, and returns whether it
    grows too much.
    """
    try:
        took = [work(command, file) for file in files]
    except Refused as refused:
        print(f"FAILED growth: {name}: {refused}")
        return True
    ratio = took[-1] / max(took[-2], 1e-9)
    verdict = "FAILED growth: " if ratio > MOST else ""
    print(f"{verdict}{name}: {', '.join('%.1f' % it for it in took)}, {ratio:.2f} times")
    return ratio > MOST


def main(words: list[str]) -> int:
    """Measures each command with each kind of card, and returns the status."""
    work: Work = instructions
    if words[:1] == ["--time"]:
        work, words = milliseconds, words[1:]
    if work is instructions and not shutil.which("valgrind"):
        print("growth: skipped, since valgrind is missing")
        return 0
    pert = program("growth", words[0] if words else "", "pert")
    tried = failed = 0
    with tempfile.TemporaryDirectory() as scratch:
        for limit in LIMITS:
            if words[1:] and limit.kind.lower() not in words[1:]:
                continue
            files = sizes(limit, scratch)
            for form in forms_of(limit):
                tried += 1
                name = f"{form}, {limit.kind} cards{' of tasks' * limit.is_of_tasks}"
                failed += is_found(name, [pert, *form.split()], files, work)
    unit = "milliseconds" if work is milliseconds else "million instructions"
    print(f"growth: {tried} commands with cards of a kind, in {unit}, {failed} grow too much")
    return 1 if failed or not tried else 0


if __name__ == "__main__":
    sys.exit(main(sys.argv[1:]))
