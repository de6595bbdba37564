#!/usr/bin/env python3
"""Compares what-if sessions, line by line, with new runs of the programs on edited decks. It is
outside the gate.

    tests/differential/sessions.py [COUNT [SEED]] [--programs FOLDER]     COUNT lines (default: 5000), the same ones for a seed

Each session has about twenty to a hundred lines on the house, the shed, or a network as in
tests/differential/run.py, with pieces. `session.py` decides which lines are refused, and why.
Curves, reports of times and least costs of trials are what `pert curve`, `pert times` and `pert
point` print for the deck with the edits in it. Without pert_whatif nothing is compared.
"""

from __future__ import annotations

import functools
import importlib.machinery
import importlib.util
import os
import random
import subprocess
import sys
import tempfile
from types import ModuleType
from typing import Any

HERE = os.path.dirname(os.path.abspath(__file__))
TOP = os.path.dirname(os.path.dirname(HERE))
sys.dont_write_bytecode = True


def module(name: str, path: str) -> ModuleType:
    """Loads a script as a module, whatever its name ends with."""
    spec = importlib.util.spec_from_loader(name, importlib.machinery.SourceFileLoader(name, path))
    assert spec and spec.loader
    loaded = importlib.util.module_from_spec(spec)
    spec.loader.exec_module(loaded)
    return loaded


plain = module("session", os.path.join(HERE, "session.py"))
networks = module("networks", os.path.join(HERE, "run.py"))


class Anew:
    """What the programs say of a deck's text."""

    def __init__(self, pert: str) -> None:
        """Keeps a thousand answers, since most edits are taken back."""
        self.pert = pert
        self.say = functools.lru_cache(1_000)(self.told)

    def told(self, text: str, *form: str) -> str | None:
        """Returns what the program prints of a deck, or nothing if it has no such length."""
        done = subprocess.run(
            [self.pert, *form], input=text, capture_output=True, text=True, check=False
        )
        if done.returncode == 1 and done.stderr.startswith("F32 "):
            return None
        if done.returncode != 0:
            sys.exit(f"differential: status {done.returncode} of {form}, {done.stderr} on\n{text}")
        return done.stdout

    def curve(self, text: str) -> str:
        """Returns the curve."""
        return self.say(text, "curve") or ""

    def times(self, text: str) -> str:
        """Returns the report of times."""
        return self.say(text, "times") or ""

    def cost(self, text: str, length: int) -> int | None:
        """(a length of no range has more digits than a word of the command line has room for)"""
        told = self.say(text, "point", str(min(length, 10**9)))
        return int(told.splitlines()[1].split()[1]) if told else None


def line_of(draw: random.Random, deck: Any) -> bytes:
    """A line of some form, most often one that is accepted."""
    act = (
        draw.choice(list(deck.acts)) if draw.random() < 0.97 else draw.choice(["NONE", "x", "A-1"])
    )
    has = deck.acts.get(act) or next(iter(deck.acts.values()))
    now = {name: int(has[place]) for name, place in plain.PLACES.items()}

    def near(name: str) -> int:
        """Returns a number near the present one, or now and then about a limit."""
        number = now[name] + draw.choice([-3, -2, -1, -1, 0, 0, 1, 1, 2, 5])
        return (
            max(0, number)
            if draw.random() < 0.98
            else draw.choice([100_000, 100_001, 100_000_000, 100_000_001, 9_999_999_999_999])
        )

    way = draw.random()
    if way < 0.12:
        line = "ESTIMATE %s %d %d %d" % (
            act,
            *sorted(near(name) for name in ("opt", "likely", "pess")),
        )
    elif way < 0.42:
        name = draw.choice(["normal", "crash", "slope"])
        line = "%s %s %d" % (name.upper(), act, near(name))
    elif way < 0.70:
        line = "TRY %s %d %d %d %d" % (
            act,
            near("normal"),
            near("crash"),
            near("slope"),
            draw.choice([0, 1, 5, 9, 27, 28, 30, 33, 35, draw.randint(0, 40)]),
        )
    else:
        line = draw.choice(["CURVE", "CURVE", "TIMES", "UNDO", "UNDO"])
    if draw.random() < 0.05:
        k = draw.randrange(len(line))
        line = line[:k] + draw.choice(["", " ", "0", "x", "\t", line[k] * 2]) + line[k + 1 :]
    return line.encode()


def drawn_text(draw: random.Random) -> str:
    """Returns the house, the shed or a network."""
    name = draw.choice(["house", "shed", None, None])
    if not name:
        text: str = networks.deck(*networks.network(draw))
        return text
    with open(os.path.join(TOP, "examples", name + ".csv"), encoding="utf-8", newline="") as file:
        return file.read()


def compared(draw: random.Random, anew: Anew, whatif: str, path: str, number: int) -> int:
    """Compares one session, and returns how many lines it has."""
    text = drawn_text(draw)
    with open(path, "w", encoding="utf-8", newline="") as file:
        file.write(text)
    session = plain.Session(text, anew.curve, anew.times, anew.cost)
    asked, wanted = [], []
    for _ in range(draw.randint(20, 100)):
        asked.append(line_of(draw, session.deck))
        wanted.append(session.answer(asked[-1]))
    given = b"".join(line + b"\n" for line in asked)
    done = subprocess.run([whatif, path], input=given, capture_output=True, check=False)
    if done.returncode != 0 or done.stdout != "".join(wanted).encode():
        pairs = (f"{line!r}\n{answer}" for line, answer in zip(asked, wanted))
        print(text, *pairs, "TOLD", done.stdout.decode(), done.stderr.decode(), sep="\n")
        sys.exit("differential: session %d differs, status %d" % (number, done.returncode))
    return len(asked)


def main() -> None:
    """Compares session by session, and ends at the first that differs."""
    words = sys.argv[1:]
    folder = words[words.index("--programs") + 1] if "--programs" in words else None
    numbers = [int(word) for word in words if word.isdigit()]
    count, seed = numbers[0] if numbers else 5_000, numbers[1] if len(numbers) > 1 else 7
    pert, whatif = (
        os.path.join(folder or os.path.join(TOP, "crates", name, "out"), name)
        for name in ("pert", "pert_whatif")
    )
    if not os.access(whatif, os.X_OK):
        print(f"differential: sessions skipped, no program at {whatif}")
        return
    draw = random.Random(seed)
    anew = Anew(pert)
    lines = sessions = 0
    with tempfile.TemporaryDirectory() as scratch:
        while lines < count:
            lines += compared(draw, anew, whatif, os.path.join(scratch, "deck.csv"), sessions)
            sessions += 1
    print(
        "differential: %d lines in %d sessions of seed %d, answered as by the programs anew"
        % (lines, sessions, seed)
    )


if __name__ == "__main__":
    main()
