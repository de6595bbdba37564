#!/usr/bin/env python3
"""Compares pert_check with other checkers on right and tampered certificates: line and reason.

    tests/hostile/second.py [--node] [--coq] [--decks DECKS] [FOLDER [SEED [TRIES [STRUCTURES]]]]

The other checker is examples/check.py; with --node so is check.js of the report page, run by node,
and with --coq pert-recheck, as `make recheck` leaves it, on the deck that `pert migrate` writes.
FOLDER is where the programs are (default: as `rt ci` leaves them). The certificates are

- those of tests/hostile/certificates.sh: each prefix, each byte replaced, left out or doubled, the two
  tables of changes, and endless texts;
- those that cases of tests/acceptance give to pert_check;
- the right ones of the accepted decks of tests/acceptance, with TRIES changes of a line each
  (default: 60), and of DECKS generated decks (default: 40);
- STRUCTURES changes of structure (default: 5000): segments repeated, swapped, joined, split, with
  equal ends, rows and walks changed, sections moved. Half of them are of generated decks.

SEED (default: 1) determines all changes. Where a table or a case says what the answer must be, all
checkers must give it.
"""

from __future__ import annotations

import argparse
import base64
import io
import itertools
import json
import os
import random
import subprocess
import sys
import tempfile
from collections import Counter
from collections.abc import Iterable, Iterator
from concurrent.futures import ThreadPoolExecutor
from dataclasses import dataclass
from pathlib import Path
from typing import Protocol

HERE = Path(__file__).resolve().parent
TOP = HERE.parent.parent
sys.dont_write_bytecode = True
sys.path += [str(HERE), str(TOP / "examples")]

import check  # noqa: E402
import tampered  # noqa: E402

CASES = TOP / "tests" / "acceptance"
LARGEST = 200_000  # bytes of a certificate that is changed
BATCH = 400


@dataclass(frozen=True)
class Try:
    """A certificate to check against a deck. `wanted` is the answer that a table or a case says."""

    name: str
    deck: Path
    text: bytes
    is_right: bool = False
    wanted: str | None = None


class Checker(Protocol):
    """Another checker, which answers as pert_check does."""

    name: str

    def answers(self, tries: list[Try]) -> list[str]:
        """Returns what it says of each certificate."""
        ...


class CheckPy:
    """The checker in examples/check.py."""

    name = "check.py"

    def __init__(self) -> None:
        """Keeps each deck that it has read."""
        self.decks: dict[Path, check.Deck] = {}

    def answers(self, tries: list[Try]) -> list[str]:
        """Returns what it says of each certificate."""
        return [self.answer(it) for it in tries]

    def answer(self, it: Try) -> str:
        """Returns what it says of a certificate, in the words of pert_check."""
        if it.deck not in self.decks:
            self.decks[it.deck] = check.Deck(str(it.deck))
        lines = check.Lines(io.BytesIO(it.text))
        try:
            return f"certified {check.check(self.decks[it.deck], lines)}"
        except check.Wrong as wrong:
            return f"not certified line {lines.count} reason {wrong.args[0]}"


class CheckJs:
    """The checker of the report page, in one process of node that answers line by line."""

    name = "check.js"

    def __init__(self) -> None:
        """Starts node."""
        script = TOP / "companion" / "src" / "pert_companion" / "page" / "check.js"
        command = ["node", str(HERE / "answers.js"), str(script)]
        self.process = subprocess.Popen(command, stdin=subprocess.PIPE, stdout=subprocess.PIPE)

    def answers(self, tries: list[Try]) -> list[str]:
        """Returns what it says of each certificate, asked in one line."""
        assert self.process.stdin is not None and self.process.stdout is not None
        texts = [base64.b64encode(it.text).decode() for it in tries]
        asked = [{"deck": str(it.deck), "text": text} for it, text in zip(tries, texts)]
        self.process.stdin.write(json.dumps(asked).encode() + b"\n")
        self.process.stdin.flush()
        answers: list[str] = json.loads(self.process.stdout.readline())
        return answers


class Recheck:
    """The checker that is proved with Coq, which reads decks in canonical form."""

    name = "pert-recheck"

    def __init__(self, programs: Programs, room: Path) -> None:
        """Keeps each deck's canonical form in a file of the folder."""
        self.programs = programs
        self.room = room
        self.decks: dict[Path, Path] = {}
        self.program = TOP / "bin" / "pert-recheck"
        if not os.access(self.program, os.X_OK):
            sys.exit(f"second: no program at {self.program} (run 'make recheck' first)")

    def answers(self, tries: list[Try]) -> list[str]:
        """Returns what it says of each certificate."""
        for it in tries:
            if it.deck not in self.decks:
                self.decks[it.deck] = self.migrated(it.deck)
        with ThreadPoolExecutor() as pool:
            return list(pool.map(self.answer, tries))

    def answer(self, it: Try) -> str:
        """Returns what it says of a certificate; its status must agree."""
        return answer_of([str(self.program), str(self.decks[it.deck])], it.text)

    def migrated(self, deck: Path) -> Path:
        """Writes the canonical form of a deck, and returns its name."""
        form = self.room / f"canonical-{len(self.decks)}.csv"
        with deck.open("rb") as source, form.open("wb") as target:
            command = [self.programs.path("pert"), "migrate"]
            subprocess.run(command, stdin=source, stdout=target, check=True)
        return form


def answer_of(command: list[str], certificate: bytes) -> str:
    """Returns what a checker prints, with its status unless that is the one for what it prints."""
    done = subprocess.run(command, input=certificate, capture_output=True, check=False)
    line = done.stdout.decode().rstrip("\n")
    status = 0 if line.startswith("certified") else 6
    return line if done.returncode == status else f"{line}, status {done.returncode}"


class Programs:
    """The built programs."""

    def __init__(self, folder: str | None) -> None:
        """Takes the programs of a folder, or those that `rt ci` leaves."""
        self.folder = folder

    def path(self, name: str) -> str:
        """Returns the path of a program, and ends if it is not there."""
        folder = Path(self.folder) if self.folder else TOP / "crates" / name / "out"
        path = folder / name
        if not os.access(path, os.X_OK):
            sys.exit(f"hostile: no program at {path} (run 'make' or 'rt ci' first)")
        return str(path)

    def answer(self, it: Try) -> str:
        """Returns what pert_check says of a certificate; its status must agree."""
        return answer_of([self.path("pert_check"), str(it.deck)], it.text)

    def certificate(self, deck: bytes) -> bytes | None:
        """Returns the certificate of a deck, or None if the deck is refused."""
        command = [self.path("pert"), "certify"]
        done = subprocess.run(command, input=deck, capture_output=True, check=False)
        return done.stdout if done.returncode == 0 else None


# ---- The certificates that are tried


def of_the_shed() -> Iterator[Try]:
    """Yields the right certificate of the three-activity deck, and each change of a byte."""
    deck = CASES / "certificate" / "deck.csv"
    right = (CASES / "certificate" / "cert.txt").read_bytes()
    yield Try("the right certificate", deck, right, is_right=True)
    for text in tampered.one_byte_changed(right):
        yield Try("one byte changed", deck, text)
    for text in tampered.endless(right):
        yield Try("an endless text", deck, text)


def of_tables() -> Iterator[Try]:
    """Yields the changes of the two tables, each with the answer that the table says."""
    again = CASES / "certify-rows-again"
    yield from of_table(
        "changes", CASES / "certificate" / "deck.csv", CASES / "certificate" / "cert.txt"
    )
    yield from of_table("changes-again", again / "deck.csv", again / "stdout")


def of_table(name: str, deck: Path, certificate: Path) -> Iterator[Try]:
    """Yields the changes of one table, made to this certificate."""
    for row in (HERE / name).read_text().splitlines():
        if row.startswith("#"):
            continue
        change, point = row.split("|")
        line, reason = point.split(" ")
        command = ["sed", change.replace(";", "\n"), str(certificate)]
        text = subprocess.run(command, capture_output=True, check=True).stdout
        yield Try(change, deck, text, wanted=f"not certified line {line} reason {reason}")


def of_cases() -> Iterator[Try]:
    """Yields the certificates that cases of tests/acceptance give to pert_check."""
    for answer in sorted(CASES.glob("*/stdout")):
        case = answer.parent
        if text_of(case / "program") == b"pert_check\n" and text_of(case / "args") == b"deck.csv\n":
            wanted = answer.read_text().rstrip("\n")
            named = text_of(case / "deck").decode().strip()
            deck = (CASES / named if named else case) / "deck.csv"
            yield Try(case.name, deck, text_of(case / "cert.txt"), wanted=wanted)


def text_of(file: Path) -> bytes:
    """Returns what a file of a case has. A missing one is empty."""
    return file.read_bytes() if file.is_file() else b""


def right_ones(
    programs: Programs, chance: random.Random, decks: int, room: Path
) -> list[list[Try]]:
    """Returns the right certificates of accepted decks of tests/acceptance, and of generated ones."""
    ours, made = [], []
    seen: set[bytes] = set()
    for deck in sorted(CASES.glob("*/deck.csv")):
        text = deck.read_bytes()
        certificate = None if text in seen else programs.certificate(text)
        seen.add(text)
        if certificate is not None and len(certificate) <= LARGEST:
            ours.append(Try(deck.parent.name, deck, certificate, is_right=True))
    for number in range(decks):
        deck = room / f"{number}.csv"
        deck.write_bytes(tampered.random_deck(chance))
        certificate = programs.certificate(deck.read_bytes())
        if certificate is None:
            sys.exit(f"second: generated deck {number} is refused")
        made.append(Try(f"generated deck {number}", deck, certificate, is_right=True))
    return [ours, made]


def all_tries(programs: Programs, words: argparse.Namespace, room: Path) -> Iterator[Try]:
    """Yields all certificates that are tried."""
    chance = random.Random(words.seed)
    yield from of_the_shed()
    yield from of_tables()
    yield from of_cases()
    ours, made = right_ones(programs, chance, words.decks, room)
    yield from ours + made
    for it in ours:
        for _ in range(words.tries):
            yield Try(f"{it.name}, changed", it.deck, tampered.one_line_changed(it.text, chance))
    for number in range(words.structures):
        it = chance.choice(made if number % 2 else ours)
        yield Try(f"{it.name}, structure", it.deck, tampered.structure_changed(it.text, chance))


# ---- The comparison


@dataclass
class Counts:
    """How many certificates were tried and differ, and how many got each answer."""

    tried: int = 0
    differ: int = 0
    right: int = 0

    def __post_init__(self) -> None:
        """Begins with no answer of any kind."""
        self.kinds: Counter[str] = Counter()

    def add(self, it: Try, ours: str, theirs: dict[str, str]) -> None:
        """Counts a certificate, and prints it if the answers differ or are not the wanted one."""
        self.tried += 1
        self.right += it.is_right
        self.kinds[kind_of(ours)] += 1
        wanted = it.wanted or ("certified" if it.is_right else "")
        if ours.startswith(wanted) and set(theirs.values()) == {ours}:
            return
        self.differ += 1
        print(f"FAILED second: {it.name}: pert_check says {ours}, {theirs}, wanted {wanted}")
        print(f"    {it.text[-60:]!r}, deck {it.deck.name}", flush=True)


def kind_of(answer: str) -> str:
    """Returns `certified`, or the reason."""
    return "certified" if answer.startswith("certified") else answer.rpartition(" ")[2]


def batches(tries: Iterable[Try]) -> Iterator[list[Try]]:
    """Yields so many tries at a time."""
    rest = iter(tries)
    while batch := list(itertools.islice(rest, BATCH)):
        yield batch


def main() -> int:
    """Compares the checkers, and returns the status."""
    parser = argparse.ArgumentParser(
        description=__doc__, formatter_class=argparse.RawDescriptionHelpFormatter
    )
    parser.add_argument("--node", action="store_true")
    parser.add_argument("--coq", action="store_true")
    parser.add_argument("--decks", type=int, default=40)
    parser.add_argument("folder", nargs="?", default="")
    parser.add_argument("seed", nargs="?", type=int, default=1)
    parser.add_argument("tries", nargs="?", type=int, default=60)
    parser.add_argument("structures", nargs="?", type=int, default=5000)
    words = parser.parse_args()
    programs, counts = Programs(words.folder or None), Counts()
    others: list[Checker] = [CheckPy()]
    if words.node:
        others.append(CheckJs())
    with tempfile.TemporaryDirectory() as folder, ThreadPoolExecutor() as pool:
        room = Path(folder)
        if words.coq:
            others.append(Recheck(programs, room))
        names = [other.name for other in others]
        for batch in batches(all_tries(programs, words, room)):
            firsts = pool.map(programs.answer, batch)
            answers = [other.answers(batch) for other in others]
            for it, ours, *theirs in zip(batch, firsts, *answers):
                counts.add(it, ours, dict(zip(names, theirs)))
    passed = counts.tried - counts.differ
    print("second: how many of each reason:", dict(sorted(counts.kinds.items())))
    print(
        f"pert_check and {' and '.join(names)}, seed {words.seed}: {passed} passed, "
        f"{counts.differ} failed, {counts.right} of them untampered, "
        f"{words.structures} changed in structure"
    )
    return int(counts.differ > 0)


if __name__ == "__main__":
    sys.exit(main())
