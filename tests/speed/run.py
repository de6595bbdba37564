#!/usr/bin/env python3
"""Measures the built programs on large decks, and prints a table.

    tests/speed/run.py [--instructions] [--only=WORD] [FOLDER]     FOLDER: where the programs are (default: as `rt ci` leaves them)
    tests/speed/run.py --solver [--only=WORD] [FOLDER]             only the solver, next to two others in C++
    tests/speed/run.py --growth [FOLDER]                           `curve` where one event has many activities
    tests/speed/run.py --floor [FOLDER]                            `certify` and `pert_check` next to a plain program in C++

--only=WORD takes only the decks that `large-deck` writes for this word. A deck of tasks goes
through `arrows`, and the result is checked. On a deck of the benchmark what-if sessions are run
too, each with lines of one kind.

Wall time is the least of three runs. Memory is the peak of the process alone (by `peak.c`; needs a
C compiler). With --instructions, valgrind counts the instructions of the complete process, which
takes some minutes. With a C++ compiler, the time-cost curve is also computed by `textbook.cc`,
which starts its labels from nothing at each step, and its answer is compared with the program's.
With `rt`, each deck is also read by `csv-alone.rattle`, which is only the library's own reader.

--solver prints a table of solving alone, without reading and writing: valgrind's count of the
instructions from the solver's beginning to its last segment, for the program, for the model
`labels.cc`, which labels as the program does, for the same with events in columns, as the program
has them, and for `textbook.cc`. All must print the same curve. The model also counts how often it
looks at an activity.

--growth prints valgrind's count of the instructions of `curve` on decks of 1,250 to 20,000
activities that begin or end at one event. The largest take valgrind some minutes each.

--floor prints valgrind's count of the instructions a byte of the certificate: `certify` and
`pert_check`, and what `plain.cc` takes for a pass over the line ends and for writing the
certificate's words and numbers.
"""

from __future__ import annotations

import argparse
import os
import resource
import shutil
import subprocess
import sys
import tempfile
from dataclasses import dataclass

from measured import Meter, compiled, counted, launcher, program, reader_alone, write_deck

DECKS = [
    ("plain", "plain"),
    ("full", "full"),
    ("all limits of version 2", "limits"),
    ("bench 400", "bench 400"),
    ("bench 1000", "bench 1000"),
    ("bench 4000", "bench 4000"),
    ("wide, 5,000 events, 10,000 activities", "wide 5000 10000"),
    ("wide with pieces", "wide 5000 10000 3"),
    ("long, 5,000 events, 10,000 activities", "long 5000 10000"),
    ("long with pieces", "long 5000 10000 3"),
    ("wide, 10,000 events, 20,000 activities", "wide 10000 20000"),
    ("long, 10,000 events, 20,000 activities", "long 10000 20000"),
    ("4,000 tasks, 8,000 AFTER cards", "tasks 4000 8000"),
]

# The lines of a what-if session: how many of which.
SESSIONS = [
    (0, "CURVE"),
    (1, "CURVE"),
    (1, "TIMES"),
    (1_000, "ESTIMATE A1 3 4 5"),
    (1_000, "SLOPE A1 5"),
    (10, "TRY A1 9 0 3 18000"),
]

# The decks on which the solver is measured alone.
SOLVED = [
    "bench 4000",
    "wide 5000 10000",
    "wide 5000 10000 3",
    "wide 5000 10000 0 40 100000000",
    "wide 5000 10000 0 200",
    "wide 5000 10000 0 1000",
    "series 5000 10000",
    "series 5000 10000 3",
    "series 5000 10000 0 100000000",
]

# The decks on which `curve` grows fastest, and those whose certificates are compared with `plain.cc`.
PARALLEL = [f"parallel {activities}" for activities in (1250, 2500, 5000, 10000, 20000)]
STARS = [f"star {events}" for events in (627, 1252, 2502, 5002, 10000)]
FLOORS = ["bench 1000", "wide 1000 2000"]


def points_of(curve: str) -> list[str]:
    """Returns the lines of a curve that are breakpoints."""
    return [line for line in curve.splitlines() if line[:1].isdigit()]


def text_of(path: str) -> str:
    """Returns the text of a file."""
    with open(path, encoding="ascii") as file:
        return file.read()


@dataclass(frozen=True)
class Programs:
    """The programs that are measured; all but the first may be missing."""

    pert: str
    check: str | None
    whatif: str | None
    textbook: str | None = None
    reader: str | None = None


@dataclass(frozen=True)
class Table:
    """The rows of one deck, in a folder for its files."""

    programs: Programs
    meter: Meter
    scratch: str
    name: str
    words: str

    def file(self, name: str) -> str:
        """Returns the path of a file in the folder."""
        return os.path.join(self.scratch, name)

    def row(
        self, what: str, command: list[str], source: str, out: str = os.devnull, size: int = 0
    ) -> bool:
        """Measures a command, prints its row, and returns whether the command ended with 0.

        `size` is what it reads or writes, in bytes, if its rate is of interest.
        """
        runs = [self.meter.once(command, source, out) for _ in range(3)]
        status, wall = runs[0].status, min(run.wall for run in runs)
        cells = [
            self.name,
            what,
            str(status) if status else "",
            f"{wall * 1000:.1f}",
            f"{max(run.memory for run in runs) / 1e6:.1f}",
            f"{size / wall / 1e6:.0f}" if size else "",
            self.meter.instructions(command, source),
        ]
        print(f"| {' | '.join(cells)} |", flush=True)
        return status == 0

    def rows(self) -> None:
        """Prints all rows of the deck."""
        deck, pert = self.file("deck.csv"), self.programs.pert
        write_deck(self.words, deck)
        size = os.path.getsize(deck)
        if self.programs.reader:
            self.row("csv-alone.rattle", [self.programs.reader], deck, size=size)
        if self.words.startswith("tasks"):
            arrows = self.file("ours")
            self.row("arrows", [pert, "arrows"], deck, out=arrows, size=size)
            written = os.path.getsize(arrows)
            self.row("check of the arrows", [pert, "check"], arrows, size=written)
            return
        for form in ("check", "times", "summary", "value", "migrate"):
            self.row(form, [pert, form], deck, size=size)
        if self.words in ("full", "limits"):
            return
        self.curve(deck)
        if self.words.startswith("bench"):
            self.row("bench", [pert, *self.words.split()], os.devnull)
            self.sessions(deck)
        self.certificate(deck)

    def curve(self, deck: str) -> None:
        """Prints the rows of the curve, and compares it with the textbook's."""
        ours, theirs = self.file("ours"), self.file("theirs")
        textbook = self.programs.textbook
        if not self.row("curve", [self.programs.pert, "curve"], deck, out=ours) or not textbook:
            return
        self.row("textbook.cc", [textbook, "deck", deck], deck, out=theirs)
        if points_of(text_of(ours)) != text_of(theirs).splitlines():
            print(f"speed: the curves differ on {self.name}")

    def sessions(self, deck: str) -> None:
        """Prints the rows of what-if sessions."""
        if not self.programs.whatif:
            return
        lines = self.file("lines")
        for count, line in SESSIONS:
            with open(lines, "w", encoding="ascii") as out:
                out.write((line + "\n") * count)
            what = f"session, {count} of `{line}`" if count else "session without lines"
            self.row(what, [self.programs.whatif, deck], lines)

    def certificate(self, deck: str) -> None:
        """Prints the rows of writing and checking a certificate."""
        certificate, certify = self.file("certificate"), [self.programs.pert, "certify"]
        if self.meter.once(certify, deck, certificate).status != 0:
            return
        size = os.path.getsize(certificate)
        self.row(f"certify, {size / 1e6:.1f} MB", certify, deck, size=size)
        self.row("certify, to a file", certify, deck, out=certificate, size=size)
        if self.programs.check:
            self.row("pert_check", [self.programs.check, deck], certificate, size=size)


def complete_table(programs: Programs, only: list[str], counts: bool, scratch: str) -> None:
    """Prints what complete commands take."""
    print(
        "| Deck | What | Status | ms | MB | MB/s | M instructions |\n|---|---|---|---|---|---|---|"
    )
    textbook, reader = compiled(scratch, "textbook"), reader_alone(scratch)
    everything = Programs(programs.pert, programs.check, programs.whatif, textbook, reader)
    meter = Meter(launcher(scratch), counts)
    for name, words in DECKS:
        if not only or words.split()[0] in only:
            Table(everything, meter, scratch, name, words).rows()


def solving(command: list[str], deck: str) -> tuple[list[str], int]:
    """Returns the points that a command prints, and how many instructions its solver took."""
    done = counted(command, deck, subprocess.PIPE, "begin", "next_segment")
    return points_of(done.printed), 0 if done.status else done.instructions or 0


def solver_table(programs: Programs, only: list[str], scratch: str) -> None:
    """Prints the solver next to two others in C++."""
    print("| Deck | Looks of the model | Product | Model | Columns | Textbook | Product / model |")
    print("|---|---|---|---|---|---|---|")
    deck = os.path.join(scratch, "deck.csv")
    others = [compiled(scratch, *it) for it in (["labels"], ["labels", "-DCOLUMNS"], ["textbook"])]
    built = [it for it in others if it]
    counting = compiled(scratch, "labels", "-DLOOKS")
    if not (len(built) == len(others) and counting and shutil.which("valgrind")):
        sys.exit("speed: the solver is measured with valgrind and a C++ compiler")
    for words in SOLVED:
        if only and words.split()[0] not in only:
            continue
        write_deck(words, deck)
        looks = subprocess.run([counting, "deck", deck], capture_output=True, text=True, check=True)
        commands = [[programs.pert, "curve"], *([it, "deck", deck] for it in built)]
        runs = [solving(command, deck) for command in commands]
        if any(points != runs[0][0] for points, _ in runs):
            print(f"speed: the curves differ on {words}")
        counts = [count / 1e6 for _, count in runs]
        cells = [words, looks.stderr.strip(), *(f"{it:.1f}" for it in counts)]
        print(f"| {' | '.join(cells)} | {counts[0] / max(counts[1], 1e-6):.2f} |", flush=True)


def growth_table(programs: Programs, scratch: str) -> None:
    """Prints how `curve` grows with the activities of one event."""
    print("| Deck | Activities | Breakpoints | M instructions |\n|---|---|---|---|")
    deck = os.path.join(scratch, "deck.csv")
    for words in PARALLEL + STARS:
        write_deck(words, deck)
        activities = sum(card.startswith("ACT,") for card in text_of(deck).splitlines())
        done = counted([programs.pert, "curve"], deck, subprocess.PIPE)
        points = len(points_of(done.printed))
        count = 0 if done.status else done.instructions or 0
        print(f"| {words} | {activities} | {points} | {count / 1e6:.0f} |", flush=True)


def floor_table(programs: Programs, scratch: str) -> None:
    """Prints what `certify` and `pert_check` take a byte, next to `plain.cc`."""
    print("| Deck | Certificate, MB | Line ends | pert_check | Writing | certify |")
    print("|---|---|---|---|---|---|")
    deck, certificate = (os.path.join(scratch, it) for it in ("deck.csv", "certificate"))
    plain, check = compiled(scratch, "plain"), programs.check
    if not (plain and check and shutil.which("valgrind")):
        sys.exit("speed: the floor is measured with pert_check, valgrind and a C++ compiler")
    for words in FLOORS:
        write_deck(words, deck)
        with open(certificate, "wb") as out, open(deck, "rb") as source:
            subprocess.run([programs.pert, "certify"], stdin=source, stdout=out, check=True)
        size, none = os.path.getsize(certificate), os.devnull
        runs = [
            counted([plain, certificate], none, subprocess.DEVNULL, "line_ends"),
            counted([check, deck], certificate, subprocess.DEVNULL),
            counted([plain, certificate, none], none, subprocess.DEVNULL, "write_lines"),
            counted([programs.pert, "certify"], deck, subprocess.DEVNULL),
        ]
        counts = [0 if run.status else run.instructions or 0 for run in runs]
        cells = [words, f"{size / 1e6:.0f}", *(f"{count / size:.2f}" for count in counts)]
        print(f"| {' | '.join(cells)} |", flush=True)


def words_of(words: list[str]) -> argparse.Namespace:
    """Returns what the words of the command say."""
    parser = argparse.ArgumentParser(
        description=__doc__, formatter_class=argparse.RawDescriptionHelpFormatter
    )
    parser.add_argument("--instructions", action="store_true")
    parser.add_argument("--only", action="append", default=[], metavar="WORD")
    for table in ("--solver", "--growth", "--floor"):
        parser.add_argument(table, action="store_true")
    parser.add_argument("folder", nargs="?", metavar="FOLDER")
    return parser.parse_args(words)


def main() -> None:
    """Prints the table that is asked for."""
    words = words_of(sys.argv[1:])
    # (a program that fails leaves no core)
    resource.setrlimit(resource.RLIMIT_CORE, (0, 0))
    names = ("pert", "pert_check", "pert_whatif")
    pert, check, whatif = (program(words.folder, name) for name in names)
    if not pert:
        sys.exit("speed: no program pert (run 'make' or 'rt ci' first)")
    programs = Programs(pert, check, whatif)
    with tempfile.TemporaryDirectory() as scratch:
        if words.solver:
            solver_table(programs, words.only, scratch)
        elif words.growth:
            growth_table(programs, scratch)
        elif words.floor:
            floor_table(programs, scratch)
        else:
            counts = words.instructions and bool(shutil.which("valgrind"))
            complete_table(programs, words.only, counts, scratch)


if __name__ == "__main__":
    main()
