#!/usr/bin/python3
"""Compares `pert curve` with what else computes a time-cost curve: processor time, and each cost.

- textbook: textbook.cc, which labels from nothing at each step (Fulkerson 1961). The model of
  `tests/speed/run.py --solver`, labels.cc, is no peer: its algorithm is the program's own.
- LEMON: tangents.cc, a network simplex where two tangents meet (Debian: liblemon-dev).
- CLP: lengths.cc, a linear program for each breakpoint of the curve, from the basis of the last
  (Debian: coinor-libclp-dev).
- HiGHS: the same program by scipy.optimize.linprog, each from nothing (Debian: python3-scipy).

A peer that is not installed is left out, by name. The first three need g++. CLP and HiGHS are told
at which lengths the curve turns; the others find out. Each cost of a peer must be the one that the
curve of `pert` has at this length, and each breakpoint must be among a peer's lengths. The status
is 1 if not.

A peer's time is that of solving alone. For `pert` it is that of the complete process. It is the
least of RUNS runs, for HiGHS of one. DECK is a line of words for `tests/speed/large-deck.py`.
"""

from __future__ import annotations

import argparse
import importlib
import os
import resource
import shutil
import subprocess
import sys
import tempfile
import time
from bisect import bisect_left
from dataclasses import dataclass
from pathlib import Path
from typing import Any, Callable, Iterator, Optional

HERE = Path(__file__).resolve().parent
BUILT = HERE.parent.parent / "crates" / "pert" / "out"
DECKS = [
    "bench 1000",
    "wide 500 1000",
    "wide 500 1000 3",
    "series 500 1000",
    "parallel 500",
    "star 250",
]


@dataclass
class Answer:
    """The lengths and costs that a peer computed, and the processor time that it took for them."""

    costs: list[tuple[int, int]]
    seconds: float


@dataclass
class Curve:
    """The breakpoints of `pert curve`, from the shortest length up: length, cost and slope."""

    points: list[tuple[int, int, int]]
    seconds: float

    def lengths(self) -> list[int]:
        """The lengths at which the curve turns, from the shortest up."""
        return [length for length, _, _ in self.points]

    def cost(self, length: int) -> Optional[int]:
        """The cost at a length, if the curve has it: between two breakpoints by the slope."""
        place = bisect_left(self.points, (length,))
        if place == len(self.points) or length < self.points[0][0]:
            return None
        above, cost, slope = self.points[place]
        return cost + slope * (above - length)

    def gaps(self) -> list[str]:
        """Where a slope does not lead from a breakpoint to the next: then one is missing."""
        return [
            f"pert has {cost} at the length {length}, where the slope from {above} does not lead"
            for (length, cost, _), (above, dear, slope) in zip(self.points, self.points[1:])
            if dear + slope * (above - length) != cost
        ]


# What computes the costs of the deck in a file, where CLP and HiGHS are told the lengths.
Solver = Callable[[Path, list[int]], Answer]


@dataclass
class Peer:
    """One column of the table, which is left out without the Debian packages that it needs."""

    name: str
    solve: Optional[Solver]
    packages: str


def processor_time(command: list[str], deck: Path) -> tuple[str, float]:
    """What a command prints for the deck, and its processor time."""
    before = resource.getrusage(resource.RUSAGE_CHILDREN)
    with deck.open() as source:
        done = subprocess.run(command, stdin=source, stdout=subprocess.PIPE, text=True, check=True)
    after = resource.getrusage(resource.RUSAGE_CHILDREN)
    return done.stdout, after.ru_utime - before.ru_utime + after.ru_stime - before.ru_stime


def curve_of(pert: Path, deck: Path, runs: int) -> Curve:
    """The curve of `pert`, with the least time of all runs."""
    results = [processor_time([str(pert), "curve"], deck) for _ in range(runs)]
    points = []
    for line in results[0][0].splitlines():
        words = line.split()
        if words[0].isdigit():
            points.append((int(words[0]), int(words[1]), 0 if words[2] == "-" else int(words[2])))
    return Curve(sorted(points), min(seconds for _, seconds in results))


def compiled(scratch: Path, name: str, header: str, libraries: list[str]) -> Optional[Path]:
    """A C++ program of this folder, or nothing if there is no compiler or not this header."""
    compiler = shutil.which("g++")
    if not compiler:
        return None
    probe = [compiler, "-fsyntax-only", "-x", "c++", "-"]
    if subprocess.run(
        probe, input=f"#include <{header}>\n", text=True, capture_output=True
    ).returncode:
        return None
    built = scratch / name
    source = str(HERE / f"{name}.cc")
    subprocess.run([compiler, "-O2", "-o", str(built), source, *libraries], check=True)
    return built


def program(
    built: Optional[Path], words: list[str], takes_lengths: bool, runs: int
) -> Optional[Solver]:
    """A peer in C++: it prints lengths and costs, and its time of solving to standard error."""
    if not built:
        return None

    def solve(deck: Path, lengths: list[int]) -> Answer:
        """The costs that it prints, and the least of its times."""
        told = [str(length) for length in reversed(lengths)] if takes_lengths else []
        command, answers = [str(built), *words, str(deck), *told], []
        for _ in range(runs):
            done = subprocess.run(command, capture_output=True, text=True, check=True)
            lines = [line.split() for line in done.stdout.splitlines()]
            costs = [(int(line[0]), int(line[1])) for line in lines]
            answers.append(Answer(costs, float(done.stderr)))
        return min(answers, key=lambda answer: answer.seconds)

    return solve


def cards(deck: Path, kind: str) -> Iterator[list[str]]:
    """The fields of all cards of a kind; the decks of large-deck have no quotes."""
    for line in deck.read_text(encoding="utf-8").splitlines():
        fields = line.split(",")
        if fields[0] == kind:
            yield fields


@dataclass
class Program:
    """The linear program: a column for each event's time and for the days from each piece."""

    slopes: list[float]
    most: list[Optional[float]]
    rows: list[list[tuple[int, float]]]
    least: list[float]
    normal_cost: int
    end: int


def linear_program(deck: Path) -> Program:
    """From begin to end, and the days taken, are together at least an activity's duration."""
    project = next(cards(deck, "PROJECT"))
    events = {fields[1]: number for number, fields in enumerate(cards(deck, "EVENT"))}
    further: dict[str, list[tuple[int, int]]] = {}
    for fields in cards(deck, "PIECE"):
        further.setdefault(fields[1], []).append((int(fields[2]), int(fields[3])))
    most: list[Optional[float]] = [None] * len(events)
    most[events[project[2]]] = 0
    made = Program([0] * len(events), most, [], [], 0, events[project[3]])
    for fields in cards(deck, "ACT"):
        normal, crash, cost, slope = (int(word) for word in fields[8:12])
        pieces = further.get(fields[1], [])
        pieces = [(normal - crash - sum(units for units, _ in pieces), slope), *pieces]
        columns = range(len(made.slopes), len(made.slopes) + len(pieces))
        made.rows.append([(events[fields[2]], -1), (events[fields[3]], 1)])
        made.rows[-1] += [(column, 1) for column in columns]
        made.slopes += [slope for _, slope in pieces]
        made.most += [units for units, _ in pieces]
        made.least.append(normal)
        made.normal_cost += cost
    return made


def highs(optimize: Any, sparse: Any) -> Solver:
    """HiGHS, as scipy calls it, from nothing for each length."""

    def solve(deck: Path, lengths: list[int]) -> Answer:
        """The costs of one program after another, and the time that they took together."""
        made = linear_program(deck)
        places = [(row, column) for row, found in enumerate(made.rows) for column, _ in found]
        values = [-value for found in made.rows for _, value in found]
        matrix = sparse.csr_matrix((values, tuple(zip(*places))))
        right, costs, seconds = [-least for least in made.least], [], 0.0
        for length in lengths:
            made.most[made.end] = length
            bounds = [(0, most) for most in made.most]
            begin = time.process_time()
            found = optimize.linprog(made.slopes, matrix, right, bounds=bounds, method="highs")
            seconds += time.process_time() - begin
            if found.status != 0:
                sys.exit(f"peers: HiGHS finds no optimum at the length {length}")
            costs.append((length, made.normal_cost + round(found.fun)))
        return Answer(costs, seconds)

    return solve


def peers_of(scratch: Path, runs: int) -> list[Peer]:
    """All peers, also those that are left out."""
    clp = ["-lClp", "-lCoinUtils"]
    textbook = compiled(scratch, "textbook", "vector", [])
    tangents = compiled(scratch, "tangents", "lemon/network_simplex.h", [])
    lengths = compiled(scratch, "lengths", "coin/ClpSimplex.hpp", clp)
    found = [
        Peer("textbook", program(textbook, ["deck"], False, runs), "g++"),
        Peer("LEMON", program(tangents, [], False, runs), "g++ and liblemon-dev"),
        Peer("CLP", program(lengths, [], True, runs), "g++ and coinor-libclp-dev"),
        Peer("HiGHS", None, "python3-scipy"),
    ]
    try:
        scipy = [importlib.import_module(f"scipy.{part}") for part in ("optimize", "sparse")]
        found[-1].solve = highs(*scipy)
    except ImportError:
        pass
    return found


def differences(curve: Curve, answer: Answer) -> list[str]:
    """Where a peer and `pert` disagree: at most one line for costs and one for breakpoints."""
    wrong = [(length, cost) for length, cost in answer.costs if curve.cost(length) != cost]
    left = set(curve.lengths()) - {length for length, _ in answer.costs}
    found = [
        f"{cost} at the length {length}, where pert has {curve.cost(length)}"
        for length, cost in wrong[:1]
    ]
    return found + [
        f"no cost at the length {length}, where the curve turns" for length in sorted(left)[:1]
    ]


def compared(pert: Path, words: str, peers: list[Peer], runs: int, scratch: Path) -> list[str]:
    """Prints the row of a deck. Returns where a peer and `pert` disagree."""
    deck = scratch / "deck.csv"
    with deck.open("w") as out:
        subprocess.run(
            [sys.executable, str(HERE / "large-deck.py"), *words.split()], stdout=out, check=True
        )
    curve = curve_of(pert, deck, runs)
    cells = [words, str(sum(1 for _ in cards(deck, "ACT"))), str(len(curve.points))]
    cells.append(f"{curve.seconds * 1000:.1f}")
    faults = [f"{words}: {gap}" for gap in curve.gaps()[:1]]
    for peer in peers:
        if not peer.solve:
            cells.append("")
            continue
        answer = peer.solve(deck, curve.lengths())
        ratio = answer.seconds / max(curve.seconds, 1e-6)
        cells.append(f"{ratio:,.0f}" if ratio >= 10 else f"{ratio:.1f}")
        faults += [f"{words}: {peer.name}: {fault}" for fault in differences(curve, answer)]
    print("| " + " | ".join(cells) + " |", flush=True)
    return faults


def main() -> None:
    """Prints the table, then who was left out, and ends with 1 if a cost differs."""
    parser = argparse.ArgumentParser(
        description=__doc__, formatter_class=argparse.RawDescriptionHelpFormatter
    )
    parser.add_argument("decks", nargs="*", metavar="DECK", help="such as 'wide 500 1000'")
    parser.add_argument(
        "--programs",
        type=Path,
        default=BUILT,
        help="the folder with pert (default: where `rt ci` leaves it)",
    )
    parser.add_argument("--runs", type=int, default=5, help="default: 5")
    words = parser.parse_args()
    pert = words.programs / "pert"
    if not os.access(pert, os.X_OK):
        sys.exit(f"peers: no program {pert} (run 'make' or 'rt ci' first)")
    with tempfile.TemporaryDirectory() as scratch:
        peers = peers_of(Path(scratch), words.runs)
        if not any(peer.solve for peer in peers):
            sys.exit("peers: no peer is installed")
        names = [
            "Deck",
            "Activities",
            "Breakpoints",
            "pert, ms",
            *(f"{peer.name} / pert" for peer in peers),
        ]
        print("| " + " | ".join(names) + " |\n" + "|---" * len(names) + "|", flush=True)
        faults = []
        for deck in words.decks or DECKS:
            faults += compared(pert, deck, peers, words.runs, Path(scratch))
    for peer in peers:
        if not peer.solve:
            print(f"peers: {peer.name} is left out: it needs {peer.packages}")
    for fault in faults:
        print(f"FAILED peers: {fault}")
    sys.exit(1 if faults else 0)


main()
