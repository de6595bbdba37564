#!/usr/bin/env python3
"""Gives the built programs decks that are made to take long, and plain ones of the same size. They
may take at most three times as long.

    tests/hostile/slow-decks.py [FOLDER]     FOLDER: where the programs are (default: as `rt ci` leaves them)

In the first deck a cycle of 9,998 activities follows as many activities that leave it and lie on no
cycle. The program looks for a cycle only from activities whose two events may lie on one; from all
activities the time would grow with the square of their number.

The second deck has a curve that turns twice as often with each of 18 levels (`large-deck
doubling`): 262,144 breakpoints, compared with those of `tests/speed/textbook.cc`.

Two more decks have codes that were chosen to crowd a hash table, and are compared with a deck of
plain codes of the same length. Each deck has as many cards of each kind as a deck of version 2 may
have (`large-deck limits`), and each kind has the same 20,000 codes. In the *flooded* deck the
hashes of the codes end in the same bits, as many as select a place in the table, if the hash has
the key of a source that draws none (`flood.cc`). In the *aligned* deck the codes differ only in the
last letters of their first half, and the second half was searched for: a hash with the key only
before the code would look at 13 to 100 groups of codes for one of these, whatever the key is, where
other codes take one. `pert_check` is tried in the same way, on the certificate of a chain whose
activities have these codes.
"""

from __future__ import annotations

import itertools
import os
import re
import resource
import shutil
import subprocess
import sys
import tempfile
from pathlib import Path

from built import TOP, Answer, program

HERE = Path(__file__).resolve().parent
SPEED = TOP / "tests" / "speed"
COUNT, BITS, LEVELS = 20000, 13, 18
MOST = 3.0
LETTERS = "0123456789ABCDEFGHIJKLMNOPQRSTUVWXYZabcdefghijklmnopqrstuvwxyz.-_"
NAMED = re.compile(rb"F27 record \d+: activities in a cycle: A1 A2 .* A9998\n")
# A command and the file that it reads
Command = tuple[list[str], str]


def once(command: Command) -> tuple[Answer, float]:
    """Returns what a command answers, and the processor time that it takes."""
    before = resource.getrusage(resource.RUSAGE_CHILDREN).ru_utime
    with open(command[1], "rb") as stream:
        done = subprocess.run(command[0], stdin=stream, capture_output=True, check=False)
    took = resource.getrusage(resource.RUSAGE_CHILDREN).ru_utime - before
    return (done.returncode, done.stdout, done.stderr), took


def compared(name: str, plain: Command, slow: Command) -> tuple[bool, list[Answer]]:
    """Runs both in turn, three times each. Returns whether the second takes no more than it may,
    and what each time they answered, in turn.
    """
    times: tuple[list[float], list[float]] = ([], [])
    answers = []
    for _ in range(3):
        for i, command in enumerate((plain, slow)):
            answer, took = once(command)
            times[i].append(took)
            answers.append(answer)
    plain_time, slow_time = min(times[0]), min(times[1])
    print(f"{name}: {slow_time:.3f} s, and {plain_time:.3f} s on a plain deck")
    if slow_time > MOST * max(plain_time, 0.01):
        print(f"FAILED {name}: more than {MOST} times")
        return False, answers
    return True, answers


def are_alike(name: str, plain: Command, crowded: Command) -> bool:
    """Returns whether crowded codes take no more than they may, and both decks have the same
    answer, without a fault.
    """
    holds, answers = compared(name, plain, crowded)
    if any(answer != answers[0] for answer in answers) or answers[0][0] != 0 or answers[0][2]:
        print(f"FAILED {name}: {answers}")
        return False
    return holds


def write_deck(words: list[str], deck: str) -> None:
    """Writes a deck of `large-deck` into a file."""
    with open(deck, "wb") as stream:
        subprocess.run([str(SPEED / "large-deck.py"), *words], check=True, stdout=stream)


def compiled(compiler: str, source: Path) -> str:
    """Returns the program of a C++ file, built here."""
    subprocess.run([compiler, "-O2", "-o", source.stem, str(source)], check=True)
    return f"./{source.stem}"


def is_cycle_named(pert: str) -> bool:
    """Returns whether the largest cycle is named in little more time than a plain deck of that size
    is accepted in.
    """
    write_deck(["long", "10000", "20000"], "plain.net")
    write_deck(["cycle", "9998"], "cycle.net")
    name, check = "a cycle of 9,998 activities", [pert, "check"]
    holds, answers = compared(name, (check, "plain.net"), (check, "cycle.net"))
    for (status, out, err), is_cycle in zip(answers, (False, True) * 3):
        wanted = (1, True) if is_cycle else (0, False)
        if (status, bool(NAMED.fullmatch(err))) != wanted:
            print(f"FAILED {name}: status {status}, {out[:200]!r} {err[:200]!r}")
            return False
    return holds


def is_doubled(pert: str, compiler: str | None) -> bool:
    """Returns whether the curve of a network that turns twice as often with each level has all its
    breakpoints, and is the textbook's.
    """
    name = f"a curve of {LEVELS} doublings"
    write_deck(["doubling", str(LEVELS)], "doubling.deck")
    (status, out, _), took = once(([pert, "curve"], "doubling.deck"))
    count = out.count(b"\n")
    print(f"{name}: {count} breakpoints in {took:.3f} s")
    if status != 0 or count != 2**LEVELS:
        print(f"FAILED {name}: status {status}, {count} breakpoints, wanted {2**LEVELS}")
        return False
    if compiler:
        textbook = [compiled(compiler, SPEED / "textbook.cc"), "deck", "doubling.deck"]
        (_, points, _), took = once((textbook, "doubling.deck"))
        print(f"the same by textbook.cc: {took:.3f} s")
        if points != out:
            print(f"FAILED {name}: textbook.cc has another curve")
            return False
    return True


def chain(codes: list[str]) -> str:
    """Returns a deck of a chain, two activities from each event to the next. Its certificate names
    them all in its steps and lines.
    """
    events = len(codes) // 2 + 1
    deck = [f"PROJECT,CHAIN,E0,E{events - 1},2024-01-01,1,,,2", "WBS,1,,"]
    deck += [f"EVENT,E{number}," for number in range(events)]
    for place, code in enumerate(codes):
        begin = place // 2
        deck.append(f"ACT,{code},E{begin},E{begin + 1},1,0,0,0,1,1,0,0,")
    return "\n".join([*deck, "END", ""])


def codes_of_decks(compiler: str) -> dict[str, list[str]]:
    """Returns the codes of the plain deck and of those that crowd a hash table."""
    flood = [compiled(compiler, HERE / "flood.cc"), str(COUNT), str(BITS)]
    found = subprocess.run(flood, check=True, capture_output=True, text=True).stdout.split()
    letters = itertools.islice(itertools.product(LETTERS, repeat=3), COUNT)
    return {
        "plain": [f"PLAIN-OF{number:08d}" for number in range(COUNT)],
        "flooded": found,
        "aligned": ["CODES%s%s%sj4Oc9122" % it for it in letters],
    }


def lay_out(pert: str, name: str, codes: list[str]) -> None:
    """Writes the deck that has these codes, and a chain that has them with its certificate."""
    Path(f"{name}.codes").write_text("\n".join(codes) + "\n", encoding="ascii")
    write_deck(["limits", f"{name}.codes"], f"{name}.deck")
    Path(f"{name}.chain").write_text(chain(codes[:19998]), encoding="ascii")
    with open(f"{name}.chain", "rb") as deck, open(f"{name}.certificate", "wb") as certificate:
        subprocess.run([pert, "certify"], check=True, stdin=deck, stdout=certificate)


def are_crowded_alike(pert: str, pert_check: str, compiler: str) -> bool:
    """Returns whether crowded codes take both programs no more than they may."""
    for name, codes in codes_of_decks(compiler).items():
        lay_out(pert, name, codes)
    holds = True
    for crowded in ("flooded", "aligned"):
        both = ("plain", crowded)
        decks = [([pert, "check"], f"{it}.deck") for it in both]
        holds &= are_alike(f"pert check on {crowded} codes", *decks)
        certificates = [([pert_check, f"{it}.chain"], f"{it}.certificate") for it in both]
        holds &= are_alike(f"pert_check on {crowded} codes", *certificates)
    return holds


def main(words: list[str]) -> int:
    """Tries the decks, and returns the status."""
    folder = os.path.abspath(words[0]) if words else ""
    pert = program("slow-decks", folder, "pert")
    compiler = shutil.which("c++")
    with tempfile.TemporaryDirectory() as scratch:
        os.chdir(scratch)
        if not is_cycle_named(pert) or not is_doubled(pert, compiler):
            return 1
        if not compiler:
            print("crowded codes: skipped, no C++ compiler")
            return 0
        pert_check = program("slow-decks", folder, "pert_check")
        return 0 if are_crowded_alike(pert, pert_check, compiler) else 1


if __name__ == "__main__":
    sys.exit(main(sys.argv[1:]))
