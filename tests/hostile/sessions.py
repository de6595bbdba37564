#!/usr/bin/env python3
"""Gives the built pert_whatif sessions that are truncated, changed or no sessions at all, and takes
away its streams and its deck.

    tests/hostile/sessions.py [FOLDER [SEED]]     FOLDER: where the programs are (default: as `rt ci` leaves them)

The right answer to each line is computed by tests/differential/session.py, on the deck of three
activities. Without pert_whatif nothing is tried. FOLDER may also name a program, so that the model
itself can be tried in the program's place:

    tests/hostile/sessions.py tests/differential/session.py
"""

from __future__ import annotations

import functools
import os
import random
import shutil
import subprocess
import sys
import tempfile
from collections.abc import Iterator
from pathlib import Path
from typing import IO

TOP = Path(__file__).resolve().parents[2]
sys.dont_write_bytecode = True
sys.path.append(str(TOP / "tests" / "differential"))

import session as plain  # noqa: E402

BUILT = TOP / "crates" / "pert_whatif" / "out"
DECK = TOP / "examples" / "shed.csv"
TEXT = DECK.read_text(encoding="utf-8")
CURVE = functools.lru_cache(None)(plain.plain_curve)
TIMES = functools.lru_cache(None)(plain.plain_times)
COST = functools.lru_cache(None)(plain.plain_cost)
RIGHT = (
    b"SLOPE A 9\nCURVE\nTRY A 4 2 3 6\nUNDO\nTRY A 4 2 3 10\nUNDO\nCRASH A 5\nSLOPE Q 1\n"
    b"ESTIMATE B 4 5 18\nTIMES\nNORMAL C 8\nCURVE\nUNDO\nUNDO\nUNDO\nTRY B 5 3 5 9\n"
)
OTHERS = [bytes([byte]) for byte in b"0129ABCQUNDO \n\t\r-+.x\0\xff"]
# What is no line, or one that says too much
ODD_LINES = [
    *(b"", b" ", b"\r", b"CURVE\r", b" CURVE", b"CURVE ", b"curve", b"CURVE CURVE", b"CURVE\0"),
    *(b"\0", b"\xef\xbb\xbfCURVE", b"\xff\xfe", b"UNDO 1", b"SLOPE A", b"SLOPE A  9"),
    *(b"SLOPE\tA 9", b"SLOPE A 09", b"SLOPE A +9", b"SLOPE A -1", b"SLOPE A 9.0", b"SLOPE A 1e3"),
    *(b"SLOPE A 9 9", b"SLOPE  9", b"SLOPE A 10000000000000", b"SLOPE A 9999999999999"),
    *(b"SLOPE A 18446744073709551625", b"SLOPE A 100000000", b"SLOPE A 100000001"),
    *(b"NORMAL A 100001", b"NORMAL A 1", b"CRASH A 0", b"ESTIMATE A 5 4 5", b"ESTIMATE A 3 4"),
    *(b"ESTIMATE A 0 0 100001", b"TRY A 4 2 3", b"TRY A 4 2 3 6 7", b"TRY A 4 2 3 9999999999999"),
    *(b"TRY A 4 2 3 10000000000000", b"TRY A 2 4 100000001 0", b"TRY Q 1 2 3 4", b"TRY A 2 4 3 0"),
    *(b"SLOPE ABCDEFGHIJKLMNOP 1", b"SLOPE ABCDEFGHIJKLMNOPQ 1", "SLOPE \u00c4 1".encode()),
    b"SLOPE a 9",
]
LENGTHS = (95, 96, 97, 98, 127, 128, 4095, 4096, 4097, 65_536, 1_000_000)
Done = subprocess.CompletedProcess[bytes]


def answers(lines: bytes) -> bytes:
    """Returns the right answer to a session."""
    right = plain.Session(TEXT, CURVE, TIMES, COST)
    return "".join(right.answer(line) for line in plain.lines_of(lines)).encode()


def told(done: Done) -> tuple[int, bytes, bytes]:
    """Returns the status of a program and what it printed."""
    return done.returncode, done.stdout, done.stderr


class Tries:
    """The program that is tried, and how many of its answers were right."""

    def __init__(self, program: str) -> None:
        """Begins with nothing tried."""
        self.program = program
        self.is_model = program.endswith(".py")
        self.tried = self.failed = 0

    def expect(self, name: str, good: bool, seen: object = "") -> None:
        """Counts an answer, and prints what was seen if it is not as expected."""
        self.tried += 1
        if not good:
            self.failed += 1
            print(f"FAILED sessions: {name}: {seen!r}"[:300])

    def run(self, words: list[str], lines: bytes = RIGHT) -> Done:
        """Runs the program on these words and lines."""
        command = [self.program, *words]
        return subprocess.run(command, input=lines, capture_output=True, check=False)

    def expect_answers(self, name: str, lines: bytes) -> None:
        """Expects the right answer to a session."""
        done = self.run([str(DECK)], lines)
        seen = lines[-60:], done.returncode, done.stdout[-80:], done.stderr
        self.expect(name, told(done) == (0, answers(lines), b""), seen)


def truncated_and_changed(tries: Tries, chance: random.Random) -> None:
    """Every front of a session, and bytes changed, left out, doubled and put in."""
    for i in range(len(RIGHT) + 1):
        tries.expect_answers(f"the first {i} bytes", RIGHT[:i])
    for i in range(len(RIGHT)):
        for other in chance.sample(OTHERS, 6):
            changed = RIGHT[:i] + other + RIGHT[i + 1 :]
            tries.expect_answers(f"byte {i} changed to {other!r}", changed)
        tries.expect_answers(f"byte {i} left out", RIGHT[:i] + RIGHT[i + 1 :])
        other = chance.choice(OTHERS)
        tries.expect_answers(f"{other!r} put in before byte {i}", RIGHT[:i] + other + RIGHT[i:])


def odd_lines(tries: Tries, chance: random.Random) -> None:
    """Bytes that are no line, and lines about the longest there may be."""
    for line in ODD_LINES:
        tries.expect_answers(f"line {line!r}", line + b"\nCURVE\n")
        tries.expect_answers(f"line {line!r} at the end", b"CURVE\n" + line)
    for length in LENGTHS:
        for line in long_lines(length):
            tries.expect_answers(f"a line of {length} bytes", b"UNDO\n" + line + b"\nCURVE\n")
            tries.expect_answers(f"a line of {length} bytes at the end", line)
    for _ in range(50):
        drawn = bytes(chance.choice(b"\n\n AUNDOCRVE0159\0\xff\r") for _ in range(400))
        tries.expect_answers("random bytes", drawn)


def long_lines(length: int) -> list[bytes]:
    """Returns lines of so many bytes."""
    return [
        b"x" * length,
        b"SLOPE A 9".ljust(length),
        b"SLOPE A ".ljust(length, b"0"),
        b"CURVE".ljust(length, b"\0"),
    ]


def kept_edits(tries: Tries) -> None:
    """A thousand edits are kept for UNDO; those before them stay."""
    edits = b"".join(b"SLOPE A %d\n" % (4 + k) for k in range(1_100))
    steps = b"UNDO\n" * 1_001 + b"CURVE\n"
    tries.expect_answers("1,100 edits and 1,001 steps back", edits + steps)
    tries.expect_answers("10,000 trials", b"TRY A 4 2 3 6\n" * 10_000 + b"CURVE\n")


def long_sessions(tries: Tries) -> None:
    """As many bytes as a session takes, and one more, in one line after a complete one."""
    first = b"CURVE\n"
    for length, status in ((plain.MOST, 0), (plain.MOST + 1, 8)):
        done = tries.run([str(DECK)], first + b"x" * (length - len(first)))
        wanted = answers(first) + (b"NO 1\n" if status == 0 else b"")
        seen = done.returncode, done.stdout[-80:]
        tries.expect(f"{length} bytes", told(done) == (status, wanted, b""), seen)


def no_decks(tries: Tries, scratch: str) -> None:
    """Words that are no deck, and a deck that is refused."""
    usage, deck = b"usage: pert_whatif DECK\n", str(DECK)
    wanted: list[tuple[str, list[str], int, bytes]] = [
        ("no word", [], 2, usage),
        ("two words", [deck, deck], 2, usage),
        ("no such deck", [os.path.join(scratch, "none")], 4, b""),
        ("a folder as deck", [scratch], 4, b""),
    ]
    for name, words, status, said in wanted:
        done = tries.run(words)
        tries.expect(name, told(done) == (status, b"", said), done)
    if not tries.is_model:
        bad = os.path.join(scratch, "bad.csv")
        with open(bad, "w", encoding="utf-8") as file:
            file.write(TEXT.replace(",M,T,", ",M,Q,"))
        done = tries.run([bad])
        fault = b"F13 record 9: unknown event Q\n"
        tries.expect("a deck with a fault", told(done) == (1, b"", fault), done)


def failing_streams(tries: Tries, scratch: str) -> None:
    """A session that cannot be read, and a device that cannot be written to."""
    command = [tries.program, str(DECK)]
    if not tries.is_model:
        folder = os.open(scratch, os.O_RDONLY)
        done = subprocess.run(command, stdin=folder, capture_output=True, check=False)
        os.close(folder)
        tries.expect("a folder as session", told(done) == (4, b"", b""), done)
    for name, lines, status in (
        ("a full device", RIGHT, 5),
        ("a full device that is never written to", b"", 0),
    ):
        with open("/dev/full", "wb") as full:
            done = subprocess.run(
                command, input=lines, stdout=full, stderr=subprocess.PIPE, check=False
            )
        tries.expect(name, done.returncode == status)


def readers_that_leave(tries: Tries, scratch: str) -> None:
    """An output that is closed, and one whose reader goes away."""
    command = [tries.program, str(DECK)]
    # (a shell that ignores SIGPIPE, since a program inherits that)
    closed = ["bash", "-c", 'trap "" PIPE; "$1" "$2" >&-', "", *command]
    done = subprocess.run(closed, input=RIGHT, stderr=subprocess.PIPE, check=False)
    tries.expect("a closed output", done.returncode == 5, done)
    script = (
        'trap "" PIPE; { yes CURVE | "$1" "$2"; echo ${PIPESTATUS[1]} >&3; } 3>"$3" '
        "| head -c 100 >/dev/null"
    )
    status = os.path.join(scratch, "status")
    leaving = ["bash", "-c", script, "", *command, status]
    subprocess.run(leaving, stderr=subprocess.DEVNULL, check=False)
    with open(status, encoding="utf-8") as file:
        tries.expect("a reader that goes away", file.read() == "5\n")


def by_turns(tries: Tries, scratch: str) -> None:
    """Each line is answered before the next one comes, a byte at a time too, and the deck is the
    one that was opened.
    """
    deck = os.path.join(scratch, "deck.csv")
    shutil.copy(DECK, deck)
    right = plain.Session(TEXT, CURVE, TIMES, COST)
    command, pipe = [tries.program, deck], subprocess.PIPE
    with subprocess.Popen(command, stdin=pipe, stdout=pipe, bufsize=0) as child:
        assert child.stdin and child.stdout
        for k, line in enumerate(plain.lines_of(RIGHT)):
            for piece in pieces(line, k % 2 == 0):
                child.stdin.write(piece)
            wanted = right.answer(line).encode()
            got = taken(child.stdout, len(wanted))
            tries.expect(f"by turns, {line!r}", got == wanted, got)
            if k == 0:
                os.remove(deck)
            elif k == 1:
                with open(deck, "w", encoding="utf-8") as file:
                    file.write(TEXT.replace(",4,2,10,3,", ",9,1,10,8,"))
        child.stdin.close()
        tries.expect("by turns, the end", child.stdout.read() == b"" and child.wait() == 0)


def pieces(line: bytes, by_bytes: bool) -> Iterator[bytes]:
    """Yields a line and its line feed, or byte by byte."""
    if by_bytes:
        yield from (bytes([byte]) for byte in line + b"\n")
    else:
        yield from (line, b"\n")


def taken(stream: IO[bytes], count: int) -> bytes:
    """Returns so many bytes of a stream, or fewer if it ends."""
    got = b""
    while len(got) < count and (piece := stream.read(count - len(got))):
        got += piece
    return got


def program_in(place: str) -> str:
    """Returns the program: the one in a folder, or the file itself."""
    path = os.path.abspath(place) if place else str(BUILT)
    return os.path.join(path, "pert_whatif") if os.path.isdir(path) else path


def main(words: list[str]) -> int:
    """Tries the program, and returns the status."""
    tries = Tries(program_in(words[0] if words else ""))
    seed = int(words[1]) if len(words) > 1 else 1
    if not os.access(tries.program, os.X_OK):
        print(f"sessions: skipped, no program at {tries.program}")
        return 0
    chance = random.Random(seed)
    with tempfile.TemporaryDirectory() as scratch:
        tries.expect_answers("the right session", RIGHT)
        if not tries.is_model:
            truncated_and_changed(tries, chance)
            odd_lines(tries, chance)
        kept_edits(tries)
        long_sessions(tries)
        no_decks(tries, scratch)
        failing_streams(tries, scratch)
        readers_that_leave(tries, scratch)
        by_turns(tries, scratch)
    passed = tries.tried - tries.failed
    print(f"sessions, seed {seed}: {passed} passed, {tries.failed} failed")
    return 1 if tries.failed else 0


if __name__ == "__main__":
    sys.exit(main(sys.argv[1:]))
