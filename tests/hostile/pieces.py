#!/usr/bin/env python3
"""Compares the answers of the programs when their input comes in pieces, when they are stopped on
the way, and when 20 run at a time.

    tests/hostile/pieces.py [FOLDER [SEED [RUNS [ONLY..]]]]

FOLDER is where the programs are (default: as `rt ci` leaves them), SEED determines the pieces
(default: 1), RUNS is how often each command is tried in each way (default: 20), and ONLY names parts:

- `letters`: titles of letters of two, three and four bytes across each border of 4 KiB, by each of
  their bytes. `migrate` prints the deck as it is; a letter that is broken at a border is refused.
- `halves`: a short deck with such letters, quotes, CRLF and a byte order mark, cut in two at each
  byte. It is answered as in one.
- `chunks`: decks, certificates and sessions in pieces of random lengths. Each piece is written when
  the program has taken the one before. The answer is that of the complete input.
- `stops`: the same, with SIGSTOP after some of the pieces and SIGCONT a moment later; and `certify`
  stopped again and again while it writes.
- `together`: 20 programs at a time, which answer as each does alone.

It ends at the first answer that differs.
"""

from __future__ import annotations

import fcntl
import os
import random
import signal
import struct
import subprocess
import sys
import tempfile
import termios
import time
from dataclasses import dataclass, field
from pathlib import Path
from typing import IO

from built import TOP, Answer, answer, forms_without_number, program

LETTERS = ("é", "€", "😀")
BORDER = 4096
AT_A_TIME = 20
SESSION = (
    b"CURVE\nTRY WALLS 10 6 150 30\nNORMAL PAINT 2\nSLOPE ROOF 100\nCURVE\nCRASH ROOF 6\n"
    b"TIMES\nUNDO\nUNDO\nUNDO\nTRY WALLS 10 6 150 36\n\nNO\xc3 SUCH\n"
    + b"X" * 97
    + b"\nTIMES\nCURVE"
)
Command = tuple[list[str], bytes]


class Differs(Exception):
    """An answer is not what it should be."""


@dataclass
class Tally:
    """What was tried in a part."""

    part: str
    tried: int = 0
    counts: dict[str, int] = field(default_factory=dict)

    def expect(self, name: str, told: Answer, wanted: Answer) -> None:
        """Compares an answer with what it should be.

        Raises `Differs` if it is another.
        """
        self.tried += 1
        if told != wanted:
            raise Differs(f"{self.part}, {name}: {brief(told)}, wanted {brief(wanted)}")

    def count(self, what: str, more: int = 1) -> None:
        """Counts something that must have happened."""
        self.counts[what] = self.counts.get(what, 0) + more

    def line(self) -> str:
        """Returns what was tried, in one line."""
        counted = "".join(f", {number} {what}" for what, number in self.counts.items())
        return f"{self.part}: {self.tried} answers{counted}"


def brief(told: Answer) -> str:
    """Returns an answer, in a few words."""
    return f"status {told[0]}, {len(told[1])} bytes {told[1][:30]!r}, {told[2][:60]!r}"


class Fed:
    """A program that is given its input in pieces."""

    def __init__(self, command: list[str]) -> None:
        """Starts it."""
        self.out: IO[bytes] = tempfile.TemporaryFile()
        self.err: IO[bytes] = tempfile.TemporaryFile()
        self.process = subprocess.Popen(
            command, stdin=subprocess.PIPE, stdout=self.out, stderr=self.err
        )
        assert self.process.stdin
        self.input = self.process.stdin.fileno()
        self.is_stopped = False

    def give(self, piece: bytes) -> bool:
        """Writes a piece and waits until the program has taken it; not so if it has ended."""
        try:
            os.write(self.input, piece)
        except BrokenPipeError:
            return False
        self.go_on()
        while self.waiting() and self.process.poll() is None:
            time.sleep(0.0001)
        return self.process.poll() is None

    def waiting(self) -> int:
        """Returns how many bytes of the input are not taken yet."""
        (count,) = struct.unpack("i", fcntl.ioctl(self.input, termios.FIONREAD, b"\0" * 4))
        return int(count)

    def stop(self) -> bool:
        """Stops the program, and returns whether it was seen stopped."""
        self.process.send_signal(signal.SIGSTOP)
        while self.process.poll() is None:
            self.is_stopped = True
            stat = Path(f"/proc/{self.process.pid}/stat").read_text(
                encoding="ascii", errors="replace"
            )
            if stat.rpartition(")")[2].split()[0] == "T":
                return True
            time.sleep(0.0001)
        return False

    def go_on(self) -> None:
        """Lets the program go on, if it was stopped."""
        if self.is_stopped:
            self.process.send_signal(signal.SIGCONT)
        self.is_stopped = False

    def end(self) -> Answer:
        """Ends the input and returns the answer."""
        assert self.process.stdin
        self.process.stdin.close()
        status = self.process.wait()
        told = []
        for file in (self.out, self.err):
            file.seek(0)
            told.append(file.read())
            file.close()
        return status, told[0], told[1]


def deck_of_letters(shift: int) -> bytes:
    """Returns a deck in canonical form of more than 256 KiB, most of it titles of letters of more
    than one byte. They lie so many bytes later than in the deck without a shift.
    """
    items = [f"WBS,W{n},TOP,{LETTERS[n % 3] * (80 // (2 + n % 3))}" for n in range(2900)]
    cards = ["PROJECT,LETTERS,S,T,2024-01-01,1,," + "x" * shift + ",2", "ASOF,2024-01-01"]
    cards += ["WBS,TOP,,", *items]
    cards += ["EVENT,S,", "EVENT,T,", "ACT,A,S,T,W0,1,1,1,1,1,0,0,", "END"]
    return "".join(f"{card}\n" for card in cards).encode()


def letters(tally: Tally, pert: str, runs: int) -> None:
    """Letters across each border, by each of their bytes; and broken ones."""
    for shift in range(12):
        deck = deck_of_letters(shift)
        across = [at for at in range(BORDER, len(deck), BORDER) if deck[at] & 0xC0 == 0x80]
        tally.count("letters across a border", len(across))
        tally.expect(f"shift {shift}", answer([pert, "migrate"], deck), (0, deck, b""))
        for at in across[-max(1, runs // 4) :]:
            broken = deck[:at] + b"(" + deck[at + 1 :]
            told = answer([pert, "migrate"], broken)
            tally.expect(f"broken at {at}", told, (1, b"", b"F2 record 0: not UTF-8\n"))


def halves(tally: Tally, pert: str, runs: int) -> None:
    """A short deck, cut in two at each byte, or at so many of them that each run has twenty."""
    deck = (
        '\ufeffPROJECT,P,S,T,2024-01-01,1,,"é, ""€""",2\r\nWBS,TOP,,\r\nWBS,W,TOP,😀é€\r\n\r\n'
        ',,,\r\n"EVENT",S,\r\nEVENT,T,"a\u2028b"\r\nACT,A,S,T,W,1,1,1,1,1,0,0,é\r\nEND\r\n'
    ).encode()
    step = max(1, len(deck) // (20 * runs))
    wanted = answer([pert, "migrate"], deck)
    tally.expect("at once", (wanted[0], b"", wanted[2]), (0, b"", b""))
    for at in range(1, len(deck), step):
        fed = Fed([pert, "migrate"])
        fed.give(deck[:at])
        fed.give(deck[at:])
        tally.expect(f"cut at byte {at}", fed.end(), wanted)


def commands(folder: str, scratch: str) -> list[Command]:
    """Returns commands with their inputs, and writes the decks that they name."""
    pert = program("pieces", folder, "pert")
    examples = TOP / "examples"
    house, shed = (examples / "house.csv").read_bytes(), (examples / "shed.csv").read_bytes()
    plain = [form for form in forms_without_number() if form != "arrows"]
    found: list[Command] = [([pert, form], house) for form in plain]
    found += [([pert, *form.split()], shed) for form in ("point 6", "outlook 6", "load 7")]
    found.append(([pert, "arrows"], (examples / "tasks.csv").read_bytes()))
    found.append(([pert, "check"], house.replace(b"ACT,ROOF,40,50", b"ACT,ROOF,50,40")))
    found.append(([pert, "migrate"], deck_of_letters(1)))
    for name, deck in (("house.csv", house), ("letters.csv", deck_of_letters(2))):
        Path(scratch, name).write_bytes(deck)
        certificate = answer([pert, "certify"], deck)[1]
        check = [program("pieces", folder, "pert_check"), os.path.join(scratch, name)]
        found += [(check, certificate), (check, certificate[: len(certificate) // 2])]
    whatif = program("pieces", folder, "pert_whatif")
    found.append(([whatif, os.path.join(scratch, "house.csv")], SESSION * 3))
    return found


def pieces(text: bytes, draw: random.Random) -> list[bytes]:
    """Cuts a text in pieces of random lengths, at most about 500 of them."""
    most = max(draw.choice((1, 2, 7, 100, 5000, 65536)), len(text) // 250)
    found, at = [], 0
    while at < len(text):
        length = draw.randint(1, most)
        found.append(text[at : at + length])
        at += length
    return found


def named(command: Command) -> str:
    """Returns a command in a few words."""
    return " ".join(os.path.basename(word) for word in command[0])


def chunks(tally: Tally, tried: list[Command], draw: random.Random, runs: int, stops: bool) -> None:
    """Each command with its input in pieces, stopped after some of them if that is asked for."""
    for command in tried:
        wanted = answer(*command)
        for _ in range(runs):
            fed, parts = Fed(command[0]), pieces(command[1], draw)
            for piece in parts:
                if stops and draw.random() < max(0.05, 3 / len(parts)) and fed.stop():
                    tally.count("stops")
                tally.count("pieces")
                if not fed.give(piece):
                    break
            tally.expect(named(command), fed.end(), wanted)


def long_deck() -> bytes:
    """Returns a row of 500 activities that can be shortened one after the other."""
    cards = ["PROJECT,ROW,E0,E500,2024-01-01,1,,", "WBS,1,,"]
    cards += [f"EVENT,E{n}," for n in range(501)]
    cards += [f"ACT,A{n},E{n},E{n + 1},1,0,0,0,2,1,0,{n + 1}," for n in range(500)]
    return "".join(f"{card}\n" for card in [*cards, "END"]).encode()


def stopped_at_work(tally: Tally, pert: str, draw: random.Random, runs: int) -> None:
    """Stops `certify` again and again while it works."""
    deck = long_deck()
    wanted = answer([pert, "certify"], deck)
    for _ in range(runs):
        fed = Fed([pert, "certify"])
        fed.give(deck)
        assert fed.process.stdin
        fed.process.stdin.close()
        while fed.stop():
            tally.count("stops at work")
            fed.go_on()
            time.sleep(draw.random() * 0.004)
        tally.expect("certify, stopped while it works", fed.end(), wanted)


def together(tally: Tally, tried: list[Command], draw: random.Random, runs: int) -> None:
    """Runs 20 programs at a time, all of a kind or different ones."""
    alone = [answer(*command) for command in tried]
    for turn in range(runs):
        numbers = [draw.randrange(len(tried)) for _ in range(AT_A_TIME)]
        if turn % 2:
            numbers = [turn // 2 % len(tried)] * AT_A_TIME
        running = []
        for number in numbers:
            with tempfile.TemporaryFile() as source:
                source.write(tried[number][1])
                source.seek(0)
                out, err = tempfile.TemporaryFile(), tempfile.TemporaryFile()
                process = subprocess.Popen(tried[number][0], stdin=source, stdout=out, stderr=err)
            running.append((number, process, out, err))
        for number, process, out, err in running:
            status = process.wait()
            with out, err:
                out.seek(0)
                err.seek(0)
                told = status, out.read(), err.read()
            tally.expect(named(tried[number]), told, alone[number])


def run_part(tally: Tally, folder: str, draw: random.Random, runs: int, scratch: str) -> None:
    """Runs one part."""
    name, pert = tally.part, program("pieces", folder, "pert")
    if name == "letters":
        letters(tally, pert, runs)
    elif name == "halves":
        halves(tally, pert, runs)
    else:
        tried = commands(folder, scratch)
        if name == "together":
            together(tally, tried, draw, runs)
        else:
            chunks(tally, tried, draw, runs, name == "stops")
    if name == "stops":
        stopped_at_work(tally, pert, draw, runs)
        if not tally.counts.get("stops at work"):
            raise Differs("stops, no program was stopped while it worked")


def main(words: list[str]) -> int:
    """Runs the parts, and returns the status."""
    folder, seed, runs = [*words[:3], *["", "1", "20"][len(words[:3]) :]]
    draw = random.Random(int(seed))
    with tempfile.TemporaryDirectory() as scratch:
        for name in words[3:] or ("letters", "halves", "chunks", "stops", "together"):
            tally = Tally(name)
            try:
                run_part(tally, folder, draw, int(runs), scratch)
            except Differs as differs:
                print(f"FAILED pieces: {differs}\n    in the runs of seed {seed}")
                return 1
            print(f"pieces: {tally.line()}", flush=True)
    print(f"pieces: seed {seed}, no answer differs")
    return 0


if __name__ == "__main__":
    sys.exit(main(sys.argv[1:]))
