#!/usr/bin/env python3
"""Which activity would it pay most to be able to shorten by one more unit?

    python3 whatif.py DECK LENGTH

For each activity it prints what the project would cost for this length if the activity's crash
duration were one unit less. It drives `pert_whatif` line by line: each answer is read before the
next line is written. TRY changes nothing, so the activities are asked one after the other of the
same project. A deck that `pert_whatif` refuses gives its fault line and the status 1.
"""

from __future__ import annotations

import argparse
import csv
import subprocess
import sys

sys.dont_write_bytecode = True  # no folder of compiled files among the examples
from programs import Refused, find, whole


def activities(name: str) -> list[list[str]]:
    """Returns the ACT cards of a deck, or raises what keeps the file from being read."""
    try:
        with open(name, newline="", encoding="utf-8-sig") as cards:
            return [card for card in csv.reader(cards) if card and card[0] == "ACT"]
    except (OSError, UnicodeError, csv.Error) as reason:
        raise Refused(f"whatif: {name}: {getattr(reason, 'strerror', None) or reason}")


class Session:
    """`pert_whatif` with a deck. Its fault line goes to standard error as it is."""

    def __init__(self, program: str, deck: str) -> None:
        """Starts the program, which reads its lines from a pipe."""
        self.process = subprocess.Popen(
            [program, deck], stdin=subprocess.PIPE, stdout=subprocess.PIPE, text=True
        )

    def ask(self, line: str) -> list[str]:
        """Returns the words of the answer, or nothing if the program has ended."""
        try:
            print(line, file=self.process.stdin, flush=True)
        except BrokenPipeError:
            return []
        assert self.process.stdout
        return self.process.stdout.readline().split()

    def end(self) -> int:
        """Ends the session and returns the program's status. It may have ended by itself."""
        assert self.process.stdin
        try:
            self.process.stdin.close()
        except BrokenPipeError:
            pass
        return self.process.wait()


def main() -> int:
    """Asks for each activity in turn, and returns the status."""
    parser = argparse.ArgumentParser(
        prog="whatif.py", description=__doc__, formatter_class=argparse.RawDescriptionHelpFormatter
    )
    parser.add_argument("deck", metavar="DECK")
    parser.add_argument(
        "length", metavar="LENGTH", type=whole, help="a length of the project, in units of the deck"
    )
    parser.add_argument(
        "--bin",
        metavar="DIR",
        help="folder of the programs (default: bin/ next to examples/, then the PATH)",
    )
    options = parser.parse_args()
    try:
        cards = activities(options.deck)
        session = Session(find("pert_whatif", options.bin), options.deck)
    except Refused as reason:
        print(reason, file=sys.stderr)
        return reason.status
    for card in cards:
        if not (len(card) > 11 and card[9].isdigit() and int(card[9]) > 0):
            continue  # not to be shortened; what is no number is refused by the program
        answer = session.ask(
            f"TRY {card[1]} {card[8]} {int(card[9]) - 1} {card[11]} {options.length}"
        )
        if not answer:
            return session.end() or 1
        print(card[1], answer[1] if answer[0] == "COST" else "not possible")
    return session.end()


if __name__ == "__main__":
    sys.exit(main())
