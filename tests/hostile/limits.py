#!/usr/bin/env python3
"""Tries decks with exactly as many cards of a kind as there may be, and with one less and one more.

    tests/hostile/limits.py [FOLDER [KIND..]]     FOLDER: where the programs are (default: as `rt ci`
                                               leaves them); KIND: in small letters, as `event`

Both versions of the deck are tried, and decks of tasks. A deck at the limit or below is accepted,
and `pert check` counts its cards; one with one card more is refused with F10 at that card, with the
number and the kind.
"""

from __future__ import annotations

import sys

from built import answer, program
from cards import LIMITS, Limit, codes_in, deck, text


def faults(pert: str, limit: Limit, version: int) -> list[str]:
    """Returns what is wrong at one limit."""
    most, found = limit.most[version - 1], []
    form = "arrows" if limit.is_of_tasks else "check"
    for count in (most - 1, most):
        cards = deck(limit, version, count)
        if codes_in(cards, f"{limit.kind},") != count:
            found.append(f"the deck of {count} cards has another number of them")
        status, out, err = answer([pert, form], text(cards))
        if status != 0 or err or not out:
            found.append(f"{count} cards: status {status}, {err[:100]!r}")
        elif not limit.is_of_tasks and not is_counted(out.decode(), limit.kind, count):
            found.append(f"{count} cards: not counted in {out[:300]!r}")
    cards = deck(limit, version, most + 1)
    place = [n for n, card in enumerate(cards, 1) if card.startswith(f"{limit.kind},")][most]
    wanted = 1, b"", f"F10 record {place}: more than {most} {limit.kind} cards\n".encode()
    told = answer([pert, form], text(cards))
    if told != wanted:
        found.append(f"{most + 1} cards: {told[0]}, {told[2][:100]!r}, wanted {wanted[2]!r}")
    return found


def is_counted(out: str, kind: str, count: int) -> bool:
    """Whether the answer to `check` has the number of cards, where it counts this kind."""
    counted = {"EVENT": "events", "ACT": "activities", "WBS": "items", "ACCT": "accounts"}
    counted |= {"CHARGE": "charges", "TOGO": "togos", "STATUS": "statuses"}
    return kind not in counted or f"{counted[kind]} {count}" in out.split("\n")


def main(words: list[str]) -> int:
    """Tries each limit in each version, and returns the status."""
    pert = program("limits", words[0] if words else "", "pert")
    tried = failed = 0
    for limit in LIMITS:
        if words[1:] and limit.kind.lower() not in words[1:]:
            continue
        for version in (1, 2):
            tried += 3
            for fault in faults(pert, limit, version):
                failed += 1
                print(f"FAILED limits: {limit.kind}, version {version}: {fault}")
    print(f"limits: {tried} decks, one card below a limit, at it and one above it, {failed} failed")
    return 1 if failed or not tried else 0


if __name__ == "__main__":
    sys.exit(main(sys.argv[1:]))
