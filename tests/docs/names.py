#!/usr/bin/env python3
"""Checks that each name of a specification is defined in one file.

    tests/docs/names.py            checks all crates
    tests/docs/names.py NAME..     prints the lines that define these names

A reader who looks for a definition by its name finds one.
"""

from __future__ import annotations

import re
import sys
from collections import defaultdict
from pathlib import Path

TOP = Path(__file__).resolve().parents[2]
DEFINED = re.compile(r"(?:unfoldable )?(?:pub (?:record|data)|record|data|abbrev pub|abbrev) (\S+)")

# A place: the file and the line with its number
Place = tuple[str, int, str]


def definitions() -> dict[str, list[Place]]:
    """Returns each name that a specification defines with its places."""
    found: dict[str, list[Place]] = defaultdict(list)
    for file in sorted(TOP.glob("crates/*/specs/**/*.antt")):
        name = str(file.relative_to(TOP))
        for number, line in enumerate(file.read_text(encoding="utf-8").splitlines(), 1):
            if match := DEFINED.match(line):
                found[match[1]].append((name, number, line))
    return found


def in_several_files(found: dict[str, list[Place]]) -> list[str]:
    """Returns the names that several files define, each with these files."""
    files = {name: sorted({file for file, _, _ in places}) for name, places in found.items()}
    return [f"{name} is in {', '.join(some)}" for name, some in sorted(files.items()) if some[1:]]


def main(words: list[str]) -> int:
    """Checks the names or prints the places of some, and returns the status."""
    if words and words[0].startswith("-"):
        print(__doc__.strip())
        return 0 if words[0] in ("-h", "--help") else 2
    found = definitions()
    for word in words:
        for file, number, line in found[word]:
            print(f"{file}:{number}: {line}")
    if words:
        return 0
    wrong = in_several_files(found)
    for fault in wrong:
        print(f"FAILED names: {fault}")
    print(f"names: {len(found)} names, {len(wrong)} of them in several files")
    return 1 if wrong else 0


if __name__ == "__main__":
    sys.exit(main(sys.argv[1:]))
