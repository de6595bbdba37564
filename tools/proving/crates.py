"""The crates of a crates.txt, and which use which."""

from __future__ import annotations

import re
from collections.abc import Collection, Mapping


def uses_of(listed: str) -> dict[str, list[str]]:
    """Returns the crates of a crates.txt, each with those of the list that it uses."""
    rows = [re.match(r"(\w+)[^:#]*:([^#]*)", line) for line in listed.split("\n")]
    found = {row[1]: row[2].split() for row in rows if row}
    return {name: [it for it in used if it in found] for name, used in found.items()}


def with_those_below(uses: Mapping[str, Collection[str]], names: Collection[str]) -> set[str]:
    """Returns the named crates and all crates that these use, directly or not."""
    found: set[str] = set()
    waiting = list(names)
    while waiting:
        name = waiting.pop()
        if name not in found:
            found.add(name)
            waiting += uses[name]
    return found
