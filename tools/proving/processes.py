"""What the processes of a command do, as /proc shows them."""

from __future__ import annotations

import os
from dataclasses import dataclass


@dataclass(frozen=True)
class Work:
    """The crates that are being proved, and whether `rt` reads sources before it proves any."""

    crates: frozenset[str]
    is_reading: bool


def parent_and_words(number: int) -> tuple[int, list[str]] | None:
    """Returns the parent of a process and the words of its command, or nothing if it has ended."""
    try:
        with open(f"/proc/{number}/stat", encoding="utf-8", errors="replace") as file:
            parent = int(file.read().rpartition(")")[2].split()[1])
        with open(f"/proc/{number}/cmdline", encoding="utf-8", errors="replace") as file:
            return parent, file.read().split("\0")
    except (OSError, IndexError, ValueError):
        return None


def crate_in(words: list[str]) -> str | None:
    """Returns the crate that the command of a process is about, if it is the prover."""
    if os.path.basename(words[0]) != "rattle" or "--crate-name" not in words[:-1]:
        return None
    return words[words.index("--crate-name") + 1]


def work_below(top: int) -> Work:
    """Returns what the processes below one do now.

    A prover with `--only` proves nothing: `rt` first reads all sources of a crate in this way.
    """
    numbers = [int(it) for it in os.listdir("/proc") if it.isdigit()]
    seen = {number: found for number in numbers if (found := parent_and_words(number))}
    crates, is_reading = set(), False
    for number, (_, words) in seen.items():
        name, above = crate_in(words), number
        while name and above in seen and above != top:
            above = seen[above][0]
        if name and above == top and "--only" in words:
            is_reading = True
        elif name and above == top:
            crates.add(name)
    return Work(frozenset(crates), is_reading)
