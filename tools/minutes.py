#!/usr/bin/env python3
"""Measures how many minutes of processor time a command takes for each crate, and prints them as
a table.

    tools/minutes.py COMMAND..      for example: tools/minutes.py rt ci >gate.log 2>minutes.md

The command's output is not changed. The table follows on standard error when the command has
ended. What the command takes from an earlier run is not in the table; if your kit's `rt ci` keeps
what it passed, `rt ci --anew` takes nothing. `rt` reports what it proves but not how long that
takes, so this script looks at the command's processes twice a second; it misses at most the last
half second of each. The check of a crate counts as its proof, a check with --test as its tests,
and a check in another folder as an edit or what the edits start from. Everything else, such as
running programs and tests, is in the last line only.
"""

from __future__ import annotations

import os
import re
import resource
import subprocess
import sys
import time
from collections.abc import Iterator

TOP = os.path.dirname(os.path.dirname(os.path.abspath(__file__)))
TICK = os.sysconf("SC_CLK_TCK")
KINDS = ("Proof", "Tests", "Edits")

# A process, and what each has checked: the crate, what of it, and the seconds that it took
Key = tuple[str, str]
Taken = dict[Key, tuple[Key, float]]


def crates() -> dict[str, list[str]]:
    """Returns each crate with those that it uses, in the order of crates.txt, in which a crate
    follows those below it.
    """
    with open(f"{TOP}/crates.txt", encoding="utf-8") as file:
        found = [re.match(r"(\w+)[^:#]*:(.*)", line) for line in file]
    return {it[1]: it[2].split() for it in found if it}


def seen(number: str) -> tuple[int, Key, float]:
    """The parent of a process, a name that no later process has, and the processor time that it
    and those that it waited for took.
    """
    with open(f"/proc/{number}/stat", encoding="utf-8", errors="replace") as file:
        fields = file.read().rpartition(")")[2].split()
    return int(fields[1]), (number, fields[19]), sum(map(int, fields[11:15])) / TICK


def check_of(number: str) -> tuple[str, str] | None:
    """The crate that a process checks and what it checks of it, or none."""
    with open(f"/proc/{number}/cmdline", encoding="utf-8", errors="replace") as file:
        words = file.read().split("\0")
    if os.path.basename(words[0]) != "rattle" or "--crate-name" not in words:
        return None
    name = words[words.index("--crate-name") + 1]
    is_edit = os.path.basename(os.path.dirname(os.readlink(f"/proc/{number}/cwd"))) != "crates"
    return name, "Edits" if is_edit else "Tests" if "--test" in words else "Proof"


def look(top: int, taken: Taken) -> None:
    """Notes the time of each check that runs below the process top. A check's own copies count
    with it.
    """
    of: dict[int, int] = {}
    checks: dict[int, tuple[Key, Key, float]] = {}
    for word in filter(str.isdigit, os.listdir("/proc")):
        try:
            parent, key, seconds = seen(word)
            check = check_of(word)
        except (OSError, IndexError, ValueError):
            # (it has ended meanwhile)
            continue
        of[int(word)] = parent
        if check:
            checks[int(word)] = key, check, seconds
    for number, (key, check, seconds) in checks.items():
        above = of[number]
        while above in of and above != top and above not in checks:
            above = of[above]
        if above == top:
            taken[key] = check, seconds


def chain_of(uses: dict[str, list[str]], proofs: dict[str, float]) -> tuple[float, list[str]]:
    """The chain of crates that wait for one another whose proofs take longest, and how long."""
    none: tuple[float, list[str]] = (0.0, [])
    longest: dict[str, tuple[float, list[str]]] = {}
    for name, below in uses.items():
        least = max((longest[it] for it in below if it in longest), default=none)
        longest[name] = least[0] + proofs.get(name, 0), least[1] + [name]
    return max(longest.values(), default=none)


def table(uses: dict[str, list[str]], taken: Taken, whole: float, clock: float) -> Iterator[str]:
    """The lines of the table, in minutes; no number where there was nothing to do."""
    sums: dict[Key, float] = {}
    for (name, kind), seconds in taken.values():
        sums[name, kind] = sums.get((name, kind), 0) + seconds / 60
    yield f"| Crate | {' | '.join(KINDS)} |"
    yield "|---|" + "---|" * len(KINDS)
    for name in uses:
        cells = [f"{sums[name, it]:.1f}" if (name, it) in sums else "" for it in KINDS]
        if any(cells):
            yield f"| `{name}` | " + " | ".join(cells) + " |"
    of_kind = [sum(sums.get((name, it), 0) for name in uses) for it in KINDS]
    yield "| all | " + " | ".join(f"{it:.1f}" for it in of_kind) + " |"
    minutes, names = chain_of(uses, {name: sums.get((name, "Proof"), 0) for name in uses})
    yield ""
    yield f"The longest chain takes {minutes:.1f} minutes: {', '.join(names)}."
    yield f"All took {whole / 60:.1f} minutes of processor time, {sum(of_kind):.1f} of them in checks, and {clock / 60:.1f} by the clock."


def main(words: list[str]) -> int:
    """Runs the command, looks at it twice a second, and returns its status."""
    if not words:
        print(__doc__.split("\n\n")[1].strip(), file=sys.stderr)
        return 2
    taken: Taken = {}
    begun = time.time()
    ran = subprocess.Popen(words)
    while ran.poll() is None:
        look(ran.pid, taken)
        time.sleep(0.5)
    used = resource.getrusage(resource.RUSAGE_CHILDREN)
    print(
        *table(crates(), taken, used.ru_utime + used.ru_stime, time.time() - begun),
        sep="\n",
        file=sys.stderr,
    )
    return ran.returncode if ran.returncode >= 0 else 128 - ran.returncode


if __name__ == "__main__":
    sys.exit(main(sys.argv[1:]))
