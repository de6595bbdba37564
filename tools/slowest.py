#!/usr/bin/env python3
"""Prints how many seconds the last check of a crate spent on each function and each file of
lemmas, the slowest first.

    tools/slowest.py CRATE [ROWS]      after: rm -rf crates/CRATE/out; cd crates/CRATE; rt check --jobs 1

A check writes a file for each module as soon as it is proved, so the time between two files is what
the later one took, by the clock. A check from nothing, with one job and no other work on the
machine, gives the best figures; a check after an edit shows only what was checked again. If the
check started from what another clone on this machine kept, the figures are those of the check
there.

For a function the longest parts are named. `Lts` is generated from its code, and grows with its
exits and with what is dropped at each; `Proof` has the goals, and is long if the search closes
goals without a named answer.
"""

from __future__ import annotations

import os
import sys

TOP = os.path.dirname(os.path.dirname(os.path.abspath(__file__)))
KEPT = ".oantt"


def modules(crate: str) -> list[tuple[str, float]]:
    """The modules that are kept of a crate and the seconds that each took, in the order in which
    they were done.
    """
    times = []
    for at, _, names in os.walk(f"{TOP}/crates/{crate}/out/incremental"):
        for name in names:
            if name.endswith(KEPT) and not name.endswith(f".decls{KEPT}"):
                times.append((os.stat(f"{at}/{name}").st_mtime_ns, name.removesuffix(KEPT)))
    times.sort()
    return [(name, (now - before) / 1e9) for (before, _), (now, name) in zip(times, times[1:])]


def owner(module: str, functions: set[str]) -> tuple[str, str]:
    """The function to which a module belongs, or the module itself."""
    words = module.split(".")
    for n in range(len(words), 0, -1):
        if ".".join(words[:n]) in functions:
            return ".".join(words[:n]), ".".join(words[n:])
    return module, ""


def main(words: list[str]) -> int:
    """Prints the table, and returns the status."""
    if len(words) not in (1, 2):
        print(__doc__.split("\n\n")[1].strip(), file=sys.stderr)
        return 2
    took = modules(words[0])
    if not took:
        print(f"tools/slowest.py: nothing is kept of a check of {words[0]}", file=sys.stderr)
        return 1
    functions = {name.removesuffix(".Statement") for name, _ in took if name.endswith(".Statement")}
    parts: dict[str, list[tuple[float, str]]] = {}
    for module, seconds in took:
        name, part = owner(module, functions)
        parts.setdefault(name.removeprefix(f"Rattle-{words[0]}").lstrip("-."), []).append(
            (seconds, part)
        )
    sums = sorted(
        ((sum(it[0] for it in found), name) for name, found in parts.items()), reverse=True
    )
    print(f"{sum(seconds for _, seconds in took):7.1f} s in all")
    for seconds, name in sums[: int(words[1]) if words[1:] else 20]:
        longest = ", ".join(
            f"{part} {time:.1f}"
            for time, part in sorted(parts[name], reverse=True)[:3]
            if part and time >= 0.5
        )
        print(
            f"{seconds:7.1f} {name.removeprefix('proofs.')}{'  (' + longest + ')' if longest else ''}"
        )
    return 0


if __name__ == "__main__":
    sys.exit(main(sys.argv[1:]))
