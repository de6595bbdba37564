"""What `rt all check` has said so far, and the line that says it in short."""

from __future__ import annotations

import os
import re
from collections.abc import Collection
from typing import TextIO

from proving.processes import Work

SECTION = re.compile(r"== (\w+)$")
VERDICT = re.compile(r"(\w+): (ok$|failed |not run)")
CHECKED = re.compile(r"crate (\w+): .* checked=[1-9]")


class Progress:
    """Follows the output of `rt all check`, which prints all that it says of a crate at its end.

    A section begins with `== CRATE`. If something of the crate was proved in this run, the section
    has a line `crate CRATE: .. checked=N`. The last section, `== summary`, has a line `CRATE: ok`
    for each. Several runs may follow one another; what an earlier one proved is kept in a later
    one.
    """

    def __init__(self, wanted: Collection[str]) -> None:
        self.wanted = wanted
        self.ended: set[str] = set()
        self.proved_now: set[str] = set()
        self.verdicts: dict[str, bool] = {}
        self.is_summary = False

    def read(self, line: str) -> None:
        """Takes one line of the output."""
        section = SECTION.match(line)
        if section:
            self.is_summary = section[1] == "summary"
            if section[1] in self.wanted:
                self.ended.add(section[1])
        verdict = VERDICT.match(line) if self.is_summary else None
        if verdict:
            self.verdicts[verdict[1]] = verdict[2] == "ok"
        checked = CHECKED.match(line)
        if checked and checked[1] in self.wanted:
            self.proved_now.add(checked[1])

    def are_proved(self, names: Collection[str]) -> bool:
        """Returns whether all of these crates are proved, as a summary says."""
        return all(self.verdicts.get(name, False) for name in names)

    def line(self, work: Work, seconds: float) -> str:
        """Returns the line for the terminal or the log, so many seconds after the beginning."""
        under_way = sorted(it for it in work.crates if it in self.wanted and it not in self.ended)
        parts = [f"{clock(seconds)}  {len(self.ended)} of {len(self.wanted)} crates proved"]
        if under_way:
            parts.append(f"under way: {', '.join(under_way)}")
        if work.is_reading:
            parts.append("reading the sources")
        return "; ".join(parts)


def clock(seconds: float) -> str:
    """Returns a duration as 0:07, 12:40 or 1:05:00."""
    minutes, rest = divmod(int(seconds), 60)
    hours, minutes = divmod(minutes, 60)
    return f"{hours}:{minutes:02}:{rest:02}" if hours else f"{minutes}:{rest:02}"


class Line:
    """Writes the line: on a terminal always the same one, elsewhere each time a new one."""

    def __init__(self, out: TextIO) -> None:
        self.out = out
        self.is_rewritten = out.isatty()

    def put(self, text: str) -> None:
        """Writes the line in place of the last, cut to the terminal's width."""
        if self.is_rewritten:
            width = os.get_terminal_size(self.out.fileno()).columns or 80
            text = f"\r\x1b[K{text[: width - 1]}"
        self.out.write(text if self.is_rewritten else f"{text}\n")
        self.out.flush()

    def end(self) -> None:
        """Takes the line away from a terminal."""
        if self.is_rewritten:
            self.out.write("\r\x1b[K")
            self.out.flush()
