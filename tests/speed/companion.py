#!/usr/bin/python3
"""Measures the commands of the companion on plans of 500 and 2,000 tasks, and prints a table.

    tests/speed/companion.py [--check] [--sizes A,B] [--only WORD..] [FOLDER]

FOLDER has the programs (default: as `rt ci` leaves them). Times are seconds of processor of the
command and of the programs that it runs. Memory is the peak of the largest process. Growth is the
time of the larger plan as a multiple of that of the smaller one.

The plans are lists of tasks in sections. Each task comes after one to three others, and every third
can be shortened. In the plan with progress two fifths are done or begun. In the plan with pauses a
task of each section is held at both ends.

With --check the status is 1 if a limit is exceeded: `pert-report` takes at most 2.5 times as long
as `pert-import` of the same plan and at most 150 MB, an import with pauses takes at most twice as
long as one without, and no growth is above 4.6. Limits on time are 1.4 times these, since other
steps of the gate run at the same time.
"""

from __future__ import annotations

import argparse
import csv
import os
import random
import sys
import tempfile
from collections.abc import Iterator, Sequence
from dataclasses import dataclass
from datetime import date, timedelta
from pathlib import Path

TOP = Path(__file__).resolve().parents[2]
HEADINGS = ("ID", "Group", "Name", "Duration", "Predecessors", "Crash", "Slope", "Cost") + (
    "Start",
    "Finish",
)
PROGRESS = ("% Complete", "Remaining Duration", "Actual Start", "Actual Cost")
FIRST_DAY = date(2026, 3, 2)
ACCEPTED = "pause,progress"
SECTION = 20
MOST_REPORT, MOST_PAUSES, MOST_GROWTH, MOST_MEGABYTES = 2.5, 2.0, 4.6, 150
NOISE = 1.4
"""How many times a limit on time is, since the gate runs other steps at the same time."""


@dataclass(frozen=True)
class Cost:
    """The seconds of processor that a command took, and its peak memory in megabytes."""

    seconds: float
    megabytes: float


def links(number: int, chance: random.Random) -> list[int]:
    """Returns the tasks before a task."""
    before = [] if number % SECTION == 1 else [number - 1]
    if number > 1:
        before.append(chance.randrange(max(1, number - 40), number))
    if number > 40 and number % 4 == 0:
        before.append(chance.randrange(1, number - 20))
    return list(dict.fromkeys(before))


def links_cell(number: int, before: Sequence[int], pauses: bool) -> str:
    """Returns the cell of predecessors. With pauses, one task of each section is held at its end
    by one task, and lets another one start with it.
    """
    words = [str(other) for other in before]
    if pauses and number % SECTION == 10:
        words[-1] += "FF"
    if pauses and number % SECTION == 11:
        words[0] += "SS"
    return ",".join(words)


def day_of(days: int) -> date:
    """Returns the day after so many working days, from Monday to Friday."""
    return FIRST_DAY + timedelta(days=days // 5 * 7 + days % 5)


def rows(count: int, pauses: bool, begun: bool) -> Iterator[list[object]]:
    """Yields the rows of a list of tasks."""
    chance = random.Random(count)
    yield [*HEADINGS, *(PROGRESS if begun else ())]
    ends = [0]
    for number in range(1, count + 1):
        days = 2 + chance.randrange(9)
        is_shortened = number % 3 == 0
        crash = days - 1 - days // 5 if is_shortened else days
        slope = 10 * (1 + chance.randrange(40)) if is_shortened else 0
        before = links(number, chance)
        begin = max((ends[other] for other in before), default=0)
        ends.append(begin + days)
        section = f"Section {(number - 1) // SECTION + 1}"
        row: list[object] = [number, section, f"Task {number}", f"{days} days"]
        row += [links_cell(number, before, pauses), f"{crash} days", slope, 100 * days]
        row += [day_of(begin), day_of(begin + days - 1)]
        yield [*row, *(progress(number, count, days) if begun else ())]


def progress(number: int, count: int, days: int) -> list[object]:
    """Returns what a list says of the progress of a task: two fifths are done or begun."""
    if number > count * 2 // 5:
        return ["", "", "", ""]
    start = FIRST_DAY + timedelta(days=7 * (number // SECTION))
    if number % SECTION:
        return ["100%", "0 days", start, 110 * days]
    return ["50%", f"{days} days", start, 60 * days]


def write_list(path: Path, count: int, pauses: bool = False, begun: bool = False) -> None:
    """Writes a list of tasks."""
    with open(path, "w", encoding="utf-8", newline="") as out:
        csv.writer(out).writerows(rows(count, pauses, begun))


class Runner:
    """Runs commands in a folder, with the programs of another one."""

    def __init__(self, folder: Path, programs: Sequence[Path]) -> None:
        """Takes the folder to work in, and those of the programs."""
        self._folder = folder
        path = ":".join([*map(str, programs), os.environ["PATH"]])
        self._environment = {**os.environ, "PATH": path}

    def cost(self, command: str, *words: str) -> Cost:
        """Returns what a command took. It has to succeed."""
        line = [str(TOP / "companion" / "launch"), command, *words]
        with open(self._folder / "messages", "w+b") as messages:
            sinks = [(os.POSIX_SPAWN_DUP2, messages.fileno(), number) for number in (1, 2)]
            child = os.posix_spawn(line[0], line, self._environment, file_actions=sinks)
            _, status, usage = os.wait4(child, 0)
            if status:
                messages.seek(0)
                sys.exit(f"{' '.join(line)}: {messages.read().decode()[-500:]}")
        return Cost(usage.ru_utime + usage.ru_stime, usage.ru_maxrss / 1024)


def commands(folder: Path, count: int) -> Iterator[tuple[str, list[str]]]:
    """Yields each command to measure, by the name of its row, in an order that works."""
    plan, pauses, begun = (folder / name for name in ("plan.csv", "pauses.csv", "begun.csv"))
    write_list(plan, count)
    write_list(pauses, count, pauses=True)
    write_list(begun, count, begun=True)
    decks = folder / "decks"
    decks.mkdir()
    first, deck = str(decks / "a.csv"), str(decks / "b.csv")
    start = ["--start", str(FIRST_DAY), "--accept", ACCEPTED]
    as_of = str(FIRST_DAY + timedelta(days=7 * (count * 2 // 5 // SECTION + 1)))
    yield "import", ["pert-import", str(plan), *start, "-o", first]
    yield "import with pauses", [
        "pert-import",
        str(pauses),
        *start,
        "-o",
        str(folder / "apart.csv"),
    ]
    yield "import with progress", [
        *["pert-import", str(begun), *start, "--as-of", as_of, "-o", deck],
    ]
    yield "report", ["pert-report", first, "-o", str(folder / "first.html")]
    yield "report with progress", [
        *["pert-report", deck, "--baseline", first, "-o", str(folder / "page.html")],
    ]
    yield "compare", ["pert-compare", first, deck]
    yield "schedule", ["pert-schedule", first]
    yield "forecast", ["pert-schedule", "--forecast", deck]
    yield "export", ["pert-export", deck, "-o", str(folder / "plan.xml")]
    pages = ["--no-cache", "-o", str(folder / "projects.html")]
    yield "portfolio", ["pert-portfolio", first, deck, *pages]


def measured(size: int, programs: Sequence[Path], only: Sequence[str]) -> dict[str, Cost]:
    """Returns what each command takes on a plan of this size, and says so as it goes."""
    found = {}
    with tempfile.TemporaryDirectory() as scratch:
        runner = Runner(Path(scratch), programs)
        for name, words in commands(Path(scratch), size):
            is_wanted = not only or name.startswith("import") or any(it in name for it in only)
            if is_wanted:
                found[name] = runner.cost(*words)
                print(f"{size} {name}: {found[name]}", file=sys.stderr, flush=True)
    return found


def excesses(smaller: dict[str, Cost], larger: dict[str, Cost]) -> Iterator[str]:
    """Yields a line for each limit that is exceeded."""
    pairs = (("report", "import", MOST_REPORT), ("import with pauses", "import", MOST_PAUSES))
    for name, other, most in pairs:
        for costs in (smaller, larger):
            if name in costs and costs[name].seconds > NOISE * most * costs[other].seconds:
                yield f"{name} takes more than {most} times {other}"
    for name, cost in larger.items():
        if cost.seconds > NOISE * MOST_GROWTH * smaller[name].seconds:
            yield f"{name} grows more than {MOST_GROWTH} times"
        if name == "report" and cost.megabytes > MOST_MEGABYTES:
            yield f"{name} takes more than {MOST_MEGABYTES} MB"


def main() -> int:
    """Prints the table and returns the status."""
    parser = argparse.ArgumentParser(description="Measures the commands of the companion.")
    parser.add_argument("folder", nargs="?", type=Path, metavar="FOLDER")
    parser.add_argument("--sizes", default="500,2000", metavar="A,B")
    parser.add_argument("--only", nargs="+", default=(), metavar="WORD")
    parser.add_argument("--check", action="store_true")
    options = parser.parse_args()
    programs = [TOP / "crates" / name / "out" for name in ("pert", "pert_check")]
    if options.folder is not None:
        programs = [options.folder.resolve()]
    sizes = [int(word) for word in options.sizes.split(",")]
    smaller, larger = (measured(size, programs, options.only) for size in sizes)
    print(f"| Command | {sizes[0]}: s | {sizes[1]}: s | Growth | MB |\n|---|---|---|---|---|")
    for name, cost in larger.items():
        before = smaller[name].seconds
        growth = f"{cost.seconds / before:.1f}"
        print(f"| {name} | {before:.1f} | {cost.seconds:.1f} | {growth} | {cost.megabytes:.0f} |")
    lines = list(dict.fromkeys(excesses(smaller, larger)))
    print("\n".join(lines), file=sys.stderr)
    return 1 if options.check and lines else 0


if __name__ == "__main__":
    sys.exit(main())
