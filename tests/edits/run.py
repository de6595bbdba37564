#!/usr/bin/env python3
"""Tries the must-fail edits that a change reaches: the prover must refuse these wrong bodies.

    tests/edits/run.py [--all | --goals] [--gate] [--list] [CRATE | EDIT ..]
    tests/edits/run.py --log FILE

The edits that every gate tries are in crates/CRATE/must-fail/ (docs/gate.md says which), all others
here, in a folder for each crate. With no names, these others are meant, and with --gate those of
the gate too. A crate stands for all its edits, of both places.

tests/edits/state names for each edit the sources on which it was last refused: a sum over its
crate, all crates below it and its own text, without lines that are comments; and the first goal
that was not proved with it, if a run named one. An edit with the same sum is not tried again,
unless --all is given, or --goals and no run named a goal. What a crate's edits came to is written
down when all of them were tried. Only an edit that the prover lets through loses its line: a
refusal on earlier sources, and its goal, stay until the next one.

--list says which edits would be tried, and how each was last refused, and tries none. --log writes
down what `rt ci` or `rt must-fail` refused at the top of this checkout: FILE is what it printed, of
these very sources.

They are tried by `rt must-fail` in a copy of the sources, which begins with what `rt check` kept in
crates/*/out/: large files are linked into the copy, small ones are copied.
"""

from __future__ import annotations

import argparse
import fcntl
import hashlib
import os
import re
import shutil
import subprocess
import sys
import tempfile
from collections.abc import Iterator
from contextlib import contextmanager
from dataclasses import dataclass
from pathlib import Path

from edits import (
    TOP,
    Edit,
    EditError,
    changed_texts,
    crates_below,
    edits_of_gate,
    files_of,
    other_edits,
    read_edit,
)

STATE = TOP / "tests" / "edits" / "state"
# what `rt must-fail` says of an edit
SAID = re.compile(r"must-fail (\w+)/([\w.-]+\.edit): ([A-Za-z ]+)")
REFUSED = "refused"
LET_THROUGH = "NOT REFUSED"
# the goal that `rt` names first, of a clause, an invariant or a call: one that has no proof, or one
# whose proof is wrong with the edit
GOAL = re.compile(r"\(`([\w+.-]+)`\)|error: `([\w+.-]+)`")
# how a line begins that is a comment, in .rt and in .antt files
COMMENTS = (b"//", b"--")
# files of fewer bytes are copied
SMALL = 65536
# a refusal that says nothing of a contract
NAMES_ALONE = "only because a proof file names what the edit took away"


@dataclass(frozen=True)
class Refusal:
    """The sum on which an edit was refused, and the goal that was not proved; empty: not known."""

    total: str
    goal: str = ""

    def __str__(self) -> str:
        """Its text in the file."""
        return f"{self.total} {self.goal}".rstrip()

    def or_goal_of(self, earlier: Refusal | None) -> Refusal:
        """This refusal, with the goal of an earlier one if it names none itself."""
        return Refusal(self.total, self.goal or (earlier.goal if earlier else ""))


def settles(refusal: Refusal | None, total: str, by_goal: bool) -> bool:
    """Whether a refusal is one on these sources, and one by a goal where that is asked for."""
    return refusal is not None and refusal.total == total and (bool(refusal.goal) or not by_goal)


def told(refusal: Refusal | None) -> str:
    """How an edit was last refused, in words."""
    if refusal is None:
        return "never refused"
    return f"refused by {refusal.goal}" if refusal.goal else "refused, no goal named"


def read_state() -> dict[str, Refusal]:
    """For each edit how it was last refused."""
    if not STATE.exists():
        return {}
    rows = (line.split() for line in STATE.read_text(encoding="utf-8").splitlines())
    return {name: Refusal(*said) for name, *said in rows}


@contextmanager
def alone() -> Iterator[None]:
    """Keeps out other runs in this checkout, which write into the same file."""
    folder = os.open(STATE.parent, os.O_RDONLY)
    try:
        fcntl.flock(folder, fcntl.LOCK_EX)
        yield
    finally:
        os.close(folder)


def record(name: str, refusal: Refusal | None) -> None:
    """Writes down how an edit was refused, or that it was let through. Leaves out what is gone."""
    with alone():
        state = read_state()
        earlier = state.pop(name, None)
        if refusal is not None:
            state[name] = refusal.or_goal_of(earlier)
        text = "".join(f"{it} {state[it]}\n" for it in sorted(state) if (TOP / it).exists())
        beside = STATE.with_suffix(".new")
        beside.write_text(text, encoding="utf-8")
        beside.replace(STATE)


def without_comments(path: Path) -> bytes:
    """The lines of a source that are no comments, which alone decide whether an edit is refused."""
    lines = path.read_bytes().splitlines(keepends=True)
    return b"".join(line for line in lines if not line.lstrip().startswith(COMMENTS))


class Sums:
    """Sums over sources, each crate read once."""

    def __init__(self) -> None:
        """Begins with no sum."""
        self.below = crates_below()
        self.of_crate: dict[str, str] = {}

    def crate(self, name: str) -> str:
        """A sum over the sources of a crate, and what it uses."""
        if name not in self.of_crate:
            total = hashlib.sha256(f"{name}: {' '.join(self.below[name])}\n".encode())
            for path in files_of(name):
                inside = path.relative_to(TOP / "crates")
                of_file = hashlib.sha256(without_comments(path)).hexdigest()
                total.update(f"{inside} {of_file}\n".encode())
            self.of_crate[name] = total.hexdigest()
        return self.of_crate[name]

    def edit(self, edit: Edit) -> str:
        """A sum over an edit's crate, all crates below it, and what the edit changes."""
        total = hashlib.sha256()
        for name in [*self.below[edit.crate], edit.crate]:
            total.update(f"{name} {self.crate(name)}\n".encode())
        for change in edit.changes:
            total.update(f"{change.file}\n{change.old}\n{change.new}\n".encode())
        return total.hexdigest()[:32]


def chosen(args: argparse.Namespace, below: dict[str, list[str]]) -> list[Edit]:
    """The edits that the words name."""
    every = [read_edit(path) for path in edits_of_gate() + other_edits()]
    if not args.names:
        return [edit for edit in every if args.gate or not edit.is_of_gate]
    found = []
    for name in args.names:
        path = Path(name).resolve()
        named = [edit for edit in every if path == edit.path or (name == edit.crate)]
        if not named and name not in below:
            raise EditError(f"{name} is no edit, and no crate of crates.txt")
        found += [edit for edit in named if edit not in found]
    return found


def link_or_copy(source: str, target: str) -> None:
    """Puts a kept file into the copy. `rt` may write small files again, and replaces large ones."""
    if os.path.getsize(source) < SMALL:
        shutil.copy2(source, target)
    else:
        os.link(source, target)


def lay_out(copy: Path, edits: list[Edit], below: dict[str, list[str]]) -> dict[str, Edit]:
    """Copies what edits of one crate stand on, with them. Returns them by their names there."""
    crate = edits[0].crate
    wanted = [*below[crate], crate]
    # (`rt` runs at the top of a repository, and .git says that the copy is one)
    (copy / ".git").mkdir()
    shutil.copy(TOP / "HANDLES", copy)
    lines = (TOP / "crates.txt").read_text(encoding="utf-8").splitlines(keepends=True)
    kept = [line for line in lines if line.partition(":")[0].partition(" ")[0] in wanted]
    (copy / "crates.txt").write_text("".join(kept), encoding="utf-8")
    for name in wanted:
        here, there = TOP / "crates" / name, copy / "crates" / name
        shutil.copytree(here, there, ignore=shutil.ignore_patterns("out", "must-fail"))
        if (here / "out").is_dir():
            shutil.copytree(here / "out", there / "out", copy_function=link_or_copy, symlinks=True)
    laid: dict[str, Edit] = {}
    folder = copy / "crates" / crate / "must-fail"
    folder.mkdir()
    for edit in edits:
        # (both places may have an edit of this name)
        name = f"gate-{edit.path.name}" if edit.is_of_gate else edit.path.name
        shutil.copy(edit.path, folder / name)
        laid[name] = edit
    return laid


def is_refused(line: str) -> bool:
    """Whether a line says that an edit was refused, and for its meaning."""
    said = SAID.search(line)
    return said is not None and said[3].startswith(REFUSED) and NAMES_ALONE not in line


def goal_in(line: str) -> str:
    """The goal that a refusal names, or nothing."""
    said = GOAL.search(line)
    return said[1] or said[2] if said else ""


def try_crate(edits: list[Edit], sums: Sums, room: str) -> tuple[int, list[str]]:
    """Tries edits of one crate. Returns how many were refused, and what was said of the others."""
    crate = edits[0].crate
    others = {edit.name: f"{edit.name}: nothing was said of it" for edit in edits}
    # (the sums of what is laid out, before anything may change)
    before = {edit.name: sums.edit(edit) for edit in edits}
    with tempfile.TemporaryDirectory(prefix=".edits-", dir=room) as folder:
        copy = Path(folder)
        laid = lay_out(copy, edits, sums.below)
        with subprocess.Popen(
            ["rt", "must-fail", crate],
            cwd=copy,
            stdin=subprocess.DEVNULL,
            stdout=subprocess.PIPE,
            stderr=subprocess.STDOUT,
            text=True,
            errors="replace",
        ) as run:
            assert run.stdout is not None
            for line in run.stdout:
                print(line, end="", flush=True)
                said = SAID.search(line)
                if said is None or said[2] not in laid:
                    continue
                name = laid[said[2]].name
                if is_refused(line):
                    others.pop(name, None)
                    record(name, Refusal(before[name], goal_in(line)))
                else:
                    others[name] = line.strip()
                    if said[3].startswith(LET_THROUGH):
                        record(name, None)
    return len(edits) - len(others), list(others.values())


def take_log(log: Path, sums: Sums) -> int:
    """Writes down what a log of the gate says was refused, and returns how many edits that are."""
    edits = {(edit.crate, edit.path.name): edit for edit in map(read_edit, edits_of_gate())}
    taken = set()
    for line in log.read_text(encoding="utf-8", errors="replace").splitlines():
        said = SAID.search(line)
        edit = edits.get((said[1], said[2])) if said else None
        if edit is not None and is_refused(line):
            record(edit.name, Refusal(sums.edit(edit), goal_in(line)))
            taken.add(edit.name)
    return len(taken)


def words_of_command() -> argparse.Namespace:
    """The words of the command."""
    parser = argparse.ArgumentParser(
        description=__doc__, formatter_class=argparse.RawDescriptionHelpFormatter
    )
    parser.add_argument("--all", action="store_true", help="also what no change reaches")
    parser.add_argument("--goals", action="store_true", help="also what no goal is known of")
    parser.add_argument("--gate", action="store_true", help="also the edits that every gate tries")
    parser.add_argument("--list", action="store_true", help="say which would be tried")
    parser.add_argument("--log", type=Path, help="take the refusals from what the gate printed")
    parser.add_argument("names", nargs="*", metavar="CRATE|EDIT")
    return parser.parse_args()


def main() -> int:
    """Tries what the words name and a change reaches."""
    args = words_of_command()
    sums, state = Sums(), read_state()
    if args.log:
        print(f"edits: {take_log(args.log, sums)} refusals are written down")
        return 0
    try:
        meant = chosen(args, sums.below)
        for edit in meant:
            changed_texts(edit)
    except EditError as error:
        print(f"edits: {error}")
        return 2
    wanted = [
        edit
        for edit in meant
        if args.all or not settles(state.get(edit.name), sums.edit(edit), args.goals)
    ]
    if args.list:
        print("".join(f"{edit.name}: {told(state.get(edit.name))}\n" for edit in wanted), end="")
        return 0
    if wanted and not shutil.which("rt"):
        print("edits: skipped, since rt is missing")
        return 0
    refused, others = 0, []
    for crate in dict.fromkeys(edit.crate for edit in wanted):
        of_crate = [edit for edit in wanted if edit.crate == crate]
        count, said = try_crate(of_crate, sums, str(TOP))
        refused += count
        others += said
    for it in others:
        print(f"FAILED edits: {it}")
    known = len(meant) - len(wanted)
    print(
        f"edits: {len(meant)} meant, {known} not reached by a change, {len(wanted)} tried,"
        f" {refused} refused, {len(others)} failed"
    )
    return 1 if others else 0


if __name__ == "__main__":
    sys.exit(main())
