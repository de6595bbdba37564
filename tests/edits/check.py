#!/usr/bin/env python3
"""Checks must-fail edits without trying them, and whether docs/gate.md and the folders agree.

    tests/edits/check.py
    tests/edits/check.py --meaning [--jobs N] [EDIT..]

An edit names a file of its crate, and each text that it removes occurs there exactly once. The
tables of docs/gate.md name the edits that every gate must refuse: exactly these, at most 100, are
in crates/CRATE/must-fail/. Each has a comment with the case of tests/acceptance/ that it breaks and
what the edited program prints there, or why there is none. Each other edit has a comment that says
what the edited program gets wrong.

--meaning also runs the edited programs of the gate's edits, or of those named, so many at a time.
It applies an edit to a copy of the sources, runs the program of its case there by `rt try`, which
proves nothing, and compares: the program prints what the comment says, and that is not the right
answer. An edit takes one to two minutes of processor time. The gate does not do this.
"""

from __future__ import annotations

import argparse
import re
import shutil
import subprocess
import sys
import tempfile
from concurrent.futures import ThreadPoolExecutor, as_completed
from dataclasses import dataclass
from pathlib import Path

from edits import (
    CASES,
    TOP,
    Edit,
    EditError,
    changed_texts,
    edits_of_gate,
    named_edits,
    other_edits,
    read_edit,
)

MOST = 100
# lines of `rt try` about the program, which are not the program's own
ENDED = re.compile(r"^run=(\S+)(?: status=(\d+))?.*\n", re.M)
OTHER = re.compile(r"^(?:checked|interpreter|interpreted): .*\n", re.M)
SECONDS = 1800


@dataclass(frozen=True)
class Answer:
    """The lines of standard output, then those of standard error, and the status."""

    lines: list[str]
    status: int


@dataclass(frozen=True)
class Case:
    """A case of tests/acceptance/: what runs there, and the right answer."""

    folder: Path
    program: str
    words: list[str]
    given: Path | None
    right: Answer


def read(path: Path, missing: str = "") -> str:
    """The text of a file, or another one if there is no file."""
    return path.read_text(encoding="utf-8") if path.exists() else missing


def deck_of(folder: Path) -> Path:
    """The deck of a case: its own, or that of the case that its file `deck` names."""
    named = read(folder / "deck").strip()
    return (CASES / named if named else folder) / "deck.csv"


def read_case(name: str) -> Case:
    """Reads a case."""
    folder = CASES / name
    if not folder.is_dir():
        raise EditError(f"tests/acceptance/ has no case {name}")
    program = read(folder / "program", "pert").strip()
    inputs = [deck_of(folder)]
    if program != "pert":
        inputs = [folder / "lines.txt", folder / "cert.txt"]
    given = next((it for it in inputs if it.exists()), None)
    lines = read(folder / "stdout").splitlines() + read(folder / "stderr").splitlines()
    right = Answer(lines, int(read(folder / "status", "0")))
    return Case(folder, program, read(folder / "args").splitlines(), given, right)


def read_test(row: str) -> tuple[str, str]:
    """The crate and the name of a test that a row names: `test CRATE FILE::NAME`."""
    words = row.split()
    if len(words) != 3 or "::" not in words[2]:
        raise EditError(f"no test: {row}")
    sources = (TOP / "crates" / words[1] / "src").glob("**/*.rt")
    name = words[2].rpartition("::")[2]
    if not any(re.search(rf"#\[test\]\s+fn {name}\(", read(path)) for path in sources):
        raise EditError(f"crates/{words[1]} has no test {words[2]}")
    return words[1], words[2]


def holds(answer: list[str], lines: tuple[str, ...]) -> bool:
    """Whether these lines follow one another in an answer; none stand for an empty answer."""
    if not lines:
        return not answer
    count = len(lines)
    return any(tuple(answer[at : at + count]) == lines for at in range(len(answer) - count + 1))


def printed(edit: Edit) -> tuple[str, ...]:
    """The lines that an edit says the changed program prints."""
    if edit.prints_as is None:
        return edit.prints
    return tuple(read_case(edit.prints_as).right.lines)


def faults_of(edit: Edit) -> list[str]:
    """What is wrong with an edit, without running anything."""
    found = []
    try:
        changed_texts(edit)
        lines = printed(edit)
        if edit.row is not None and edit.row.startswith("test "):
            read_test(edit.row)
        elif edit.row is not None:
            case = read_case(edit.row)
            same = edit.status is None or edit.status == case.right.status
            if same and holds(case.right.lines, lines):
                found.append(f"what it prints is in the right answer of {edit.row}")
    except EditError as error:
        found.append(str(error))
    if edit.is_of_gate and edit.row is None and edit.no_row is None:
        found.append("it says neither which case it breaks nor why there is none")
    if not edit.is_of_gate and not edit.words:
        found.append("no comment says what it gets wrong")
    return found


def check_all() -> tuple[list[Edit], list[str]]:
    """All edits that can be read, and what is wrong."""
    edits, failed = [], []
    of_gate, others = edits_of_gate(), other_edits()
    for path in of_gate + others:
        name = str(path.relative_to(TOP))
        try:
            edits.append(read_edit(path))
        except EditError as error:
            failed.append(f"{name}: {error}")
            continue
        failed += [f"{name}: {it}" for it in faults_of(edits[-1])]
    if len(of_gate) > MOST:
        failed.append(f"every gate tries {len(of_gate)} edits; at most {MOST} may be in must-fail/")
    named, there = named_edits(), {str(path.relative_to(TOP)) for path in of_gate}
    if not named:
        failed.append("docs/gate.md names no edit")
    failed += [f"docs/gate.md names {it}, which is not there" for it in sorted(named - there)]
    failed += [f"docs/gate.md does not name {it}" for it in sorted(there - named)]
    return edits, failed


def try_copy(edit: Edit, crate: str, words: list[str], given: Path | None) -> tuple[str, str]:
    """What `rt try` writes for a crate of a copy of the sources with the edit, unproved."""
    with tempfile.TemporaryDirectory(prefix="edits-") as room:
        copy = Path(room)
        # (`rt` runs at the top of a repository, and .git says that the copy is one)
        (copy / ".git").mkdir()
        for name in ("crates.txt", "HANDLES"):
            shutil.copy(TOP / name, copy)
        leave = shutil.ignore_patterns("out", "must-fail")
        shutil.copytree(TOP / "crates", copy / "crates", ignore=leave)
        for path, text in changed_texts(edit, copy).items():
            path.write_text(text, encoding="utf-8")
        with open(given or "/dev/null", "rb") as stdin:
            done = subprocess.run(
                ["rt", "try", *words],
                cwd=copy / "crates" / crate,
                stdin=stdin,
                capture_output=True,
                timeout=SECONDS,
                check=False,
            )
    return done.stdout.decode("utf-8", "replace"), done.stderr.decode("utf-8", "replace")


def answer_of(edit: Edit, case: Case) -> Answer:
    """What the edited program answers to the case."""
    words = ["--steps", "1"]
    for word in case.words:
        file = deck_of(case.folder) if word == "deck.csv" else case.folder / word
        if file.is_file():
            words += ["--data", f"{word}={file}"]
    out, err = try_copy(edit, case.program, [*words, "--", *case.words], case.given)
    ended = ENDED.search(err)
    if ended is None or ended[1] != "ended" or ended[2] is None:
        raise EditError(f"the program gave no answer: {err.strip()[-400:]}")
    lines = out.splitlines() + ENDED.sub("", OTHER.sub("", err)).splitlines()
    return Answer([line for line in lines if line], int(ended[2]))


def fault_of_test(edit: Edit, row: str) -> str | None:
    """What is wrong with an edit that a test must show, once the tests ran, or nothing."""
    crate, name = read_test(row)
    out, err = try_copy(edit, crate, ["--test"], None)
    said = re.search(rf"^test {re.escape(name)} \.\.\. (\w+)$", out + err, re.M)
    if said is None:
        return f"nothing was said of {name}: {(out + err).strip()[-400:]}"
    return None if said[1] == "FAILED" else f"{name} passes"


def fault_of_case(edit: Edit, row: str) -> str | None:
    """What is wrong with an edit that a case must show, once the program ran, or nothing."""
    case = read_case(row)
    got = answer_of(edit, case)
    status = case.right.status if edit.status is None else edit.status
    if got == case.right:
        return f"it gives the right answer of {row}"
    if got.status != status:
        return f"the status on {row} is {got.status}, not {status}; it prints {got.lines[:12]}"
    if not holds(got.lines, printed(edit)):
        return f"it prints on {row}: {got.lines[:40]}"
    return None


def fault_of_run(edit: Edit) -> str | None:
    """What is wrong with an edit's row once it ran, or nothing."""
    if edit.row is None:
        return None
    shown_by = fault_of_test if edit.row.startswith("test ") else fault_of_case
    try:
        return shown_by(edit, edit.row)
    except (EditError, subprocess.TimeoutExpired) as error:
        return str(error)


def check_meaning(edits: list[Edit], jobs: int) -> list[str]:
    """Runs the edits on their rows, so many at a time, and says what is wrong."""
    failed = []
    rows = [edit for edit in edits if edit.row is not None]
    with ThreadPoolExecutor(jobs) as pool:
        runs = {pool.submit(fault_of_run, edit): edit for edit in rows}
        for run in as_completed(runs):
            edit, fault = runs[run], run.result()
            print(f"{'FAILED' if fault else 'ok'} {edit.name} on {edit.row}", flush=True)
            if fault:
                failed.append(f"{edit.name}: {fault}")
                print(f"  {fault}", flush=True)
    print(f"meaning: {len(rows)} edits ran on their rows, {len(failed)} failed")
    return failed


def main() -> int:
    """Checks, and says what is wrong."""
    parser = argparse.ArgumentParser(
        description=__doc__, formatter_class=argparse.RawDescriptionHelpFormatter
    )
    parser.add_argument("--meaning", action="store_true", help="also run the edited programs")
    parser.add_argument("--jobs", type=int, default=2, help="so many programs at a time")
    parser.add_argument("edits", nargs="*", metavar="EDIT", help="the files of these edits alone")
    args = parser.parse_args()
    if args.edits and not args.meaning:
        parser.error("edits are named for --meaning alone")
    edits, failed = check_all()
    by_path = {edit.path: edit for edit in edits}
    chosen = [Path(it).resolve() for it in args.edits]
    unknown = [it for it in chosen if it not in by_path]
    if unknown:
        parser.error(f"no edit {unknown[0]}, or it cannot be read")
    if args.meaning:
        if not shutil.which("rt"):
            print("edits: skipped, since rt is missing")
            return 0
        of_gate = [edit for edit in edits if edit.is_of_gate]
        wanted = [by_path[it] for it in chosen] if chosen else of_gate
        failed += check_meaning(wanted, args.jobs)
    for it in failed:
        print(f"FAILED edits: {it}")
    tried = sum(edit.is_of_gate for edit in edits)
    others = len(edits) - tried
    print(f"edits: every gate tries {tried}, make soak {others}; {len(failed)} failed")
    return 1 if failed else 0


if __name__ == "__main__":
    sys.exit(main())
