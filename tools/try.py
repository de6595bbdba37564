#!/usr/bin/env python3
"""Runs a program of this checkout before anything is proved. The program is compiled with run-time
checks, which takes about a minute.

    tools/try.py WORD.. <DECK            runs pert with these words, as in: tools/try.py times <examples/shed.csv
    tools/try.py --cases [CASE..]        runs all cases of tests/acceptance/, or those named, and compares what they print

The program's output and exit status are passed on. Nothing is proved, kept or installed. The
program takes about 100 times as long as one that `make` builds, and is stopped after 60 seconds.
"""

from __future__ import annotations

import difflib
import itertools
import re
import shutil
import subprocess
import sys
import tempfile
from dataclasses import dataclass
from pathlib import Path

TOP = Path(__file__).resolve().parent.parent
CASES = TOP / "tests" / "acceptance"
# lines of `rt try` about the program, which are not the program's own
ENDED = re.compile(rb"^run=ended status=(\d+) .*\n\Z", re.M)
OTHER = re.compile(rb"^(checked|interpreter|interpreted): .*\n", re.M)
CASE = re.compile(rb"^case=(\S+) run=(\S+)(?: status=(\d+))?.*\n", re.M)
PRINTED = re.compile(rb"^== (\S+)\n(.*?)(?=^== \S+\n|\Z)", re.M | re.S)


@dataclass(frozen=True)
class Answer:
    """What a program prints on both streams, and its status, if it ends with one."""

    out: bytes
    err: bytes
    status: int | None


@dataclass(frozen=True)
class Case:
    """A case of tests/acceptance/: its program, the files that it names, and the right answer."""

    program: str
    data: list[str]
    right: Answer


@dataclass(frozen=True)
class Run:
    """How one case ran: in which way it ended, and what it answered."""

    case: str
    end: str
    answer: Answer


def rt_try(
    program: str, words: list[str], stdin: int | None = None
) -> subprocess.CompletedProcess[bytes]:
    """Runs `rt try` for a program."""
    command, crate = ["rt", "try", *words], TOP / "crates" / program
    return subprocess.run(command, cwd=crate, stdin=stdin, capture_output=True, check=False)


def run(words: list[str]) -> int:
    """Runs pert once. Its output and status become ours."""
    done = rt_try("pert", ["--", *words])
    sys.stdout.buffer.write(done.stdout)
    sys.stdout.flush()
    ended = ENDED.search(done.stderr)
    if not ended:
        sys.stderr.buffer.write(done.stderr)
        print("try: the program gave no answer; it is not proved", file=sys.stderr)
        return done.returncode or 2
    sys.stderr.buffer.write(OTHER.sub(b"", ENDED.sub(b"", done.stderr)))
    print("not proved: this is a trial run, see `make` for the proved program", file=sys.stderr)
    return int(ended[1])


def read(path: Path, missing: bytes = b"") -> bytes:
    """Returns what is in a file, or something else if there is no such file."""
    return path.read_bytes() if path.exists() else missing


def deck_of(folder: Path) -> Path:
    """Returns the deck of a case: its own, or that of the case that its file `deck` names."""
    named = read(folder / "deck").decode().strip()
    return (CASES / named if named else folder) / "deck.csv"


def right_answer(folder: Path) -> Answer:
    """Returns what a case must print. One without a `mend` may name another that prints the same."""
    if (folder / "same").exists() and not (folder / "mend").exists():
        folder = CASES / read(folder / "same").decode().strip()
    status = int(read(folder / "status", b"0"))
    return Answer(read(folder / "stdout"), read(folder / "stderr"), status)


def lay_out(name: str, room: Path) -> Case:
    """Puts a case into a folder as `rt try --cases` reads it."""
    here = CASES / name
    program = read(here / "program", b"pert").decode().strip()
    inputs = [deck_of(here)] if program == "pert" else [here / "lines.txt", here / "cert.txt"]
    given = next((it for it in inputs if it.exists()), None)
    (room / program).mkdir(exist_ok=True)
    (room / program / name).write_bytes(given.read_bytes() if given else b"")
    data = []
    words = read(here / "args").decode("utf-8", "surrogateescape").splitlines()
    for n, word in enumerate(words):
        file = deck_of(here) if word == "deck.csv" else here / word
        if program != "pert" and file.is_file():
            words[n] = f"{name}.{word}"
            data += ["--data", f"{words[n]}={file}"]
    args = "".join(f"{it}\n" for it in words).encode("utf-8", "surrogateescape")
    (room / program / f"{name}.args").write_bytes(args)
    return Case(program, data, right_answer(here))


def runs_of(done: subprocess.CompletedProcess[bytes]) -> list[Run]:
    """Returns how each case of one `rt try --cases` ran."""
    printed = {it[1].decode(): it[2] for it in PRINTED.finditer(done.stdout)}
    runs, begin = [], 0
    for line in CASE.finditer(done.stderr):
        said, begin = done.stderr[begin : line.start()], line.end()
        name, status = line[1].decode(), int(line[3]) if line[3] else None
        answer = Answer(printed.get(name, b""), OTHER.sub(b"", said), status)
        runs.append(Run(name, line[2].decode(), answer))
    return runs


def show(ran: Run, case: Case) -> None:
    """Prints how the answer of a case differs from the right one."""
    got, right = ran.answer, case.right
    print(
        f"FAILED try: case {ran.case} of {case.program}: {ran.end}, status {got.status}, "
        f"wanted {right.status}"
    )
    for was, now in ((right.out, got.out), (right.err, got.err)):
        wanted, printed = (it.decode("utf-8", "replace").splitlines() for it in (was, now))
        lines = difflib.unified_diff(wanted, printed, "wanted", "got", lineterm="")
        for line in itertools.islice(lines, 12):
            print(line)
    print(f"alone: tools/try.py --cases {ran.case}")


def cases(names: list[str]) -> int:
    """Runs the cases that no table makes, with one `rt try` for each program."""
    every = sorted(it.name for it in CASES.iterdir() if it.is_dir())
    unknown = sorted(set(names) - set(every))
    if unknown:
        print(f"try: tests/acceptance/ has no case {unknown[0]}", file=sys.stderr)
        return 2
    passed = failed = 0
    with tempfile.TemporaryDirectory() as room:
        laid = {name: lay_out(name, Path(room)) for name in names or every}
        for program in dict.fromkeys(case.program for case in laid.values()):
            data = [it for case in laid.values() if case.program == program for it in case.data]
            words = ["--steps", "1", *data, "--cases", f"{room}/{program}"]
            done = rt_try(program, words, stdin=subprocess.DEVNULL)
            runs = runs_of(done)
            for ran in runs:
                if ran.end == "ended" and ran.answer == laid[ran.case].right:
                    passed += 1
                else:
                    failed += 1
                    show(ran, laid[ran.case])
            if not runs:
                sys.stderr.buffer.write(done.stderr[-4000:])
                failed += 1
    print(f"try: {passed} passed, {failed} failed, not proved")
    return 1 if failed else 0


def main(words: list[str]) -> int:
    """Runs what the words say, and returns the status."""
    if not words or words[0] in ("-h", "--help"):
        print((__doc__ or "").strip(), file=sys.stdout if words else sys.stderr)
        return 0 if words else 2
    if not shutil.which("rt"):
        print(
            "try: there is no 'rt' on the path; put the kit's folder there "
            "(README.md names its version)",
            file=sys.stderr,
        )
        return 2
    return cases(words[1:]) if words[0] == "--cases" else run(words)


if __name__ == "__main__":
    sys.exit(main(sys.argv[1:]))
