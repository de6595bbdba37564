"""Proves the programs named on the command line, with all crates below them, and builds them.

    tools/prove.py PROGRAM..   leaves each program at crates/PROGRAM/out/PROGRAM, built by this
                               run, or leaves nothing there

`rt` first proves the library with the most crates below it, and these, side by side. It runs in
the library's folder, so that it reads no crate of tests. Then come the other libraries, one by one:
over libraries that are built, `rt` does without its pass over all sources. At the end it builds
each program, and proves it with the same reading of what is below. Every ten seconds a line says
how long that has taken, how many crates are proved and which are under way. The complete output of
`rt` is in out/prove.log.

It shares what it proves with `rt check`: both keep their work in each crate's out/, and prove only
what changed since. If the kit shares this work between the clones on a machine, a new clone starts
from theirs. The gate uses none of it.
"""

from __future__ import annotations

import os
import re
import shutil
import signal
import subprocess
import sys
import threading
import time
from pathlib import Path

from proving.crates import uses_of, with_those_below
from proving.processes import work_below
from proving.progress import Line, Progress, clock

EVERY = float(os.environ.get("PROVE_SECONDS", "10"))
# The memory of one check
KILOBYTES = 3_000_000
# What of the log says why a crate is not proved, and the lines of `rt` that never do
TOLD = re.compile(r"(^|: )error|not[- ]proved|: no proof: |^rt: |: failed |: not run, ")
USUAL = re.compile(
    r"rt: (chose |waiting for |the quick pass above |rt check --fix-imports )|\(1: not proved "
)


def text_of(path: Path) -> str:
    """Returns the text of a file, or none if there is no such file."""
    return path.read_text(encoding="utf-8") if path.exists() else ""


def causes(log: str) -> list[str]:
    """Returns the lines of what `rt` said that say why a crate is not proved."""
    lines = log.splitlines()
    return [it for it in lines if TOLD.search(it) and not USUAL.match(it)]


def places(processors: int, memory: str) -> int:
    """Returns how many crates `rt` is to hold at a time, as the free memory of /proc allows.

    One more than there are processors, since a crate that waits for those below it has a place too.
    """
    free = re.search(r"^MemAvailable: +(\d+)", memory, flags=re.M)
    wanted = processors + 1 if processors > 1 else 1
    return max(1, min(wanted, int(free[1]) // KILOBYTES)) if free else wanted


class Run:
    """One run of `make`: its crates, its log and what was said of them."""

    def __init__(self, top: Path, programs: list[str]) -> None:
        self.top, self.programs = top, programs
        self.uses = uses_of(text_of(top / "crates.txt"))
        self.jobs = places(len(os.sched_getaffinity(0)), text_of(Path("/proc/meminfo")))
        self.progress = Progress(with_those_below(self.uses, programs))
        self.log = top / "out" / "prove.log"
        self.began = time.monotonic()

    def built(self, program: str) -> Path:
        """Returns where `rt` leaves a program."""
        return self.top / "crates" / program / "out" / program

    def below(self, crate: str) -> set[str]:
        """Returns a crate and those below it."""
        return with_those_below(self.uses, [crate])

    def prove(self) -> bool:
        """Proves all libraries, and returns whether they are proved."""
        others = [it for it in self.uses if it in self.progress.wanted and it not in self.programs]
        if not others:
            return True
        largest = max(others, key=lambda it: len(self.below(it)))
        self.rt(largest, "all", "check")
        if not self.progress.are_proved(self.below(largest)):
            return False
        # (a crate of the list follows those that it uses)
        for name in (it for it in others if it not in self.below(largest)):
            if self.rt(name, "lib"):
                return False
            self.progress.ended.add(name)
        return True

    def rt(self, crate: str, *words: str) -> int:
        """Runs a command of `rt` in a crate's folder, and returns its status."""
        line = Line(sys.stdout)
        with open(self.log, "a", encoding="utf-8") as log, subprocess.Popen(
            ["rt", *words, "--jobs", str(self.jobs)],
            cwd=self.top / "crates" / crate,
            stdin=subprocess.DEVNULL,
            stdout=subprocess.PIPE,
            stderr=subprocess.STDOUT,
            encoding="utf-8",
            errors="replace",
        ) as running:
            ended = threading.Event()
            watcher = threading.Thread(target=self.watch, args=(running.pid, line, ended))
            watcher.start()
            try:
                assert running.stdout
                for said in running.stdout:
                    log.write(said)
                    log.flush()
                    self.progress.read(said.rstrip("\n"))
            except BaseException:
                running.terminate()
                raise
            finally:
                ended.set()
                watcher.join()
                line.end()
        return running.returncode

    def watch(self, number: int, line: Line, ended: threading.Event) -> None:
        """Writes the line every ten seconds."""
        while not ended.wait(EVERY):
            line.put(self.progress.line(work_below(number), time.monotonic() - self.began))

    def build(self, program: str) -> bool:
        """Builds a program over the libraries, and returns whether it is there.

        Only a proved program is built. `rt run` also runs it, on no words and no input; the status
        of that run says nothing.
        """
        self.rt(program, "run")
        self.progress.ended.add(program)
        return os.access(self.built(program), os.X_OK)

    def outcome(self) -> str:
        """Returns what this run has proved, in one line."""
        now, all_of_them = len(self.progress.proved_now), len(self.progress.wanted)
        if not now:
            return "nothing has changed since an earlier check proved it"
        took = clock(time.monotonic() - self.began)
        if now == all_of_them:
            return f"proved all {now} crates in {took}"
        others = "the others are as an earlier check left them"
        return f"proved {now} of {all_of_them} crates in {took}; {others}"


def say(text: str) -> None:
    """Writes to standard error."""
    print(text, file=sys.stderr, flush=True)


def run(top: Path, programs: list[str]) -> int:
    """Proves and builds, and returns the status."""
    if not programs or programs[0] in ("-h", "--help"):
        print((__doc__ or "").strip())
        return 0 if programs else 2
    for program in programs:
        (top / "crates" / program / "out" / program).unlink(missing_ok=True)
    if not shutil.which("rt"):
        say("make: there is no 'rt' on the path. It is the command of the Rattle kit that proves")
        say("make: and builds these programs; put the kit's folder on the path (README.md names")
        say("make: the kit's version).")
        return 1
    (top / "out").mkdir(exist_ok=True)
    this = Run(top, programs)
    this.log.write_text("", encoding="utf-8")
    # `rt` is stopped with this run
    signal.signal(signal.SIGTERM, lambda *_: sys.exit(128 + signal.SIGTERM))
    try:
        return prove_and_build(this)
    except KeyboardInterrupt:
        return 128 + signal.SIGINT


def prove_and_build(this: Run) -> int:
    """Proves all crates, builds the programs, and returns the status."""
    if not this.prove():
        return failed(this, "not proved, so nothing is built")
    for program in this.programs:
        if not this.build(program):
            return failed(this, f"{program} was not built")
    print(this.outcome(), flush=True)
    return 0


def failed(this: Run, what: str) -> int:
    """Says what failed and why, and returns the status."""
    say(f"make: {what}; the end of {this.log.relative_to(this.top)} says why:")
    say("\n".join(causes(text_of(this.log))[-20:]))
    return 1
