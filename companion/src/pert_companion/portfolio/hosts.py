"""Has other hosts make rows, by GNU parallel over ssh.

A host that fails, is silent, or answers anything but rows of the decks that it got is left out, and
its decks go to the other hosts in a next round. Each connection is watched (`watched`), since a
worker writes at least an empty line every few seconds.
"""

import base64
import json
import os
import re
import shlex
import subprocess
import sys
import tempfile
from collections.abc import Iterator, Mapping, Sequence
from dataclasses import dataclass, field
from itertools import chain
from pathlib import Path

from pert_companion.model.errors import CompanionError, UsageError
from pert_companion.model.sidefile import side_path
from pert_companion.model.source import read_bytes
from pert_companion.portfolio import watched
from pert_companion.portfolio.job import Job
from pert_companion.portfolio.row import Row
from pert_companion.portfolio.stored import row_from

MOST_BYTES = 1024 * 1024
TOGETHER = 4
"""The decks that go to a host in one connection."""
SILENCE = 60
"""The seconds after which a host that sends nothing is left out."""
SSH = "ssh -o BatchMode=yes -o ConnectTimeout=20"
"""Asks for no password."""
LOGIN = re.compile(r"(@[^/]+/)?(\d+/)?(.* )?([^ ]+)")
"""A login of parallel: groups of hosts, connections, a command of its own, user and host."""
NUMBER = "PERT_LOGIN"
COMMA = re.compile(r"(?<![,\\]),(?!,)")
"""What is between two logins; two commas, or one after a backslash, are a comma of a login."""

Answers = Iterator[tuple[int, Row]]


@dataclass
class Hosts:
    """The other hosts: GNU parallel's file of logins, and the command that runs there."""

    logins: Path
    command: str
    silence: int = SILENCE
    left_out: list[str] = field(default_factory=list)
    """Hosts that failed, each with what was wrong."""

    def rows(self, jobs: Sequence[tuple[int, Job]]) -> Answers:
        """Yields rows as they come; a deck that no host answers for has none."""
        waiting = dict(jobs)
        lines = _logins(self.logins)
        while waiting and lines:
            found = _Round(lines, self.command, waiting, self.silence)
            for number, row in found.rows():
                del waiting[number]
                yield number, row
            faults = found.faults()
            if not faults and waiting:
                raise CompanionError(f"{self.logins}: parallel left decks out")
            self.left_out += [f"{host_of(line)}: {fault}" for line, fault in faults.items()]
            lines = [line for line in lines if line not in faults]


def host_of(line: str) -> str:
    """Returns the login of a line: `planner@alpha` for `4/planner@alpha`."""
    count, slash, login = line.partition("/")
    return login if slash and count.isdigit() else line


def watched_login(line: str, number: int, silence: int) -> str:
    """Returns a login whose command is ended when it is silent, with a number to know it by.

    The command is that of the line, else that of `PARALLEL_SSH`, else `SSH`. This machine (`:`) has
    none. The number is a variable of the command, since the log names a login by its command.
    """
    found = LOGIN.fullmatch(line)
    if found is None or found[4] == ":":
        return line
    watch = shlex.join([sys.executable, "-IBS", watched.__file__, str(silence)])
    watch = watch.replace(",", ",,")  # a single comma ends a login
    command = found[3] or os.environ.get("PARALLEL_SSH", SSH)
    start = f"{found[1] or ''}{found[2] or ''}{NUMBER}={number}"
    return f"{start} {watch} {command.strip()} {found[4]}"


def _logins(path: Path) -> list[str]:
    """Returns the logins of a file: one for each line, or several with commas between them."""
    text = read_bytes(path, MOST_BYTES, "list of hosts").decode("utf-8", "surrogateescape")
    lines = (line.strip() for line in text.splitlines())
    named = [line for line in lines if line and not line.startswith("#")]
    logins = chain.from_iterable(map(COMMA.split, named))
    return [login.strip() for login in logins]


class _Round:
    """One run of parallel: decks go over as lines of JSON, `TOGETHER` at a time, to some hosts.

    Each connection reads its own part of one file, so a host that ends early breaks no pipe of
    parallel, which would report that signal in place of the host's status. Each line that comes
    back begins with the number of the connection, from 1 on. A round ends soon after a connection
    has failed, so that a host that does not answer holds each deck up once.
    """

    def __init__(
        self, logins: Sequence[str], command: str, jobs: Mapping[int, Job], silence: int
    ) -> None:
        self._logins = logins
        self._command = command
        self._silence = silence
        self._jobs = dict(jobs)
        numbers = list(self._jobs)
        self._sent = {
            at // TOGETHER + 1: set(numbers[at : at + TOGETHER])
            for at in range(0, len(numbers), TOGETHER)
        }
        self._wrong: set[int] = set()
        """The connections on which something else came."""
        self._log: list[list[str]] = []

    def rows(self) -> Answers:
        """Runs parallel, and yields rows as they come."""
        with tempfile.TemporaryDirectory() as name:
            folder = Path(name)
            self._write_logins(folder / "logins")
            self._write_decks(folder / "decks")
            with _started(self._words(folder)) as running:
                yield from self._read(running)
            self._log = _log(folder / "log")
        if not self._log:
            raise CompanionError(f"parallel ended with {running.returncode}")

    def _write_logins(self, path: Path) -> None:
        """Writes the logins, each with what watches its connections."""
        numbered = enumerate(self._logins)
        logins = [watched_login(line, number, self._silence) for number, line in numbered]
        path.write_text("".join(f"{login}\n" for login in logins), "utf-8", "surrogateescape")

    def _write_decks(self, path: Path) -> None:
        """Writes a line for each deck, and an empty line after those of each connection."""
        with open(path, "wb") as lines:
            for numbers in self._sent.values():
                for number in sorted(numbers):
                    lines.write(packed(number, self._jobs[number]).encode() + b"\n")
                lines.write(b"\n")

    def _words(self, folder: Path) -> list[str]:
        words = ["parallel", "--will-cite", "--plain", "--sshloginfile", str(folder / "logins")]
        words += ["--joblog", str(folder / "log"), "--tagstring", "{#}"]
        words += ["--pipepart", "--arg-file", str(folder / "decks")]
        words += ["--block", "1", "--recend", r"\n\n", "--line-buffer", "--halt", "soon,fail=1"]
        # The first sign of life comes before a worker that takes long to begin.
        return [*words, f"echo; {self._command} --worker"]

    def _read(self, running: "subprocess.Popen[bytes]") -> Answers:
        """Yields the rows that hosts write."""
        assert running.stdout is not None
        try:
            for line in running.stdout:
                found = self._unpacked(line)
                if found is not None:
                    yield found
        except BaseException:
            running.terminate()  # with a second signal, parallel does not wait for its jobs
            raise

    def _unpacked(self, line: bytes) -> tuple[int, Row] | None:
        """Returns the number of a deck and its row; None, and a wrong connection, for others.

        None, too, for an empty line: one comes before each row, so that a row is whole even where
        the line of another connection broke off.
        """
        tag, _, answer = line.decode("utf-8", "replace").rstrip("\n").partition("\t")
        if not answer:
            return None
        word, _, text = answer.partition(" ")
        connection, number = _count(tag), _count(word)
        if number in self._sent.get(connection, ()):
            row = row_from(text, self._jobs[number].name)
            if row is not None:
                self._sent[connection].discard(number)
                return number, row
        self._wrong.add(connection)
        return None

    def faults(self) -> dict[str, str]:
        """Returns the logins that are to be left out, each with what was wrong."""
        found: dict[str, str] = {}
        for connection, host, status, number in (
            (_count(line[0]), self._login(line[1]), line[6], line[7]) for line in self._log
        ):
            if connection in self._wrong:
                found.setdefault(host, "answered something that is no row of its decks")
            elif status == str(watched.SILENT):
                found.setdefault(host, f"was silent for {self._silence} seconds")
            elif status != "0" or number != "0":
                what = f"status {status}" if number == "0" else f"signal {number}"
                found.setdefault(host, f"ended with {what}")
            elif self._sent.get(connection):
                found.setdefault(host, "did not answer for all of its decks")
        return found

    def _login(self, named: str) -> str:
        """Returns the login that the log names."""
        found = re.match(rf"{NUMBER}=(\d+) ", named)
        return named if found is None else self._logins[int(found[1])]


def _started(words: Sequence[str]) -> "subprocess.Popen[bytes]":
    """Returns parallel. Without SHELL it would start nothing; it takes the caller's shell else."""
    environment = {**os.environ, "SHELL": "/bin/sh", "PARALLEL_SHELL": "/bin/sh"}
    try:
        return subprocess.Popen(
            words, stdin=subprocess.DEVNULL, stdout=subprocess.PIPE, env=environment
        )
    except FileNotFoundError:
        raise UsageError("no program parallel: apt install parallel") from None


def _log(path: Path) -> list[list[str]]:
    """Returns the cells of the lines of a log of parallel; none if there is no log."""
    try:
        lines = path.read_text("utf-8", "surrogateescape").splitlines()[1:]
    except OSError:
        return []
    return [line.split("\t") for line in lines if line.count("\t") > 6]


def _count(word: str) -> int:
    """Returns a number that is written with few digits; -1 for anything else."""
    return int(word) if word.isascii() and word.isdigit() and len(word) < 10 else -1


def packed(number: int, job: Job) -> str:
    """Returns a deck, its side file and the ones before as one line."""
    files = {}
    for role, path in job.decks():
        for kind, part in (("", path), (".side", side_path(path))):
            if part.is_file():
                files[role + kind] = base64.b64encode(part.read_bytes()).decode()
    return json.dumps({"number": number, "name": job.name, "files": files})
