"""What ends a connection to a host that is silent, and what a host that works writes meanwhile."""

import os
import shlex
import shutil
import sys
import time
from pathlib import Path

import pytest

from pert_companion.portfolio import watched
from pert_companion.portfolio.hosts import SSH, Hosts, watched_login
from pert_companion.portfolio.job import Job
from pert_companion.portfolio.work import Answering

LONG = 600
WATCH = f"{shlex.join([sys.executable, '-IBS', watched.__file__])} 30"
STATUSES = {"exit 3": 3, "kill -9 $$": 137, "true": 0}
LOGINS = {
    "alpha": f"PERT_LOGIN=5 {WATCH} {SSH} alpha",
    "4/planner@alpha": f"4/PERT_LOGIN=5 {WATCH} {SSH} planner@alpha",
    "@big/4/alpha": f"@big/4/PERT_LOGIN=5 {WATCH} {SSH} alpha",
    "1/ssh -p 22 alpha": f"1/PERT_LOGIN=5 {WATCH} ssh -p 22 alpha",
    "/usr/bin/ssh alpha:22": f"PERT_LOGIN=5 {WATCH} /usr/bin/ssh alpha:22",
    "2/:": "2/:",
}
"""Logins as people write them, and as parallel gets them."""


@pytest.mark.parametrize("text", STATUSES)
def test_a_command_that_ends_has_its_own_status(
    text: str, capfdbinary: pytest.CaptureFixture[bytes]
) -> None:
    """What it wrote is passed on."""
    assert watched.run(LONG, ["sh", "-c", f"printf 'a\\n\\377b'; {text}"]) == STATUSES[text]
    assert capfdbinary.readouterr().out == b"a\n\xffb"


def test_a_silent_command_is_ended(
    tmp_path: Path, capfdbinary: pytest.CaptureFixture[bytes]
) -> None:
    """It has said something before, and closes nothing."""
    text = f"echo $$ >{tmp_path}/pid; echo a; exec sleep {LONG}"
    begun = time.monotonic()
    assert watched.run(0.5, ["sh", "-c", text]) == watched.SILENT
    assert time.monotonic() - begun < LONG / 2
    assert capfdbinary.readouterr().out == b"a\n"
    with pytest.raises(ProcessLookupError):
        os.kill(int((tmp_path / "pid").read_text()), 0)


def test_a_command_that_says_something_now_and_then_goes_on() -> None:
    """Three times the silence that would end it, in shorter parts."""
    assert watched.run(2, ["sh", "-c", "for _ in 1 2 3 4 5 6; do echo; sleep 1; done"]) == 0


@pytest.mark.parametrize("login", LOGINS)
def test_each_connection_to_another_host_is_watched(
    login: str, monkeypatch: pytest.MonkeyPatch
) -> None:
    """The words keep their places; this machine has no connection."""
    monkeypatch.delenv("PARALLEL_SSH", raising=False)
    assert watched_login(login, 5, 30) == LOGINS[login]


def test_another_command_for_connections_is_watched_too(monkeypatch: pytest.MonkeyPatch) -> None:
    monkeypatch.setenv("PARALLEL_SSH", "rsh -x")
    assert watched_login("alpha", 0, 30) == f"PERT_LOGIN=0 {WATCH} rsh -x alpha"


def test_a_host_writes_empty_lines_until_it_ends(capsys: pytest.CaptureFixture[str]) -> None:
    """A row is never divided by one."""
    said = ""
    with Answering(pause=0.01) as answering:
        answering.write("row\n")
        while said.count("\n") < 4:
            time.sleep(0.01)
            said += capsys.readouterr().out
    said += capsys.readouterr().out
    assert said.replace("\n", "") == "row"
    time.sleep(0.05)
    assert capsys.readouterr().out == ""


def test_logins_of_one_line_are_left_out_one_by_one(
    tmp_path: Path, monkeypatch: pytest.MonkeyPatch
) -> None:
    """One is silent, the next one ends with a fault: each is named once, and that is all."""
    if shutil.which("parallel") is None:
        pytest.skip("no GNU parallel")
    stub = tmp_path / "stub"
    stub.write_text('#!/bin/sh\n[ "$1" = one ] && exec sleep 600\nexit 3\n')
    stub.chmod(0o755)
    monkeypatch.setenv("PARALLEL_SSH", str(stub))
    (tmp_path / "hosts").write_text("1/one,1/two\n# 1/three\n")
    asked = Hosts(tmp_path / "hosts", "worker", silence=1)
    assert not list(asked.rows([(0, Job(tmp_path / "deck.csv", None, "deck.csv"))]))
    assert sorted(asked.left_out) == [
        "one: was silent for 1 seconds",
        "two: ended with status 3",
    ]
