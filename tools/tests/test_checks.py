"""Runs tests/run with steps of its own."""

import os
import shutil
import signal
import subprocess
import time
from collections.abc import Callable
from pathlib import Path

import pytest

TOP = Path(__file__).resolve().parents[2]
STEPS = """# name | when | tool | command
good   | before |          | true
bad    | before |          | false
absent | before | no-such  | true
slow   | after  |          | ./slow
"""
# (a program below the step, whose number says whether it is still there)
SLOW = "#!/bin/bash\nsleep 60 &\necho $! >number\nwait\n"


@pytest.fixture(name="room")
def made_room(tmp_path: Path) -> Path:
    """Returns a folder with tests/run and its steps."""
    (tmp_path / "tests").mkdir()
    shutil.copy(TOP / "tests" / "run", tmp_path / "tests")
    (tmp_path / "tests" / "steps").write_text(STEPS)
    (tmp_path / "slow").write_text(SLOW)
    (tmp_path / "slow").chmod(0o755)
    (tmp_path / "tmp").mkdir()
    return tmp_path


def begun(room: Path, *words: str) -> subprocess.Popen[str]:
    """Starts tests/run, which Ctrl-C ends also where these tests ignore it (in the background)."""
    return subprocess.Popen(
        ["env", "--default-signal=INT", "tests/run", *words],
        cwd=room,
        env={**os.environ, "TMPDIR": str(room / "tmp")},
        stdout=subprocess.PIPE,
        stderr=subprocess.STDOUT,
        text=True,
    )


def comes_true(fact: Callable[[], bool]) -> bool:
    """Returns whether something is so within 20 seconds."""
    until = time.monotonic() + 20
    while not (is_so := fact()) and time.monotonic() < until:
        time.sleep(0.05)
    return is_so


def test_each_step_has_a_line(room: Path) -> None:
    running = begun(room, "before")
    lines = running.communicate(timeout=20)[0].splitlines()
    assert running.returncode == 1
    assert "skipped absent: no no-such" in lines
    assert [it for it in lines if it.startswith("ok      good (0 s): ")]
    assert [it for it in lines if it.startswith("FAILED  bad (0 s), status 1:")]
    assert lines[-1] == "checks: 1 passed, 1 failed, 1 skipped"


@pytest.mark.parametrize("number", [signal.SIGTERM, signal.SIGINT])
def test_a_run_that_is_ended_leaves_nothing(room: Path, number: signal.Signals) -> None:
    running = begun(room, "slow")
    written = room / "number"
    assert comes_true(lambda: written.exists() and written.read_text() != "")
    running.send_signal(number)
    running.communicate(timeout=20)
    assert running.returncode == 128 + number
    below = Path(f"/proc/{written.read_text().strip()}")
    assert comes_true(lambda: not below.exists())
    assert not list((room / "tmp").iterdir())
