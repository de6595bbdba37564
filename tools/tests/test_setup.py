"""Runs tools/setup with an apt-get and a dpkg-query of its own, as root would."""

import os
import signal
import subprocess
import time
from pathlib import Path

import pytest

TOP = Path(__file__).resolve().parents[2]
# The stand-ins keep what they know in ROOM: `installed` is there once all is installed, and `busy`
# has how often the lock is taken.
QUERY = """#!/bin/sh
[ ! -e "$ROOM/installed" ] || echo installed
"""
APT = """#!/bin/bash
echo "$1" >>"$ROOM/calls"
left=$(cat "$ROOM/busy" 2>/dev/null || echo 0)
if [ "$left" -gt 0 ]; then
    echo $((left - 1)) >"$ROOM/busy"
    echo "E: Could not get lock /var/lib/dpkg/lock-frontend. It is held by process 77 (unattended-upgr)" >&2
    exit 100
fi
if [ "$1" = install ]; then
    if [ -e "$ROOM/slow" ]; then
        trap 'echo ended >>"$ROOM/calls"; exit 143' TERM
        echo begun >"$ROOM/begun"
        sleep 20 &
        wait
    fi
    touch "$ROOM/installed"
fi
"""
ID = "#!/bin/sh\necho 0\n"


@pytest.fixture(name="room")
def made_room(tmp_path: Path) -> Path:
    """Returns a folder with the stand-ins, which are first on the path."""
    for name, text in (("dpkg-query", QUERY), ("apt-get", APT), ("id", ID)):
        (tmp_path / name).write_text(text)
        (tmp_path / name).chmod(0o755)
    (tmp_path / "tmp").mkdir()
    return tmp_path


def begun(room: Path, *words: str, **more: str) -> subprocess.Popen[str]:
    """Starts tools/setup."""
    path = f"{room}:{os.environ['PATH']}"
    given = {"PATH": path, "ROOM": str(room), "TMPDIR": str(room / "tmp"), "SETUP_PAUSE": "0.1"}
    return subprocess.Popen(
        [TOP / "tools" / "setup", *words],
        env={**os.environ, **given, **more},
        stdout=subprocess.PIPE,
        stderr=subprocess.PIPE,
        text=True,
    )


def test_what_is_missing_is_installed(room: Path) -> None:
    out, err = begun(room).communicate(timeout=20)
    assert (out, err) == ("setup: nothing is missing\n", "")
    assert (room / "calls").read_text().split() == ["update", "install"]


def test_a_busy_lock_is_waited_for_and_named(room: Path) -> None:
    (room / "busy").write_text("3")
    out, err = begun(room).communicate(timeout=20)
    assert out == "setup: nothing is missing\n"
    assert err == "setup: waiting for process 77 (unattended-upgr) to finish installing packages\n"
    assert (room / "calls").read_text().split() == ["update"] * 4 + ["install"]


def test_the_wait_has_an_end(room: Path) -> None:
    (room / "busy").write_text("1000")
    running = begun(room, SETUP_PATIENCE="1")
    out, err = running.communicate(timeout=20)
    assert (running.returncode, out) == (1, "")
    assert "E: Could not get lock" in err and "setup: missing: git " in err


def test_a_run_that_is_ended_leaves_nothing(room: Path) -> None:
    (room / "slow").touch()
    running = begun(room)
    until = time.monotonic() + 10
    while not (room / "begun").exists() and time.monotonic() < until:
        time.sleep(0.05)
    running.send_signal(signal.SIGTERM)
    running.communicate(timeout=20)
    assert running.returncode == 143
    assert (room / "calls").read_text().split() == ["update", "install", "ended"]
    assert not list((room / "tmp").iterdir())


def test_a_check_changes_nothing(room: Path) -> None:
    running = begun(room, "--check")
    _, err = running.communicate(timeout=20)
    assert running.returncode == 1 and err.startswith("setup: missing: ")
    assert not (room / "calls").exists()
