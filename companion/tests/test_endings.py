"""A command that a signal ends leaves no process and no file of its own."""

import os
import signal
import subprocess
import time
from collections.abc import Iterator
from pathlib import Path

import pytest

from pert_companion.__main__ import COMMANDS
from running import CASES, HOUSE, MONTHS, WITH_INTERRUPTS

BIN = Path(__file__).resolve().parents[1] / "bin"
WITHIN = 2.0
"""Seconds after which no process may be left."""
MORE_THAN_A_PIPE = 200_000
"""Bytes of which some wait until the other side reads."""
WORDS = {
    "pert-check-status": "-",
    "pert-compare": "april.csv april.csv",
    "pert-days": "- -o out.csv",
    "pert-edit": "april.csv overhead=4000 -o out.csv",
    "pert-export": "april.csv -o out.xlsx",
    "pert-import": "snet.csv -o out.csv",
    "pert-ledger": "april.csv --accept charge -o out.csv",
    "pert-portfolio": "april.csv house.csv plan.csv --no-cache -o out.html",
    "pert-remaining": "april.csv -o out.csv",
    "pert-report": "april.csv -o out.html",
    "pert-schedule": "april.csv",
}
"""What makes each command wait: for a program, or for standard input."""
READING = {name for name, words in WORDS.items() if words.startswith("-")}


@pytest.fixture(name="folder")
def _folder(tmp_path: Path) -> Path:
    """Returns a folder with decks, and with programs that say who they are and take long."""
    for name in ("april.csv", "april.json", "plan.csv", "plan.json"):
        (tmp_path / name).write_bytes((MONTHS / name).read_bytes())
    (tmp_path / "house.csv").write_bytes(HOUSE.read_bytes())
    (tmp_path / "snet.csv").write_bytes((CASES / "snet.csv").read_bytes())
    (tmp_path / "bin").mkdir()
    (tmp_path / "running").mkdir()
    for name in ("pert", "pert_check"):
        program = tmp_path / "bin" / name
        program.write_text(f"#!/bin/sh\n: >{tmp_path}/running/$$\nexec sleep 900\n")
        program.chmod(0o755)
    return tmp_path


def test_each_command_is_ended() -> None:
    """None is left out here; tests/desk ends a desk."""
    assert {*WORDS, "pert-desk"} == COMMANDS.keys()


def programs(folder: Path) -> list[int]:
    """Returns the processes of the programs that were started."""
    return [int(path.name) for path in (folder / "running").iterdir()]


def is_running(process: int) -> bool:
    """Says whether a process runs; one that has ended and waits for its parent does not."""
    try:
        status = Path(f"/proc/{process}/stat").read_text()
    except OSError:
        return False
    return status.rpartition(")")[2].split()[0] != "Z"


def descendants(process: int) -> Iterator[int]:
    """Yields all processes that a process has started, and those that they have."""
    for path in Path(f"/proc/{process}/task").glob("*/children"):
        for child in map(int, path.read_text().split()):
            yield child
            yield from descendants(child)


def started(folder: Path, name: str) -> subprocess.Popen[bytes]:
    """Returns a command that waits for a program, or for its standard input."""
    words = [*WITH_INTERRUPTS, str(BIN / name), *WORDS[name].split()]
    if name != "pert-days":
        words += ["--bin", str(folder / "bin")]
    pipe = subprocess.PIPE
    running = subprocess.Popen(
        words, cwd=folder, stdin=pipe, stdout=pipe, stderr=pipe, start_new_session=True
    )
    if name in READING:
        begin_input(running)
        return running
    wanted = min(3, len(os.sched_getaffinity(0))) if name == "pert-portfolio" else 1
    while len(programs(folder)) < wanted:
        assert running.poll() is None, running.communicate()
        time.sleep(0.05)
    return running


def begin_input(running: subprocess.Popen[bytes]) -> None:
    """Writes blank lines to a command, and returns when it has read them and waits for more."""
    assert running.stdin is not None
    running.stdin.write(b"\n" * MORE_THAN_A_PIPE)
    running.stdin.flush()
    time.sleep(0.5)


def left_after(seconds: float, processes: list[int]) -> list[int]:
    """Returns which processes still run after so many seconds."""
    last = time.monotonic() + seconds
    while any(map(is_running, processes)) and time.monotonic() < last:
        time.sleep(0.05)
    return [process for process in processes if is_running(process)]


@pytest.mark.parametrize("number", [signal.SIGTERM, signal.SIGHUP, signal.SIGINT])
@pytest.mark.parametrize("name", sorted(WORDS))
def test_a_signal_ends_all_processes(folder: Path, name: str, number: signal.Signals) -> None:
    """One line says so, and the files are those of before."""
    before = sorted(path.name for path in folder.iterdir())
    with started(folder, name) as running:
        processes = [running.pid, *descendants(running.pid)]
        running.send_signal(number)
        assert left_after(WITHIN, processes) == []
        output, errors = running.communicate()
    line = "interrupted" if number == signal.SIGINT else f"ended by {number.name}"
    assert errors.decode().endswith(f"{name}: {line}\n")
    assert (running.returncode, output) == (1, b"")
    assert sorted(path.name for path in folder.iterdir()) == before


@pytest.mark.parametrize("name", ["pert-export", "pert-import", "pert-portfolio", "pert-report"])
def test_a_command_that_is_killed_leaves_no_worker_and_no_half_file(
    folder: Path, name: str
) -> None:
    """Nobody can tell its workers, so they watch it."""
    before = sorted(path.name for path in folder.iterdir())
    with started(folder, name) as running:
        below = list(descendants(running.pid))
        running.kill()
        running.wait()
        if name == "pert-portfolio":
            assert left_after(WITHIN, below) == []
        for process in filter(is_running, below):
            os.kill(process, signal.SIGKILL)
    assert sorted(path.name for path in folder.iterdir()) == before


def test_a_signal_that_is_ignored_stays_so(folder: Path) -> None:
    """`nohup` keeps a command running when its terminal goes."""
    words = ["nohup", str(BIN / "pert-days"), "-", "--count", "2026-03-10"]
    pipe = subprocess.PIPE
    with subprocess.Popen(words, stdin=pipe, stdout=pipe, stderr=pipe) as running:
        begin_input(running)
        running.send_signal(signal.SIGHUP)
        output, _ = running.communicate((folder / "house.csv").read_bytes())
    assert running.returncode == 0 and output.strip().isdigit()
