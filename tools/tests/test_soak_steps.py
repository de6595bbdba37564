"""Sees that the steps of tests/soak.sh in tests/hostile fail, each for a program with one fault.

The programs are stubs: they answer as far as a step needs, with the fault that their name says.
"""

import os
import subprocess
import sys
from pathlib import Path

import pytest

TOP = Path(__file__).resolve().parents[2]
STUB = '''#!{python}
"""A stub with the fault {fault!r}."""
import hashlib, os, signal, sys, time

fault, shared, name = {fault!r}, {shared!r}, os.path.basename(sys.argv[0])


def first_only():
    return os.read(0, 1 << 20)


def by_blocks():
    text, block = b"", sys.stdin.buffer.read(65536)
    while block:
        text += block.decode("utf-8", "replace").encode()
        block = sys.stdin.buffer.read(65536)
    return text


def counting(text):
    kind, limit, words = {kind!r}, {limit!r}, {words!r}
    rows = text.decode().split("\\n")
    found = [n for n, row in enumerate(rows, 1) if row.startswith(kind + ",")]
    most = limit[1 if rows[0].endswith(",2") else 0]
    bound = most + (fault == "one more")
    bound -= fault == "one less"
    if len(found) > bound:
        place = found[bound] + (fault == "place")
        return 1, "", "F10 record %d: more than %d %s cards\\n" % (place, most, kind)
    return 0, "%s %d\\n" % (words, len(found) + (fault == "count")), ""


def slow(text):
    part = text.count(b"\\nAFTER,") / 8000
    spent = 0.2 * part ** (3 if fault == "cubic" else 1)
    began = time.process_time()
    while time.process_time() - began < spent:
        pass
    return 0, "", ""


def reading(text):
    if sys.argv[1] == "migrate":
        try:
            return 0, text.decode("utf-8"), ""
        except UnicodeDecodeError:
            return (0, "", "") if fault == "any bytes" else (1, "", "F2 record 0: not UTF-8\\n")
    if sys.argv[1] == "certify":
        time.sleep(0.05)
    return 0, hashlib.sha256(text).hexdigest(), ""


def again(*_):
    os.write(1, b"again")


if fault == "stops":
    signal.signal(signal.SIGCONT, again)
if fault == "alone":
    try:
        os.mkdir(shared)
    except FileExistsError:
        sys.exit(9)
    time.sleep(0.01)
ways = dict(halves=first_only, blocks=by_blocks)
text = ways.get(fault, sys.stdin.buffer.read)()
status, out, err = {answer}(text)
if fault == "alone":
    os.rmdir(shared)
sys.stdout.write(out)
sys.stderr.write(err)
sys.exit(status)
'''


def stubs(folder: Path, fault: str, answer: str, kind: str = "", most: int = 0) -> None:
    """Writes the three programs."""
    text = STUB.format(
        python=sys.executable,
        fault=fault,
        answer=answer,
        shared=str(folder / "shared"),
        kind=kind,
        limit=(most, most),
        words={"ACCT": "accounts", "TOGO": "togos"}.get(kind, "a"),
    )
    for name in ("pert", "pert_check", "pert_whatif"):
        (folder / name).write_text(text, encoding="utf-8")
        (folder / name).chmod(0o755)


def step(name: str, *words: str) -> tuple[int, str]:
    """Runs a step, and returns its status and what it prints."""
    done = subprocess.run(
        [sys.executable, os.path.join(TOP, "tests", "hostile", f"{name}.py"), *words],
        stdout=subprocess.PIPE,
        stderr=subprocess.STDOUT,
        text=True,
        check=False,
    )
    return done.returncode, done.stdout


@pytest.mark.parametrize(
    ("fault", "says"),
    [
        ("none", "limits: 6 decks, one card below a limit, at it and one above it, 0 failed\n"),
        ("one more", "FAILED limits: ACCT, version 1: 10001 cards: 0, "),
        ("one less", "FAILED limits: ACCT, version 2: 10000 cards: status 1, "),
        ("place", "wanted b'F10 record 10007: more than 10000 ACCT cards\\n'"),
        ("count", "FAILED limits: ACCT, version 1: 9999 cards: not counted in "),
    ],
)
def test_limits(tmp_path: Path, fault: str, says: str) -> None:
    stubs(tmp_path, fault, "counting", "ACCT", 10_000)
    status, told = step("limits", str(tmp_path), "acct")
    assert says in told
    assert status == (0 if fault == "none" else 1)


@pytest.mark.parametrize("fault", ["none", "cubic"])
def test_growth(tmp_path: Path, fault: str) -> None:
    stubs(tmp_path, fault, "slow")
    status, told = step("growth", "--time", str(tmp_path), "after")
    assert ("FAILED growth: arrows, AFTER cards of tasks: " in told) == (fault == "cubic")
    assert f"1 commands with cards of a kind, in milliseconds, {status} grow too much" in told
    assert status == (1 if fault == "cubic" else 0)


@pytest.mark.parametrize(
    ("part", "fault", "says"),
    [
        ("letters", "blocks", "FAILED pieces: letters, shift 0: status 0, "),
        ("letters", "any bytes", "FAILED pieces: letters, broken at "),
        ("halves", "halves", "FAILED pieces: halves, cut at byte 1: status 1, 0 bytes "),
        ("chunks", "halves", "FAILED pieces: chunks, pert check: "),
        ("stops", "stops", "FAILED pieces: stops, pert "),
        ("together", "alone", "FAILED pieces: together, pert"),
    ],
)
def test_pieces(tmp_path: Path, part: str, fault: str, says: str) -> None:
    stubs(tmp_path, fault, "reading")
    status, told = step("pieces", str(tmp_path), "1", "1", part)
    assert says in told
    assert status == 1


def test_pieces_without_a_fault(tmp_path: Path) -> None:
    stubs(tmp_path, "none", "reading")
    status, told = step("pieces", str(tmp_path), "1", "1")
    assert told.endswith("pieces: seed 1, no answer differs\n")
    assert status == 0
