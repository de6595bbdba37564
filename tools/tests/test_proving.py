"""Tests of tools/prove.py: its crates, the line, and whole runs with a false `rt`."""

import io
import os
import re
import subprocess
import sys
import time
from pathlib import Path

import pytest

from proving.crates import uses_of, with_those_below
from proving.main import places
from proving.processes import Work, crate_in, work_below
from proving.progress import Line, Progress

TOP = Path(__file__).resolve().parents[2]
CRATES = """# floor: words
pc_low:
pc_left may_abort=1: pc_low memchr
pc_right: pc_low   # not std
pc_cli: pc_left pc_right
pc_audit: pc_right
pert: pc_cli
pert_check: pc_audit
pc_tests: pc_left
"""
PROGRAMS = ("pert", "pert_check")


def test_crates_are_those_of_the_list_without_the_kits() -> None:
    assert uses_of(CRATES)["pc_left"] == ["pc_low"]
    assert uses_of(CRATES)["pc_right"] == ["pc_low"]
    below = with_those_below(uses_of(CRATES), PROGRAMS)
    assert below == {"pc_low", "pc_left", "pc_right", "pc_cli", "pc_audit", *PROGRAMS}


def test_the_programs_need_no_crate_of_tests() -> None:
    uses = uses_of((TOP / "crates.txt").read_text(encoding="utf-8"))
    below = with_those_below(uses, ("pert", "pert_check", "pert_whatif"))
    assert set(uses) - below == {it for it in uses if it.endswith("_tests")}


def test_places_by_processors_and_memory() -> None:
    assert places(4, "MemTotal: 9 kB\nMemAvailable:   30000000 kB\n") == 5
    assert places(4, "MemAvailable:    7000000 kB\n") == 2
    assert places(4, "MemAvailable:     100000 kB\n") == 1
    assert places(4, "") == 5
    assert places(1, "") == 1


def under_way(*crates: str) -> Work:
    """Returns that these crates are being proved."""
    return Work(frozenset(crates), False)


def test_the_line_says_what_is_proved_and_what_is_under_way() -> None:
    progress = Progress(with_those_below(uses_of(CRATES), PROGRAMS))
    assert progress.line(under_way(), 9.7) == "0:09  0 of 7 crates proved"
    reading = Work(frozenset(), True)
    assert progress.line(reading, 9.7) == "0:09  0 of 7 crates proved; reading the sources"
    assert progress.line(under_way("pc_low", "pc_tests"), 130.0) == (
        "2:10  0 of 7 crates proved; under way: pc_low"
    )
    for said in ("== pc_low", "crate pc_low: modules loaded=0 checked=56"):
        progress.read(said)
    assert progress.line(under_way("pc_right", "pc_left", "pc_low"), 3661.0) == (
        "1:01:01  1 of 7 crates proved; under way: pc_left, pc_right"
    )


def test_only_a_summary_says_that_a_crate_is_proved() -> None:
    progress = Progress(["pc_low", "pert"])
    for said in ("== pc_low", "pc_low: ok", "pert: ok", "== pert", "crate pert: a checked=0"):
        progress.read(said)
    assert not progress.are_proved(["pc_low"])
    assert progress.line(under_way(), 1.0) == "0:01  2 of 2 crates proved"
    for said in ("== summary", "pc_low: ok", "pert: failed (1)"):
        progress.read(said)
    assert progress.are_proved(["pc_low"]) and not progress.are_proved(["pc_low", "pert"])
    for said in ("== pert", "== summary", "pert: ok"):
        progress.read(said)
    assert progress.are_proved(["pc_low", "pert"])
    assert progress.proved_now == set()


def test_the_prover_is_known_by_its_words() -> None:
    assert crate_in(["/kit/rattle", "check", "--crate-name", "pc_low", ""]) == "pc_low"
    assert crate_in(["/kit/rattle", "fmt", "--crate-name"]) is None
    assert crate_in(["/usr/bin/cat", "--crate-name", "pc_low", ""]) is None


def test_a_line_that_is_no_terminals_is_kept() -> None:
    out = io.StringIO()
    line = Line(out)
    line.put("first")
    line.put("second")
    line.end()
    assert out.getvalue() == "first\nsecond\n"


# What stands for `rt`. It proves a crate by something that looks like the prover, and keeps that it
# did: under `all` those below it too, under `lib` and `run` the crate alone.
RT = """#!/bin/bash
echo "${PWD#$ROOM/crates/} $*" >>"$ROOM/calls"
here=$(basename "$PWD")
below=$here
[ "$1" != all ] || below='pc_low pc_left pc_right pc_cli'
for crate in $below; do
    [ "$1" != all ] || echo "== $crate"
    [ -e "$ROOM/kept-$crate" ] || (exec -a rattle "$PYTHON" "$ROOM/wait.py" --crate-name "$crate")
    if [ "$crate" = "$BROKEN" ]; then
        echo "src/lib.rt:3: error: not proved"
        [ "$1" = all ] || exit 1
    else
        [ -e "$ROOM/kept-$crate" ] || echo "crate $crate: modules loaded=0 checked=7"
        touch "$ROOM/kept-$crate"
    fi
done
case $1 in
    all)
        echo "== summary"
        for crate in $below; do
            if [ "$crate" = "$BROKEN" ]; then echo "$crate: failed (1)"; else echo "$crate: ok"; fi
        done
        ;;
    run)
        mkdir -p out
        [ "$here" = "$UNBUILT" ] || cp /bin/true "out/$here"
        exit 3
        ;;
esac
"""


@pytest.fixture(name="room")
def made_room(tmp_path: Path) -> Path:
    """Returns a repository of five crates, and a false `rt` in its folder tools-only."""
    for name in uses_of(CRATES):
        (tmp_path / "crates" / name / "src").mkdir(parents=True)
    (tmp_path / "crates.txt").write_text(CRATES)
    (tmp_path / "tools").mkdir()
    for name in ("prove", "proving"):
        (tmp_path / "tools" / name).symlink_to(TOP / "tools" / name)
    (tmp_path / "wait.py").write_text("import os, time; time.sleep(float(os.environ['TAKES']))\n")
    (tmp_path / "bin").mkdir()
    (tmp_path / "bin" / "rt").write_text(RT)
    (tmp_path / "bin" / "rt").chmod(0o755)
    return tmp_path


def prove(room: Path, *programs: str, **more: str) -> subprocess.CompletedProcess[str]:
    """Runs tools/prove.py in the repository, with the false `rt` first on the path."""
    path = f"{room / 'bin'}:{os.environ['PATH']}"
    given = {
        "PATH": path,
        "ROOM": str(room),
        "PYTHON": sys.executable,
        "TAKES": "0",
        "PROVE_SECONDS": "0.2",
        **more,
    }
    command = (
        "import sys; sys.dont_write_bytecode = True; sys.path.insert(0, 'tools');"
        "from pathlib import Path; from proving.main import run;"
        "sys.exit(run(Path.cwd(), sys.argv[1:]))"
    )
    return subprocess.run(
        [sys.executable, "-c", command, *programs],
        cwd=room,
        env={**os.environ, **given},
        capture_output=True,
        text=True,
        check=False,
    )


def test_what_is_called_and_said(room: Path) -> None:
    done = prove(room, *PROGRAMS, TAKES="0.5")
    assert (done.returncode, done.stderr) == (0, "")
    calls = (room / "calls").read_text().splitlines()
    assert [it.partition(" --jobs ")[0] for it in calls] == [
        "pc_cli all check",
        "pc_audit lib",
        "pert run",
        "pert_check run",
    ]
    for program in PROGRAMS:
        assert os.access(room / "crates" / program / "out" / program, os.X_OK)
    lines = done.stdout.splitlines()
    assert re.fullmatch(r"proved all 7 crates in 0:0\d", lines[-1])
    line = r"0:0\d  (\d) of 7 crates proved(; under way: (\w+))?"
    said = [it for it in (re.fullmatch(line, it) for it in lines[:-1]) if it]
    assert len(said) == len(lines) - 1 >= 9
    counts = [int(it[1]) for it in said]
    assert counts == sorted(counts) and counts[0] <= 1 and counts[-1] >= 6


def test_what_is_kept_is_not_proved_again(room: Path) -> None:
    assert prove(room, *PROGRAMS).returncode == 0
    done = prove(room, *PROGRAMS)
    assert done.returncode == 0
    last = done.stdout.splitlines()[-1]
    assert last == "nothing has changed since an earlier check proved it"
    (room / "kept-pert").unlink()
    last = prove(room, *PROGRAMS).stdout.splitlines()[-1]
    assert re.fullmatch(
        r"proved 1 of 7 crates in 0:0\d; the others are as an earlier check left them", last
    )


@pytest.mark.parametrize("broken", ["pc_right", "pc_audit"])
def test_nothing_is_built_of_what_is_not_proved(room: Path, broken: str) -> None:
    old = room / "crates" / "pert" / "out" / "pert"
    old.parent.mkdir()
    old.write_text("old")
    done = prove(room, *PROGRAMS, BROKEN=broken)
    assert done.returncode == 1
    assert done.stderr.splitlines()[0] == (
        "make: not proved, so nothing is built; the end of out/prove.log says why:"
    )
    assert "src/lib.rt:3: error: not proved" in done.stderr
    assert not old.exists()


@pytest.mark.parametrize("how", ["UNBUILT", "BROKEN"])
def test_a_program_that_is_not_built_is_named(room: Path, how: str) -> None:
    done = prove(room, *PROGRAMS, **{how: "pert_check"})
    assert done.returncode == 1
    assert done.stderr.splitlines()[0] == (
        "make: pert_check was not built; the end of out/prove.log says why:"
    )


@pytest.mark.parametrize(
    "words, wanted",
    [("", Work(frozenset({"pc_seen"}), False)), ("--only ''", Work(frozenset(), True))],
)
def test_the_processes_of_a_command_are_seen(room: Path, words: str, wanted: Work) -> None:
    script = f'exec -a rattle {sys.executable} "$0/wait.py" --crate-name pc_seen {words}'
    given = {**os.environ, "TAKES": "2"}
    nothing = Work(frozenset(), False)
    with subprocess.Popen(["bash", "-c", f"({script}); true", str(room)], env=given) as running:
        until = time.monotonic() + 1.5
        while (seen := work_below(running.pid)) == nothing and time.monotonic() < until:
            time.sleep(0.05)
        assert seen == wanted
    assert work_below(os.getpid()) == nothing
