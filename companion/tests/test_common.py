"""What all commands share: statuses and one line for each error."""

import argparse
import subprocess
import sys
from pathlib import Path
from typing import cast

import pytest

from pert_companion import VERSION, __main__ as start
from pert_companion.cli.common import CommandParser, run_command
from pert_companion.model.errors import InputError, ProgramError, UsageError
from pert_companion.model.lines import one_line
from pert_companion.model.output import write_whole

SOURCES = Path(__file__).resolve().parent.parent / "src"


def parser() -> CommandParser:
    """Returns a parser with one option."""
    made = CommandParser("pert-x", "Does x.", "  pert-x --number 3\n")
    made.add_argument("--number", type=int)
    return made


@pytest.mark.parametrize(
    "error, status, line",
    [
        (InputError("a.csv: bad\nline"), 1, "pert-x: a.csv: bad\\nline"),
        (UsageError("no"), 2, "pert-x: no"),
        (ProgramError("F3 record 1"), 1, "pert-x: F3 record 1"),
        (
            FileNotFoundError(2, "No such file", "a.csv"),
            1,
            "pert-x: a.csv: No such file",
        ),
        (OSError(28, "No space left"), 1, "pert-x: No space left"),
        (OSError("odd"), 1, "pert-x: odd"),
        (
            BrokenPipeError(),
            1,
            "pert-x: standard output was closed before all was written",
        ),
        (KeyboardInterrupt(), 1, "pert-x: interrupted"),
        (MemoryError(), 1, "pert-x: out of memory"),
        (RecursionError(), 1, "pert-x: the input is nested too deeply"),
        (
            ModuleNotFoundError(name="openpyxl.cell"),
            2,
            "pert-x: the library openpyxl is missing: apt install python3-openpyxl",
        ),
        (
            ModuleNotFoundError(name="other"),
            2,
            "pert-x: the Python module other is missing",
        ),
        (ImportError("half a library"), 1, "pert-x: half a library"),
    ],
)
def test_each_error_is_one_line(
    error: BaseException, status: int, line: str, capsys: pytest.CaptureFixture[str]
) -> None:
    """An error gives its status and one line that begins with the name of the command."""

    def failing(_options: argparse.Namespace) -> int:
        raise error

    assert run_command("pert-x", parser(), failing, []) == status
    assert capsys.readouterr().err == f"{line}\n"


def test_status_and_words(capsys: pytest.CaptureFixture[str]) -> None:
    """The status is the function's; wrong words are status 2, help and version 0."""
    assert run_command("pert-x", parser(), lambda options: int(options.number), ["--number=1"]) == 1
    assert run_command("pert-x", parser(), lambda options: 0, ["--number", "one"]) == 2
    assert capsys.readouterr().err == (
        "pert-x: argument --number: invalid int value: 'one' (see pert-x --help)\n"
    )
    assert run_command("pert-x", parser(), lambda options: 1, ["--version"]) == 0
    assert capsys.readouterr().out == f"pert-x {VERSION}\n"
    assert run_command("pert-x", parser(), lambda options: 1, ["--help"]) == 0
    assert "pert-x --number 3" in capsys.readouterr().out


def test_messages_stay_on_one_line() -> None:
    """Control characters, line ends of all kinds and direction marks are escaped."""
    assert one_line("plain \u00e4") == "plain \u00e4"
    assert one_line("a\nb\u2028c\u0085d\u202ee\x00\u00a0f") == (
        "a\\nb\\u2028c\\x85d\\u202ee\\x00\u00a0f"
    )


PROGRAM = """
import sys
sys.path.insert(0, {sources!r})
from pert_companion.cli.common import CommandParser, run_command

def write(options):
    for number in range(100000):
        print("line", number)
    return 0

sys.exit(run_command("pert-x", CommandParser("pert-x", "Writes.", ""), write, []))
"""


@pytest.mark.parametrize(
    "target, line",
    [
        (
            "| head -n 1 > /dev/null",
            "pert-x: standard output was closed before all was written\n",
        ),
        ("> /dev/full", "pert-x: No space left on device\n"),
    ],
)
def test_a_closed_pipe_or_full_disk_is_one_line(target: str, line: str) -> None:
    """Output that cannot be written is status 1 and one line, without Python's own message."""
    program = PROGRAM.format(sources=str(SOURCES))
    result = subprocess.run(
        [
            "bash",
            "-c",
            f'set -o pipefail; "$0" -c "$1" {target}',
            sys.executable,
            program,
        ],
        capture_output=True,
        text=True,
        check=False,
    )
    assert (result.returncode, result.stderr) == (1, line)


def test_a_command_is_run_by_the_name_of_its_module(
    monkeypatch: pytest.MonkeyPatch, capsys: pytest.CaptureFixture[str]
) -> None:
    """The first word is the command's name if the program has another; the rest is its words."""
    monkeypatch.setattr(sys, "argv", ["pert", "pert-import", "--version"])
    with pytest.raises(SystemExit) as stop:
        start.main()
    assert stop.value.code == 0
    assert capsys.readouterr().out == f"pert-import {VERSION}\n"


def test_a_library_that_is_missing_is_one_line(
    monkeypatch: pytest.MonkeyPatch, capsys: pytest.CaptureFixture[str]
) -> None:
    """A library that modules import at their top is named before any work is done."""
    for module in ("cli.exporting", "writers.exporting", "writers.ics"):
        monkeypatch.delitem(sys.modules, f"pert_companion.{module}", raising=False)
    monkeypatch.setitem(cast(dict[str, object], sys.modules), "icalendar", None)
    monkeypatch.setattr(sys, "argv", ["pert", "pert-export", "deck.csv"])
    with pytest.raises(SystemExit) as stop:
        start.main()
    assert stop.value.code == 2
    line = "pert-export: the library icalendar is missing: apt install python3-icalendar\n"
    assert capsys.readouterr().err == line


def test_a_folder_that_is_not_there_is_named_with_the_file(tmp_path: Path) -> None:
    """The message has the file that was to be written, not the new one next to it."""
    path = tmp_path / "nowhere" / "plan.csv"
    with pytest.raises(FileNotFoundError) as error:
        write_whole(path, b"")
    assert error.value.filename == str(path)
