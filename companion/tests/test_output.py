"""Files are written whole or not at all, and never over what a command reads by accident."""

import os
import subprocess
from collections.abc import Callable
from pathlib import Path

import pytest

from pert_companion.cli import days, exporting, importing, portfolio, remaining, report
from pert_companion.cli.common import CommandParser, run_command
from pert_companion.model.errors import UsageError
from pert_companion.model.output import (
    CALENDAR_FILE,
    DECK,
    PAGE,
    PLAN_XML,
    SIDE_FILE,
    WORKBOOK,
    FileKind,
    Output,
    Outputs,
    write_together,
    write_whole,
)
from pert_companion.portfolio.table import PORTFOLIO_TABLE
from pert_companion.writers.csv_file import SCHEDULE_TABLE

from running import CASES, HOUSE, MONTHS

BIN = Path(__file__).resolve().parents[1] / "bin"
COMMANDS = {
    module.NAME: (module.parser, module.run)
    for module in (days, exporting, importing, portfolio, remaining, report)
}
"""The commands that write files."""


def run(name: str, *words: object) -> int:
    """Runs a command in this process, and returns its status."""
    parser: Callable[[], CommandParser] = COMMANDS[name][0]
    return run_command(name, parser(), COMMANDS[name][1], [str(word) for word in words])


def contents(folder: Path) -> dict[str, bytes]:
    """Returns the files of a folder by name."""
    return {path.name: path.read_bytes() for path in folder.iterdir() if path.is_file()}


@pytest.fixture(name="folder")
def _folder(tmp_path: Path) -> Path:
    """Returns a folder with a deck, its side file, a plan, a workbook and other files."""
    for ending in (".csv", ".json"):
        (tmp_path / f"d{ending}").write_bytes((MONTHS / f"april{ending}").read_bytes())
    (tmp_path / "h.csv").write_bytes(HOUSE.read_bytes())
    (tmp_path / "p.csv").write_bytes((CASES / "snet.csv").read_bytes())
    (tmp_path / "package.json").write_text('{"name": "a program", "version": "1.0.0"}\n')
    (tmp_path / "table.csv").write_text("Name,Amount\nA,1\n")
    (tmp_path / "f.xlsx").write_bytes(b"PK\x03\x04a filled sheet")
    (tmp_path / "plan.xml").write_text('<Project xmlns="http://schemas.microsoft.com/project"/>')
    os.link(tmp_path / "d.csv", tmp_path / "hard.csv")
    (tmp_path / "soft.csv").symlink_to("d.csv")
    return tmp_path


INPUTS = [
    ("pert-export", ["d.csv", "-o", "d.csv"]),
    ("pert-export", ["d.csv", "-o", "hard.csv"]),
    ("pert-export", ["d.csv", "-o", "soft.csv"]),
    ("pert-export", ["soft.csv", "-o", "d.csv"]),
    ("pert-export", ["d.csv", "--into", "plan.xml", "-o", "plan.xml"]),
    ("pert-export", ["d.csv", "-o", "d.json", "--format", "csv"]),
    ("pert-report", ["d.csv", "-o", "d.csv"]),
    ("pert-report", ["d.csv", "-o", "d.json"]),
    ("pert-report", ["d.csv", "--baseline", "h.csv", "-o", "h.csv"]),
    ("pert-report", ["d.csv", "--previous", "h.csv", "-o", "h.csv"]),
    ("pert-report", ["d.csv", "--verify-page", "d.csv"]),
    ("pert-days", ["d.csv", "-o", "d.csv"]),
    ("pert-days", ["d.csv", "-o", "hard.csv"]),
    ("pert-days", ["d.csv", "--as-of", "2026-05-09", "-o", "d.csv"]),
    ("pert-days", ["h.csv", "--holidays", "p.csv", "-o", "p.csv"]),
    ("pert-remaining", ["d.csv", "-o", "d.csv"]),
    ("pert-remaining", ["d.csv", "-o", "soft.csv"]),
    ("pert-remaining", ["d.csv", "--left", "p.csv", "-o", "p.csv"]),
    ("pert-import", ["p.csv", "-o", "p.csv"]),
    ("pert-import", ["p.csv", "--crash-sheet", "p.csv"]),
    ("pert-import", ["p.csv", "--with-crash", "f.xlsx", "--crash-sheet", "f.xlsx"]),
    ("pert-import", ["p.csv", "--holidays", "h.csv", "-o", "h.csv"]),
    ("pert-portfolio", ["d.csv", "h.csv", "-o", "h.csv"]),
    ("pert-portfolio", ["d.csv", "h.csv", "-o", "d.json"]),
    ("pert-portfolio", ["d.csv", "h.csv", "--csv", "-o", "h.html"]),
]


@pytest.mark.parametrize("name, words", INPUTS)
def test_a_file_that_is_read_is_not_replaced(
    folder: Path,
    name: str,
    words: list[str],
    monkeypatch: pytest.MonkeyPatch,
    capsys: pytest.CaptureFixture[str],
) -> None:
    """Under whatever name, also by way of links."""
    monkeypatch.chdir(folder)
    before = contents(folder)
    assert run(name, *words) == 2
    assert contents(folder) == before
    line = capsys.readouterr().err
    assert line.count("\n") == 1
    assert "read by the same command; see --overwrite\n" in line


OTHERS = [
    ("pert-export", ["d.csv", "-o", "table.csv"], "not a table of a schedule"),
    ("pert-export", ["d.csv", "-o", "h.csv"], "not a table of a schedule"),
    ("pert-report", ["d.csv", "-o", "package.json"], "not a page"),
    ("pert-report", ["--verify-page", "h.csv"], "not a page"),
    ("pert-days", ["d.csv", "-o", "table.csv"], "not a deck"),
    ("pert-days", ["d.csv", "-o", "package.csv"], "not a side file"),
    ("pert-remaining", ["d.csv", "-o", "package.csv"], "not a side file"),
    ("pert-remaining", ["d.csv", "-o", "table.csv"], "not a deck"),
    ("pert-import", ["p.csv", "-o", "package.csv"], "not a side file"),
    ("pert-import", ["p.csv", "-o", "table.csv"], "not a deck"),
    ("pert-import", ["p.csv", "--crash-sheet", "table.csv"], "not a workbook"),
    ("pert-portfolio", ["d.csv", "-o", "package.json"], "not a page"),
    (
        "pert-portfolio",
        ["d.csv", "--csv", "-o", "table.html"],
        "not a table of projects",
    ),
]


@pytest.mark.parametrize("name, words, why", OTHERS)
def test_a_file_of_another_kind_is_not_replaced(
    folder: Path,
    name: str,
    words: list[str],
    why: str,
    monkeypatch: pytest.MonkeyPatch,
    capsys: pytest.CaptureFixture[str],
) -> None:
    """Files of other programs, and of other commands."""
    monkeypatch.chdir(folder)
    before = contents(folder)
    assert run(name, *words) == 2
    assert contents(folder) == before
    assert f"there is a file that is {why}; see --overwrite\n" in capsys.readouterr().err


@pytest.mark.parametrize("name", ["pert-days", "pert-remaining", "pert-import"])
def test_a_deck_does_not_have_the_name_of_a_side_file(
    folder: Path,
    name: str,
    monkeypatch: pytest.MonkeyPatch,
    capsys: pytest.CaptureFixture[str],
) -> None:
    """Not even if files may be replaced."""
    monkeypatch.chdir(folder)
    before = contents(folder)
    for target in ("d.json", "new.json", "NEW.JSON"):
        assert (
            run(
                name,
                "p.csv" if name == "pert-import" else "h.csv",
                "-o",
                target,
                "--overwrite",
            )
            == 2
        )
        assert "this is the name of a side file" in capsys.readouterr().err
    assert contents(folder) == before


def test_files_are_replaced_if_they_are_meant(
    folder: Path, monkeypatch: pytest.MonkeyPatch
) -> None:
    """`--overwrite` replaces what is read, and files of other kinds."""
    monkeypatch.chdir(folder)
    assert run("pert-days", "d.csv", "--as-of", "2026-05-09", "-o", "d.csv", "--overwrite") == 0
    assert b"ASOF,2026-05-09" in (folder / "d.csv").read_bytes()
    assert b'"data_date": "2026-05-08"' in (folder / "d.json").read_bytes()
    assert run("pert-report", "--verify-page", "table.csv", "--overwrite") == 0
    assert (folder / "table.csv").read_text().startswith("<!DOCTYPE html>")


def test_a_calendar_replaces_a_side_file_alone(
    folder: Path, monkeypatch: pytest.MonkeyPatch, capsys: pytest.CaptureFixture[str]
) -> None:
    """That of a deck by hand is made again; that of an import, or another file, is kept."""
    monkeypatch.chdir(folder)
    assert run("pert-days", "h.csv", "--calendar") == 0
    assert run("pert-days", "h.csv", "--calendar", "--weekdays", "mon-sat") == 0
    assert b'"mon-sat"' in (folder / "h.json").read_bytes()
    (folder / "package.csv").write_bytes(HOUSE.read_bytes())
    before = contents(folder)
    assert run("pert-days", "package.csv", "--calendar") == 2
    assert run("pert-days", "d.csv", "--calendar") == 1
    assert "pert-import wrote it" in capsys.readouterr().err
    assert contents(folder) == before
    assert run("pert-days", "package.csv", "--calendar", "--overwrite") == 0
    assert run("pert-days", "d.csv", "--calendar", "--overwrite") == 0


@pytest.mark.parametrize(
    "words",
    [
        "pert-days - -o d.csv",
        "pert-days - --as-of 2026-05-09 -o hard.csv",
        "pert-remaining - -o soft.csv",
        "pert-import - -o d.csv",
        "pert-export - -o d.csv",
        "pert-report - -o d.csv",
        "pert-portfolio - -o d.csv",
        "pert-ledger - -o d.csv",
    ],
)
def test_the_file_of_standard_input_is_not_replaced(folder: Path, words: str) -> None:
    """It is read too, if only under the name `-`."""
    before = contents(folder)
    name, *others = words.split()
    with (folder / "d.csv").open("rb") as deck:
        done = subprocess.run(
            [BIN / name, *others], cwd=folder, stdin=deck, capture_output=True, check=False
        )
    assert contents(folder) == before
    assert done.returncode == 2
    assert b"this is standard input, read by the same command" in done.stderr


def test_standard_output_and_input(
    folder: Path,
    monkeypatch: pytest.MonkeyPatch,
    capfdbinary: pytest.CaptureFixture[bytes],
) -> None:
    """`-` is never a file."""
    monkeypatch.chdir(folder)
    before = contents(folder)
    assert run("pert-days", "d.csv", "--as-of", "2026-05-09", "-o", "-") == 0
    assert capfdbinary.readouterr().out.startswith(b"PROJECT,")
    assert run("pert-report", "--verify-page", "-") == 0
    assert capfdbinary.readouterr().out.startswith(b"<!DOCTYPE html>")
    assert run("pert-portfolio", "d.csv", "--csv", "-o", "-") == 2
    assert b"--csv needs a page with a name" in capfdbinary.readouterr().err
    assert contents(folder) == before


KINDS: list[tuple[FileKind, bytes, bytes]] = [
    (DECK, b"\xef\xbb\xbfPROJECT,P,", b"PROJECTS,P,"),
    (DECK, b'\n"PROJECT",P,', b"Row,Code"),
    (SIDE_FILE, b'{\n"version": 1,\n"deck": "a.csv"', b'{"name": "a"}'),
    (SIDE_FILE, b'{"version":2,"deck":"a.csv"}', b'{"version": "1.0.0", "deck": 1}'),
    (PAGE, b"<!DOCTYPE html>\n<html", b"<html>"),
    (WORKBOOK, b"PK\x03\x04\x14\x00", b"PK\x05\x06"),
    (PLAN_XML, b'<?xml version="1.0"?>', b"plan"),
    (CALENDAR_FILE, b"BEGIN:VCALENDAR\r\n", b"BEGIN:VCARD\r\n"),
    (SCHEDULE_TABLE, b"Row,Code,Id,Outline,Name", b"Row,Code,Name"),
    (PORTFOLIO_TABLE, b"path,code,title,as_of,", b"path,name"),
]


@pytest.mark.parametrize("kind, same, other", KINDS)
def test_kinds_of_files(tmp_path: Path, kind: FileKind, same: bytes, other: bytes) -> None:
    """A file is replaced by one of its kind alone; an empty one by any."""
    path = tmp_path / "file"
    for before in (b"", same, b""):
        path.write_bytes(before)
        Outputs().write(Output(path, kind, same))
        assert path.read_bytes() == same
    path.write_bytes(other)
    with pytest.raises(UsageError):
        Outputs().write(Output(path, kind, same))
    assert path.read_bytes() == other
    Outputs([path], overwrite=True).write(Output(path, kind, same))
    assert path.read_bytes() == same


def test_two_files_of_one_name_are_refused(tmp_path: Path) -> None:
    """The second would replace the first."""
    path = tmp_path / "a"
    with pytest.raises(UsageError, match="two files would have this name"):
        Outputs().write(Output(path, DECK, b""), Output(tmp_path / "." / "a", PAGE, b""))
    assert not path.exists()


def test_planted_links_are_not_followed(tmp_path: Path) -> None:
    """A link in a folder to which others can write may be somebody's trap."""
    victim = tmp_path / "victim"
    victim.write_text("kept")
    shared = tmp_path / "shared"
    shared.mkdir()
    (shared / "page").symlink_to(victim)
    (tmp_path / "mine").symlink_to("victim")
    (tmp_path / "two").symlink_to(shared / "page")
    for mode in (0o1777, 0o777, 0o775, 0o757):
        shared.chmod(mode)
        for path in (shared / "page", tmp_path / "two"):
            with pytest.raises(OSError, match="a link in a folder that others can write to"):
                write_whole(path, b"new")
            with pytest.raises(OSError, match="a link in a folder that others can write to"):
                Outputs(overwrite=True).write(Output(path, PAGE, b"new"))
    assert victim.read_text() == "kept"
    write_whole(tmp_path / "mine", b"new")
    assert victim.read_text() == "new" and (tmp_path / "mine").is_symlink()
    (tmp_path / "circle").symlink_to("circle")
    with pytest.raises(OSError, match="Too many levels of symbolic links"):
        write_whole(tmp_path / "circle", b"")


def test_planted_links_of_folders_are_not_followed(tmp_path: Path) -> None:
    """The link may be of a folder on the way, also behind a link of the user's own."""
    home, shared = tmp_path / "home", tmp_path / "shared"
    home.mkdir()
    shared.mkdir()
    (home / "page").write_text("kept")
    (shared / "reports").symlink_to(home)
    (tmp_path / "mine").symlink_to(shared / "reports")
    write_whole(tmp_path / "mine" / "page", b"new")
    shared.chmod(0o1777)
    for path in (shared / "reports" / "page", tmp_path / "mine" / "page"):
        with pytest.raises(OSError, match="a link in a folder that others can write to"):
            write_whole(path, b"newer")
    assert (home / "page").read_text() == "new"
    write_whole(shared / ".." / "shared" / "page", b"")
    assert (shared / "page").is_file()


def test_modes_are_kept_and_follow_the_umask(tmp_path: Path) -> None:
    """An existing file keeps its mode."""
    path = tmp_path / "a"
    before = os.umask(0o027)
    try:
        write_whole(path, b"1")
        assert path.stat().st_mode & 0o777 == 0o640
        path.chmod(0o606)
        write_whole(path, b"2")
        assert path.stat().st_mode & 0o777 == 0o606
    finally:
        os.umask(before)


@pytest.mark.parametrize("has_unnamed", [True, False])
def test_all_files_or_none(
    tmp_path: Path, has_unnamed: bool, monkeypatch: pytest.MonkeyPatch
) -> None:
    """What fails at any step leaves all files as they were, and no other ones."""
    if not has_unnamed:
        monkeypatch.setattr("os.O_TMPFILE", os.O_DIRECTORY | os.O_WRONLY)
    (tmp_path / "a").write_text("old")
    write_together([(tmp_path / "a", b"1"), (tmp_path / "b", b"2")])
    assert contents(tmp_path) == {"a": b"1", "b": b"2"}
    (tmp_path / "folder").mkdir()
    with pytest.raises(IsADirectoryError):
        write_together([(tmp_path / "a", b"3"), (tmp_path / "folder", b"4")])
    with pytest.raises(FileNotFoundError):
        write_together([(tmp_path / "a", b"3"), (tmp_path / "none" / "c", b"4")])
    replace, calls = os.replace, []

    def failing(old: Path, new: Path) -> None:
        calls.append(new)
        if len(calls) == 2:
            raise KeyboardInterrupt
        replace(old, new)

    monkeypatch.setattr("os.replace", failing)
    with pytest.raises(KeyboardInterrupt):
        write_together([(tmp_path / "c", b"3"), (tmp_path / "a", b"4")])
    assert contents(tmp_path) == {"a": b"1", "b": b"2"}
    calls.clear()
    with pytest.raises(KeyboardInterrupt):
        write_together([(tmp_path / "a", b"3"), (tmp_path / "c", b"4")])
    assert contents(tmp_path) == {"a": b"1", "b": b"2"}


def test_devices_and_pipes_are_written_to(tmp_path: Path) -> None:
    """They are not replaced."""
    write_whole(Path("/dev/null"), b"nothing")
    assert Path("/dev/null").is_char_device()
    pipe = tmp_path / "pipe"
    os.mkfifo(pipe)
    reader = os.open(pipe, os.O_RDONLY | os.O_NONBLOCK)
    Outputs().write(Output(pipe, PAGE, b"page"))
    assert os.read(reader, 10) == b"page"
    os.close(reader)


def test_files_are_written_without_proc(tmp_path: Path, monkeypatch: pytest.MonkeyPatch) -> None:
    """Where /proc is missing, a new file has a name from the start, and none is left over."""
    monkeypatch.setattr("pert_companion.model.output.OPEN_FILES", tmp_path / "none")
    monkeypatch.delattr("os.O_TMPFILE")
    path = tmp_path / "page.html"
    for data in (b"first", b"second"):
        write_whole(path, data)
        assert path.read_bytes() == data
    assert list(tmp_path.iterdir()) == [path]
