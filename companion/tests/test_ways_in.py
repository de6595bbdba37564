"""The commands as programs: from a checkout and as installed, in any folder, with any streams."""

import os
import shutil
import subprocess
import sys
from collections.abc import Sequence
from pathlib import Path

import pytest

from pert_companion import VERSION
from pert_companion.__main__ import COMMANDS

from running import CASES, EXAMPLES, HOUSE, MONTHS

TOP = Path(__file__).resolve().parents[2]
BIN = TOP / "companion" / "bin"
NAMES = sorted(path.name for path in BIN.iterdir())
MODULES = (
    "argparse",
    "csv",
    "random",
    "json",
    "pert_companion",
    "sitecustomize",
    "jinja2",
)
"""Names of modules that a command could take from the folder in which it runs."""


def installed(prefix: Path) -> Path:
    """Returns the folder of the commands, installed as `make install` does."""
    (prefix / "bin").mkdir(parents=True)
    for name in NAMES:
        shutil.copy(TOP / "companion" / "launch", prefix / "bin" / name)
    library = prefix / "lib" / "pert-companion"
    shutil.copytree(TOP / "companion" / "src", library, ignore=shutil.ignore_patterns("*.pyc"))
    return prefix / "bin"


@pytest.fixture(
    name="place",
    scope="module",
    params=["checkout", "installed", "with:colon and space"],
)
def _place(request: pytest.FixtureRequest, tmp_path_factory: pytest.TempPathFactory) -> Path:
    """Returns a folder with the commands."""
    if request.param == "checkout":
        return BIN
    return installed(tmp_path_factory.mktemp("prefix") / str(request.param))


def run(
    words: Sequence[object], folder: Path, **environment: str
) -> subprocess.CompletedProcess[str]:
    """Runs a program in a folder."""
    return subprocess.run(
        [str(word) for word in words],
        cwd=folder,
        env={**os.environ, **environment},
        stdin=subprocess.DEVNULL,
        capture_output=True,
        text=True,
        check=False,
    )


def test_all_commands_are_there() -> None:
    """Each name in bin/ is a command of the package, and the other way round."""
    assert NAMES == sorted(COMMANDS)


@pytest.mark.parametrize("name", NAMES)
def test_the_current_folder_is_not_on_the_path(place: Path, name: str, tmp_path: Path) -> None:
    """A module of the folder in which a command runs, or of PYTHONPATH, is never executed."""
    for module in MODULES:
        (tmp_path / f"{module}.py").write_text("raise SystemExit('a file of the folder was run')\n")
    done = run([place / name, "--help"], tmp_path, PYTHONPATH=str(tmp_path))
    assert (done.returncode, done.stderr) == (0, "")
    assert done.stdout.startswith(f"usage: {name} ")
    assert sorted(path.name for path in tmp_path.iterdir()) == sorted(f"{m}.py" for m in MODULES)


@pytest.mark.parametrize("name", ["pert-days", "pert-report"])
def test_the_current_folder_is_not_on_the_path_of_the_package(name: str, tmp_path: Path) -> None:
    """`python3 -m` puts the current folder first; the package takes it away before it imports."""
    for module in ("argparse", "csv", "random", "json", "jinja2"):
        (tmp_path / f"{module}.py").write_text("raise SystemExit('a file of the folder was run')\n")
    words = [sys.executable, "-m", "pert_companion", name, "--help"]
    done = run(words, tmp_path, PYTHONPATH=str(TOP / "companion" / "src"))
    assert (done.returncode, done.stderr) == (0, "")
    assert done.stdout.startswith(f"usage: {name} ")


def test_a_link_to_a_command_is_followed(place: Path, tmp_path: Path) -> None:
    """Its own name may be another one."""
    (tmp_path / "days").symlink_to(place / "pert-days")
    (tmp_path / "again").symlink_to("days")
    done = run([tmp_path / "again", "--version"], tmp_path)
    assert (done.returncode, done.stdout) == (0, f"pert-days {VERSION}\n")


@pytest.mark.parametrize("name", NAMES)
def test_version_imports_no_library(name: str, tmp_path: Path) -> None:
    """It says its name and version at once, even if every library is missing."""
    program = (
        "import sys; sys.path.insert(0, sys.argv.pop(1))\n"
        "from pert_companion.__main__ import main\n"
        "try:\n    main()\nfinally:\n"
        "    print([name for name in ('openpyxl', 'jinja2', 'icalendar') if name in sys.modules])\n"
    )
    words = [
        sys.executable,
        "-I",
        "-c",
        program,
        TOP / "companion" / "src",
        name,
        "--version",
    ]
    assert run(words, tmp_path).stdout == f"{name} {VERSION}\n[]\n"


@pytest.mark.parametrize("name", NAMES)
def test_a_missing_library_is_one_line(name: str, tmp_path: Path) -> None:
    """By the way in that wheels have too: a program that calls `main` of the package."""
    program = tmp_path / name
    missing = ("openpyxl", "defusedxml", "icalendar", "jinja2", "markupsafe")
    program.write_text(
        f"#!{sys.executable} -IB\nimport sys\nsys.path.insert(0, {str(TOP / 'companion/src')!r})\n"
        f"for library in {missing!r}:\n    sys.modules[library] = None\n"
        "from pert_companion.__main__ import main\nsys.exit(main())\n"
    )
    program.chmod(0o755)
    done = run([program, "no-such-file", "-o", "x.csv"], tmp_path)
    assert done.stderr.count("\n") == 1, done.stderr
    assert done.stderr.startswith(f"{name}: ")
    assert done.returncode in (1, 2)
    if name in ("pert-export", "pert-import", "pert-report", "pert-portfolio"):
        assert "is missing: apt install python3-" in done.stderr


def test_a_simulation_without_its_library(tmp_path: Path) -> None:
    """numpy is imported when it is wanted, and its absence is one line too."""
    program = tmp_path / "pert-schedule"
    program.write_text(
        f"#!{sys.executable} -IB\nimport sys\nsys.path.insert(0, {str(TOP / 'companion/src')!r})\n"
        "sys.modules['numpy'] = None\nfrom pert_companion.__main__ import main\nmain()\n"
    )
    program.chmod(0o755)
    done = run([program, HOUSE, "--chance"], tmp_path)
    line = "pert-schedule: the library numpy is missing: apt install python3-numpy\n"
    assert (done.returncode, done.stderr) == (2, line)


def test_a_program_of_another_name_takes_the_command_as_its_first_word(
    tmp_path: Path,
) -> None:
    """Without one, the line names the commands."""
    words: list[object] = [sys.executable, "-m", "pert_companion"]
    source = str(TOP / "companion" / "src")
    done = run([*words, "pert-days", "--version"], tmp_path, PYTHONPATH=source)
    assert (done.returncode, done.stdout) == (0, f"pert-days {VERSION}\n")
    for first in ("", "days"):
        done = run([*words, first], tmp_path, PYTHONPATH=source)
        assert done.returncode == 2
        assert "name a command: pert-check-status, pert-compare, pert-days, " in done.stderr


def shell(script: str, folder: Path, *words: str | Path) -> tuple[int, str]:
    """Returns the status and the standard error of a line of bash with `$0` and other words."""
    done = run(["bash", "-c", script, *words], folder)
    return done.returncode, done.stderr


@pytest.mark.parametrize("name", [name for name in NAMES if name != "pert-portfolio"])
@pytest.mark.parametrize("closed", ["<&-", ">&-", "2>&-", "<&- >&- 2>&-"])
def test_closed_streams_are_no_traceback(name: str, closed: str, tmp_path: Path) -> None:
    """What has to be read or written there ends in one line, and the rest works."""
    status, errors = shell(f'exec "$0" - -o page.html {closed}', tmp_path, BIN / name)
    assert status in (1, 2)
    assert errors.count("\n") == (0 if "2>" in closed else 1), errors
    assert errors.startswith(f"{name}: ") or "2>" in closed
    assert not list(tmp_path.iterdir())


@pytest.mark.parametrize("closed", ["<&-", ">&-", "2>&-", "<&- >&- 2>&-"])
def test_a_closed_stream_is_a_refused_row_of_a_portfolio(closed: str, tmp_path: Path) -> None:
    """The page of all decks is written, and names what could not be read."""
    script = f'exec "$0" - -o page.html {closed}'
    status, errors = shell(script, tmp_path, BIN / "pert-portfolio")
    assert status == 1
    assert errors.count("\n") == (0 if "2>" in closed else 2), errors
    assert "standard input" in (tmp_path / "page.html").read_text("utf-8")


def test_what_cannot_be_printed_is_an_error(tmp_path: Path) -> None:
    """A closed standard output is named, with status 1; a file is written all the same."""
    words = (BIN / "pert-days", HOUSE)
    line = "pert-days: standard input or standard output is closed\n"
    assert shell('exec "$0" "$1" >&-', tmp_path, *words) == (1, line)
    assert shell('exec "$0" "$1" -o deck.csv >&-', tmp_path, *words) == (0, "")
    assert shell('exec "$0" - <&-', tmp_path, BIN / "pert-days") == (1, line)
    assert (tmp_path / "deck.csv").read_bytes().startswith(b"PROJECT,")


def test_a_deck_comes_from_standard_input(tmp_path: Path) -> None:
    """`-` is standard input; what is empty is named."""
    status, errors = shell(
        'exec "$0" - --count 2026-03-10 <"$1"', tmp_path, BIN / "pert-days", HOUSE
    )
    assert (status, errors) == (0, "")
    status, errors = shell('exec "$0" - </dev/null', tmp_path, BIN / "pert-days")
    assert (status, errors) == (
        1,
        "pert-days: standard input: empty; it can be read once\n",
    )


STANDARD_INPUTS = [
    ("pert-check-status - --strict", "april.csv", 0, "STATUS House"),
    ("pert-compare - may.csv", "april.csv", 0, "COMPARE House"),
    ("pert-compare months --left -", "left.csv", 0, "COMPARE House"),
    ("pert-days - --count 2026-06-01", "april.csv", 0, "65\n"),
    ("pert-days may.csv --holidays - --count 2026-06-01", "", 1, ""),
    ("pert-export - -o -", "april.csv", 0, "Row,Code,Id"),
    ("pert-export april.csv --into - -o -", "april.csv", 1, ""),
    ("pert-import - -o -", "garden.xml", 0, "PROJECT,Garden-house"),
    ("pert-import garden.xml --with-crash - -o -", "garden.xml", 1, ""),
    ("pert-ledger april.csv - -o - --accept charge", "v.csv", 0, "PROJECT,House"),
    ("pert-ledger april.csv --ledger - -o - --accept charge,fraction", "l.csv", 0, "PROJECT,House"),
    ("pert-portfolio - -o - --no-cache", "april.csv", 0, "<!DOCTYPE html>"),
    ("pert-remaining - -o -", "april.csv", 0, "PROJECT,House"),
    ("pert-remaining april.csv --left -", "left.csv", 0, "REMAINING House"),
    ("pert-report - -o -", "april.csv", 0, "<!DOCTYPE html>"),
    ("pert-schedule - --forecast", "april.csv", 0, "FORECAST House"),
]
"""Words, what standard input has, the status, and how the output begins."""


@pytest.mark.parametrize("words, given, status, begin", STANDARD_INPUTS)
def test_each_command_reads_standard_input(
    words: str, given: str, status: int, begin: str, tmp_path: Path
) -> None:
    """`-` is a file to read under every option, and standard output under -o."""
    for path in (MONTHS / "april.csv", MONTHS / "april.json", MONTHS / "may.csv"):
        shutil.copy(path, tmp_path)
    shutil.copy(EXAMPLES / "garden.xml", tmp_path)
    shutil.copytree(MONTHS, tmp_path / "months")
    (tmp_path / "left.csv").write_text("activity,left\n")
    (tmp_path / "v.csv").write_text("Date,Account,Amount\n2026-04-01,Ground,1\n")
    (tmp_path / "l.csv").write_bytes((EXAMPLES / "pump" / "january.ledger.csv").read_bytes())
    (tmp_path / "empty.csv").write_text("")
    name, *others = words.split()
    with (tmp_path / (given or "empty.csv")).open("rb") as file:
        done = subprocess.run(
            [BIN / name, *others], cwd=tmp_path, stdin=file, capture_output=True, check=False
        )
    errors = done.stderr.decode()
    assert done.returncode == status, errors
    assert done.stdout.decode().startswith(begin)
    assert status == 0 or "standard input" in errors
    assert "Traceback" not in errors and "standard output and" not in errors


def test_names_that_are_not_utf_8(tmp_path: Path) -> None:
    """A file may have any name; in the side file, bytes that are no text are replaced."""
    plan = os.fsencode(tmp_path) + b"/pl\xffan.csv"
    deck = os.fsencode(tmp_path) + b"/w\xffing.csv"
    Path(os.fsdecode(plan)).write_bytes((CASES / "snet.csv").read_bytes())
    words = [os.fsencode(BIN / "pert-import"), plan, b"-o", deck]
    done = subprocess.run([*words, b"--bin", b"/none"], capture_output=True, check=False)
    assert done.returncode == 0, done.stderr
    assert b"w\\udcffing.csv" in done.stderr
    side = Path(os.fsdecode(deck)).with_suffix(".json").read_text("utf-8")
    assert '"deck": "w\ufffding.csv"' in side and '"source_name": "pl\ufffdan.csv"' in side
    done = subprocess.run(
        [os.fsencode(BIN / "pert-days"), deck, b"--count", b"2026-12-01"],
        capture_output=True,
        check=False,
    )
    assert (done.returncode, done.stderr) == (0, b"")


@pytest.mark.parametrize("day", ["9999-12-31", "2200-01-01", "1899-12-31"])
def test_dates_that_no_deck_has(day: str, tmp_path: Path) -> None:
    """`pert` refuses them, so no command takes them."""
    done = run([BIN / "pert-days", MONTHS / "april.csv", "--as-of", day], tmp_path)
    assert done.returncode == 2
    assert f"{day!r} is no date from 1900-01-01 to 2199-12-31" in done.stderr


def test_no_weekdays_are_no_calendar(tmp_path: Path) -> None:
    """An empty list is not the usual week."""
    for words in (["--weekdays", ""], ["--weekdays", " "], ["--weekdays", "mon,"]):
        done = run([BIN / "pert-days", HOUSE, *words], tmp_path)
        assert done.returncode == 2
        assert "is no weekday such as mon" in done.stderr
