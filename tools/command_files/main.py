"""The command tools/command-files.py."""

import importlib.util
import re
import sys
from pathlib import Path

from command_files import completion, manual, programs
from command_files.commands import commands_of
from command_files.forms import manual_page, read_forms
from command_files.texts import TEXTS

USAGE = """\
Writes the manual pages of the companion's commands, the section FORMS of pert's, and completion of
the commands and the programs.

    tools/command-files.py             writes docs/man/pert-*.1, docs/man/pert.1 and tools/completion/
    tools/command-files.py --check     names each file that is not as it would be written

The status is 0, 1 if a file is not up to date, or 2 for wrong words.
"""
LIBRARIES = ("openpyxl", "defusedxml", "icalendar", "jinja2", "numpy")


def files(top: Path) -> dict[Path, str]:
    """Returns each file with its text: pages of commands, and completion for three shells."""
    commands = commands_of(top)
    forms = read_forms(top)
    page = (top / "docs/man/pert.1").read_text(encoding="utf-8")
    day = re.search(r'^\.TH \S+ 1 "([0-9-]+)"', page)
    if day is None:
        raise ValueError("docs/man/pert.1 has no date")
    folder = top / "tools/completion"
    found = {
        folder / "companion.bash": completion.bash(commands),
        folder / "_pert-companion": completion.zsh(commands),
        folder / "pert.bash": programs.bash(forms),
        folder / "_pert": programs.zsh(forms),
        top / "docs/man/pert.1": manual_page(page, forms),
    }
    for program in programs.PROGRAMS:
        found[folder / f"{program}.fish"] = programs.fish(program, forms)
    for command in commands:
        found[folder / f"{command.name}.fish"] = completion.fish(command)
        if command.name in TEXTS:
            found[top / f"docs/man/{command.name}.1"] = manual.page(command, day[1])
    return found


def run(top: Path, words: list[str]) -> int:
    """Does what the words say, and returns the status."""
    if words in (["-h"], ["--help"]):
        print(USAGE, end="")
        return 0
    if words not in ([], ["--check"]):
        print("command-files: usage: tools/command-files.py [--check]", file=sys.stderr)
        return 2
    missing = [name for name in LIBRARIES if importlib.util.find_spec(name) is None]
    if missing:
        print(f"command-files: skipped, since Python has no {', '.join(missing)}")
        return 0
    texts = files(top)
    return check(top, texts) if words else write(texts)


def write(texts: dict[Path, str]) -> int:
    """Writes the files."""
    for path, text in texts.items():
        path.parent.mkdir(exist_ok=True)
        path.write_text(text, encoding="utf-8")
    print(f"command-files: {len(texts)} files are written")
    return 0


def check(top: Path, texts: dict[Path, str]) -> int:
    """Names each file that differs from its text, and each that no command has any more."""
    wrong = {path for path in (top / "tools/completion").iterdir() if path not in texts}
    for path, text in texts.items():
        if not path.exists() or path.read_text(encoding="utf-8") != text:
            wrong.add(path)
    for path in sorted(wrong):
        print(f"FAILED command-files: {path.relative_to(top)}: run tools/command-files.py")
    print(f"command-files: {len(texts)} files, {len(wrong)} failed")
    return 1 if wrong else 0
