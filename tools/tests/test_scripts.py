"""Holds all Python outside the companion to short functions, each with a doc comment."""

import ast
import subprocess
from pathlib import Path

import pytest

TOP = Path(__file__).resolve().parents[2]
SCRIPTS = (TOP / "tools" / "tests" / "scripts").read_text(encoding="utf-8").split()
MOST = 40


@pytest.mark.parametrize("name", SCRIPTS)
def test_functions_are_short_and_say_what_they_do(name: str) -> None:
    tree = ast.parse((TOP / name).read_text(encoding="utf-8"))
    found = []
    for node in ast.walk(tree):
        if isinstance(node, (ast.FunctionDef, ast.AsyncFunctionDef)):
            lines = (node.end_lineno or node.lineno) - node.lineno + 1
            if lines > MOST:
                found.append(f"{node.name}: {lines} lines, more than {MOST}")
            if not ast.get_docstring(node):
                found.append(f"{node.name}: no doc comment")
    assert found == []


def test_every_script_in_python_is_held() -> None:
    """The companion has checks of its own; so have the packages of tools/, which are folders."""
    packages = [f"{it.parent.relative_to(TOP)}/" for it in TOP.glob("tools/*/__init__.py")]
    others = ("companion/", "tools/tests/", *packages)
    found = [it for it in files() if not it.startswith(others) and is_python(TOP / it)]
    assert sorted(found) == SCRIPTS


def files() -> list[str]:
    """Returns the files of the repository, also those that git does not track yet."""
    command = ["git", "ls-files", "--cached", "--others", "--exclude-standard"]
    listed = subprocess.run(command, cwd=TOP, capture_output=True, text=True, check=True).stdout
    return [it for it in listed.splitlines() if (TOP / it).is_file()]


def is_python(path: Path) -> bool:
    """Returns whether a file is in Python: by its name, or by its first line."""
    with open(path, "rb") as file:
        first = file.readline(200)
    return path.suffix == ".py" or (first.startswith(b"#!") and b"python" in first)
