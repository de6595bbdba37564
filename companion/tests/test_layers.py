"""Imports of the package only go down, and only states of projects ask the programs."""

import ast
from collections.abc import Iterator
from pathlib import Path

import pytest

import pert_companion

PACKAGE = Path(pert_companion.__file__).parent
BELOW = {
    "model": set[str](),
    "programs": {"model"},
    "readers": {"model"},
    "carry": {"model"},
    "state": {"programs", "model"},
    "analysis": {"state", "programs", "carry", "model"},
    "importing": {"analysis", "state", "programs", "readers", "carry", "model"},
    "writers": {"analysis", "state", "programs", "model"},
    "page": {"analysis", "state", "programs", "model", "writers"},
    "portfolio": {"page", "analysis", "state", "programs", "model", "writers"},
    "desk": {
        *("portfolio", "page", "writers", "importing", "analysis", "state", "programs"),
        *("readers", "carry", "model"),
    },
}
"""The folders that each folder may import from besides itself; `cli` may import from all."""
ASKING = {"programs", "state"}
"""The folders that may call what a `Programs` has; others ask a state."""
HARMLESS = {"find", "check"}
"""What everybody may call: where a program is, and what `pert_check` says of what is given."""


def modules() -> list[Path]:
    """Returns the modules of the folders that have a place in the order."""
    return sorted(path for path in PACKAGE.glob("*/*.py") if path.parent.name in BELOW)


def name_of(path: Path) -> str:
    """Returns the name of a module with its folder."""
    return f"{path.parent.name}/{path.stem}"


def imported(tree: ast.AST) -> Iterator[str]:
    """Yields the folders of the package that a module imports from."""
    for node in ast.walk(tree):
        if isinstance(node, ast.Import):
            yield from (name.name.split(".")[1] for name in node.names if _is_ours(name.name))
        elif isinstance(node, ast.ImportFrom) and node.module and _is_ours(node.module):
            yield node.module.split(".")[1]
        elif isinstance(node, ast.ImportFrom) and node.module == "pert_companion":
            yield from (name.name for name in node.names if (PACKAGE / name.name).is_dir())


def _is_ours(module: str) -> bool:
    return module.startswith("pert_companion.")


def asked(tree: ast.AST) -> Iterator[str]:
    """Yields the names of what is called of something that is named `programs`."""
    for node in ast.walk(tree):
        if isinstance(node, ast.Call) and isinstance(node.func, ast.Attribute):
            owner = node.func.value
            name = owner.attr if isinstance(owner, ast.Attribute) else getattr(owner, "id", "")
            if name == "programs":
                yield node.func.attr


@pytest.mark.parametrize("path", modules(), ids=name_of)
def test_imports_go_down(path: Path) -> None:
    """A folder knows nothing of what stands on it."""
    folder = path.parent.name
    found = set(imported(ast.parse(path.read_text("utf-8")))) - {folder}
    assert found <= BELOW[folder], found - BELOW[folder]


@pytest.mark.parametrize("path", sorted(PACKAGE.glob("*/*.py")), ids=name_of)
def test_only_states_ask_the_programs(path: Path) -> None:
    """Whoever needs an answer of the programs takes it from a state, which asks once."""
    if path.parent.name not in ASKING:
        assert set(asked(ast.parse(path.read_text("utf-8")))) <= HARMLESS


def test_no_module_is_beside_the_folders() -> None:
    """The root has the version and the way in alone, and each folder its place in the order."""
    assert {path.stem for path in PACKAGE.glob("*.py")} == {"__init__", "__main__"}
    assert {path.parent.name for path in PACKAGE.glob("*/*.py")} == {*BELOW, "cli"}
