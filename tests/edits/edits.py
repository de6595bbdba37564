"""Must-fail edits: what their files say, which of them the gate tries, and how one is applied.

An edit is a file NAME.edit with a line `file: src/..` and pairs of lines `old: ..` and `new: ..`,
which change that file. Lines that begin with `#` are comments: what the changed program gets wrong,
in words, and some of a fixed form that say what it answers (CONTRIBUTING.md):

    # row: CASE         a case of tests/acceptance/ whose answer the edit must break, or
    # row: test CRATE FILE::NAME    a test that must fail
    # prints: LINE      a line of the wrong answer; all such lines follow one another there
    # prints as: CASE   in place of lines: the wrong answer has all lines of that case's right one
    # status: N         the status that it ends with, if not that of the case
    # no row: REASON    in place of a row: why no case can show it
"""

from __future__ import annotations

import os
import re
from dataclasses import dataclass
from pathlib import Path

TOP = Path(__file__).resolve().parents[2]
CASES = TOP / "tests" / "acceptance"


class EditError(Exception):
    """An edit that cannot be read or applied, and why."""


@dataclass(frozen=True)
class Change:
    """One text of a file of the crate, and the text in its place."""

    file: str
    old: str
    new: str


@dataclass(frozen=True)
class Edit:
    """An edit, and what its comments say of the answer that it breaks."""

    path: Path
    crate: str
    changes: tuple[Change, ...]
    row: str | None
    no_row: str | None
    prints: tuple[str, ...]
    prints_as: str | None
    status: int | None
    words: str

    @property
    def name(self) -> str:
        """Its path from the top of the repository."""
        return str(self.path.relative_to(TOP))

    @property
    def is_of_gate(self) -> bool:
        """Whether every gate tries it."""
        return self.path.parent.name == "must-fail"


def read_edit(path: Path) -> Edit:
    """Reads an edit."""
    crate = path.parents[1].name if path.parent.name == "must-fail" else path.parent.name
    file: str | None = None
    old: str | None = None
    changes: list[Change] = []
    prints: list[str] = []
    words: list[str] = []
    said: dict[str, str] = {}
    for line in path.read_text(encoding="utf-8").splitlines():
        # (a `new:` line may be empty behind the colon)
        word, _, rest = line.partition(": ") if ": " in line else (line.rstrip(":"), "", "")
        if word == "file":
            file, old = rest, None
        elif word == "old":
            old = rest
        elif word == "new":
            if file is None or old is None:
                raise EditError("new: without file: and old:")
            changes.append(Change(file, old, rest))
            old = None
        elif word == "# prints":
            prints.append(rest)
        elif word in ("# row", "# no row", "# prints as", "# status"):
            said[word[2:]] = rest
        elif line.startswith("#"):
            words.append(line[1:].strip())
        elif line.strip():
            raise EditError(f"not read: {line.strip()}")
    if not changes:
        raise EditError("it changes nothing")
    if "status" in said and not said["status"].isdigit():
        raise EditError(f"no status: {said['status']}")
    status = int(said["status"]) if "status" in said else None
    row, no_row, prints_as = said.get("row"), said.get("no row"), said.get("prints as")
    return Edit(
        path, crate, tuple(changes), row, no_row, tuple(prints), prints_as, status, " ".join(words)
    )


def changed_texts(edit: Edit, top: Path = TOP) -> dict[Path, str]:
    """The changed texts of an edit's files below `top`: each pair applies to what the last left."""
    texts: dict[Path, str] = {}
    for change in edit.changes:
        path = top / "crates" / edit.crate / change.file
        if path not in texts:
            if not path.is_file():
                raise EditError(f"crates/{edit.crate} has no file {change.file}")
            texts[path] = path.read_text(encoding="utf-8")
        count = texts[path].count(change.old)
        if count != 1:
            raise EditError(f"{count} times in the file: {change.old.strip()}")
        texts[path] = texts[path].replace(change.old, change.new)
    return texts


def edits_of_gate() -> list[Path]:
    """The edits that every gate tries."""
    return sorted(TOP.glob("crates/*/must-fail/*.edit"))


def other_edits() -> list[Path]:
    """The edits of this folder."""
    return sorted(TOP.glob("tests/edits/*/*.edit"))


def named_edits() -> set[str]:
    """The edits that docs/gate.md names: by their paths, or in a column headed by their crate."""
    named: set[str] = set()
    crates: list[str] = []
    for line in (TOP / "docs" / "gate.md").read_text(encoding="utf-8").splitlines():
        named.update(re.findall(r"`(crates/\w+/must-fail/\w+\.edit)`", line))
        cells = [cell.strip().strip("`") for cell in line.strip().strip("|").split("|")][1:]
        if not line.startswith("|"):
            crates = []
        elif cells and all(cell and (TOP / "crates" / cell).is_dir() for cell in cells):
            crates = cells
        elif crates and not line.startswith("|-"):
            columns = zip(crates, cells)
            named.update(f"crates/{crate}/must-fail/{cell}.edit" for crate, cell in columns if cell)
    return named


def crates_below() -> dict[str, list[str]]:
    """Each crate of crates.txt with all crates of the repository below it, sorted."""
    lines = (TOP / "crates.txt").read_text(encoding="utf-8").splitlines()
    uses: dict[str, list[str]] = {}
    for line in lines:
        head, colon, rest = line.partition("#")[0].partition(":")
        if colon:
            uses[head.split()[0]] = rest.split()
    below: dict[str, set[str]] = {}

    def all_below(crate: str) -> set[str]:
        """All crates below one, found once."""
        if crate not in below:
            found: set[str] = set()
            for used in uses[crate]:
                if used in uses:
                    found |= {used} | all_below(used)
            below[crate] = found
        return below[crate]

    return {crate: sorted(all_below(crate)) for crate in uses}


def files_of(crate: str) -> list[Path]:
    """The sources of a crate: what a proof of it reads."""
    found: list[Path] = []
    for part in ("src", "specs", "proofs"):
        for at, _, names in os.walk(TOP / "crates" / crate / part):
            found += [Path(at) / name for name in names]
    return sorted(found)
