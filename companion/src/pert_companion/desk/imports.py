"""Importing at the desk: what `pert-import` does, with the losses to accept shown first."""

from collections.abc import Sequence
from pathlib import Path
from typing import TYPE_CHECKING, Any

from pert_companion.desk.errors import DeskError, RefusedError
from pert_companion.desk.listing import found_in, free_name, name_of, planner_files
from pert_companion.desk.projects import books_of, command_line, whole_record
from pert_companion.desk.reading import staged_files
from pert_companion.desk.uploads import Upload
from pert_companion.model.losses import LossKind
from pert_companion.model.output import write_together

if TYPE_CHECKING:
    from pert_companion.desk.desk import Desk

WORDS = (
    *("name", "start", "as_of", "unit", "decimal", "sheet", "calendar", "crash_field"),
    *("crash_cost_field", "overtime", "overhead", "bonus", "penalty", "contract"),
)
"""The options of an import that are texts, as the words of its command."""
TEXTS = ("project", "file", *WORDS)
MOST_TEXT = 200
"""The characters of an option."""


def checked_options(given: dict[str, Any]) -> dict[str, Any]:
    """Returns the options of an import; `DeskError` for those that there are not."""
    found: dict[str, Any] = {}
    for name, value in given.items():
        if name == "day_first" and (value is None or isinstance(value, bool)):
            found[name] = value
        elif name in TEXTS and isinstance(value, str) and len(value) <= MOST_TEXT:
            found[name] = value
        elif value is not None:
            raise DeskError(f"{name[:40]!r} is no option of an import")
    return found


def begin_import(desk: "Desk", upload: Upload) -> None:
    """Begins to read a planner's file, so that its losses can be shown."""
    _begin(desk, upload, [], False)


def accept_import(desk: "Desk", upload: Upload, kinds: Sequence[str], name: str) -> None:
    """Begins to read a planner's file again, to make a project of it without some losses."""
    known = {kind.value for kind in LossKind}
    if not set(kinds) <= known:
        raise DeskError("there is no such kind of loss")
    if name:
        upload.options["name_of_deck"] = name
    _begin(desk, upload, kinds, True)


def _begin(desk: "Desk", upload: Upload, kinds: Sequence[str], is_wanted: bool) -> None:
    target = _target(desk, upload)
    project = upload.options.get("project")
    request = {
        "work": "import",
        "file": str(upload.file),
        "options": upload.options,
        "kinds": list(kinds),
        "is_wanted": is_wanted,
        "deck": str(target),
        "last": str(target) if project else "",
        "staging": str(upload.folder),
        "bin": "" if desk.programs.folder is None else str(desk.programs.folder.resolve()),
    }

    def finish(done: Upload, outcome: dict[str, Any]) -> None:
        words = import_words(done, kinds, target)
        outcome["command"] = command_line(*words)
        outcome["project"] = None
        if outcome.pop("is_complete"):
            outcome["project"] = name_of(_take(desk, done, target, outcome["command"]))

    desk.uploads.begin(upload, request, finish)


def _target(desk: "Desk", upload: Upload) -> Path:
    """Returns where the deck of an import will be."""
    project = upload.options.get("project")
    if project:
        return desk.deck(project)
    name = upload.options.get("name_of_deck") or upload.options.get("name") or upload.file.stem
    target = free_name(desk.folder, name, ".csv")
    if target.name == upload.file.name:  # a list that is not in the folder yet
        return free_name(desk.folder, f"{name}-plan", ".csv")
    return target


def _take(desk: "Desk", upload: Upload, target: Path, command: str) -> Path:
    """Makes the project of what was read, and returns its path.

    A newer state of a project that is there is a step in it, which can be undone.
    """
    files = staged_files(upload.folder)
    original = desk.folder / upload.file.name
    data = upload.file.read_bytes()
    new = [] if original.exists() else [(original, data)]
    if not upload.options.get("project"):
        with desk.lock:
            if target.exists():
                raise RefusedError(f"{target.name} is there by now; accept again")
            write_together([*files.parts(target), *new])
        return target
    project = desk.project(upload.options["project"])
    with project.lock:
        ledger = project.books.ledger, project.books.has_ledger
        books = books_of(files, target)
        books = desk.with_ledger(books, *ledger)
        project.change(f"imported {upload.file.name}", command, books, whole_record(books))
        write_together(new)
    return target


def import_words(upload: Upload, kinds: Sequence[str], target: Path) -> list[str]:
    """Returns the words of the command that does the same."""
    options = upload.options
    words = ["pert-import", upload.file.name]
    for name in WORDS:
        if options.get(name):
            words += [f"--{name.replace('_', '-')}", options[name]]
    if options.get("day_first") is not None:
        words.append("--day-first" if options["day_first"] else "--month-first")
    accepted = list(kinds)
    if options.get("project"):
        words += ["--with", target.name]
        accepted.insert(0, "same")
    if accepted:
        words += ["--accept", ",".join(accepted)]
    return [*words, "-o", target.name]


def name_in_folder(desk: "Desk", name: str, data: bytes) -> str:
    """Returns the name that a dropped file has in the folder: its own, if no other file has it."""
    plain = "".join(char if char.isalnum() or char in "-._ ()" else "-" for char in name)
    plain = plain.strip(" .-")[:100] or "plan"
    path = desk.folder / plain
    number = 1
    while path.exists() and path.read_bytes() != data:
        number += 1
        path = desk.folder / f"{Path(plain).stem}-{number}{Path(plain).suffix}"
    return path.name


def file_of_folder(desk: "Desk", key: str) -> Path:
    """Returns a planner's file of the folder by the desk's name for it."""
    return found_in(planner_files(desk.folder), key, "file")
