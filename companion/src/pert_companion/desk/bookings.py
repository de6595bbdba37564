"""Booking lists at the desk: vouchers, amounts to go, progress; what `pert-ledger` does."""

from typing import TYPE_CHECKING, Any

from pert_companion.desk.errors import ConflictError, DeskError, RefusedError
from pert_companion.desk.projects import OpenProject, Step, command_line, whole_record
from pert_companion.desk.reading import stage, staged_books
from pert_companion.desk.saving import files_of
from pert_companion.desk.uploads import Upload
from pert_companion.model.bookings import BookingKind

if TYPE_CHECKING:
    from pert_companion.desk.desk import Desk

LISTS = ("vouchers", "to-go", "progress")


def checked_options(given: dict[str, Any]) -> dict[str, Any]:
    """Returns what is said of a list; `DeskError` for what cannot be said."""
    if given.get("list", LISTS[0]) not in LISTS:
        raise DeskError("a list has vouchers, amounts to go or progress")
    texts = ("as_of", "list", "decimal")
    found: dict[str, Any] = {name: str(given[name]) for name in texts if given.get(name)}
    if given.get("day_first") is not None:
        found["day_first"] = bool(given["day_first"])
    return found


def preview(desk: "Desk", project: OpenProject, upload: Upload) -> dict[str, Any]:
    """Returns what booking a list does to a project, and what is odd."""
    outcome = _run(desk, project, upload, [])
    outcome.pop("is_complete")
    upload.version = project.version
    words = booking_words(project, upload, [])
    return {
        "upload": upload.key,
        "version": project.version,
        **outcome,
        "command": command_line(*words),
    }


def book(desk: "Desk", project: OpenProject, upload: Upload, kinds: list[str]) -> Step:
    """Books a list on a project; the kinds of findings in `kinds` are accepted."""
    if not set(kinds) <= {kind.value for kind in BookingKind}:
        raise DeskError("there is no such kind of finding")
    if upload.version != project.version:
        raise ConflictError(
            "the project was changed since the list was read: drop it again",
            {"version": project.version},
        )
    outcome = _run(desk, project, upload, kinds)
    if not outcome["is_complete"]:
        open_kinds = [each["kind"] for each in outcome["findings"] if not each["is_accepted"]]
        raise RefusedError(f"not booked: accept {', '.join(open_kinds)}, or change the list")
    books = staged_books(upload.folder, project.path)
    command = command_line(*booking_words(project, upload, kinds))
    text = f"booked {upload.file.name}: {outcome['new']} new vouchers"
    return project.change(text, command, books, whole_record(books))


def _run(desk: "Desk", project: OpenProject, upload: Upload, kinds: list[str]) -> dict[str, Any]:
    stage(upload.folder, files_of(project.books))
    request = {
        "work": "book",
        "file": str(upload.file),
        "options": upload.options,
        "kinds": kinds,
        "deck": str(project.path),
        "staging": str(upload.folder),
    }
    return desk.uploads.read(request)


def booking_words(project: OpenProject, upload: Upload, kinds: list[str]) -> list[str]:
    """Returns the words of the command that does the same."""
    options, deck = upload.options, project.path.name
    words = ["pert-ledger", deck]
    kind = options.get("list", LISTS[0])
    words += [upload.file.name] if kind == LISTS[0] else [f"--{kind}", upload.file.name]
    if options.get("as_of"):
        words += ["--as-of", options["as_of"]]
    if options.get("decimal"):
        words += ["--decimal", options["decimal"]]
    if options.get("day_first") is not None:
        words.append("--day-first" if options["day_first"] else "--month-first")
    if kinds:
        words += ["--accept", ",".join(kinds)]
    return [*words, "-o", deck, "--overwrite"]
