"""What the addresses of the desk do (types/desk.d.ts lists them)."""

import secrets
from collections.abc import Callable
from time import monotonic
from typing import Any

from starlette.requests import Request

from pert_companion import VERSION
from pert_companion.analysis.lengths import longest_by
from pert_companion.analysis.sureness import sureness
from pert_companion.desk import answers, bookings, handing, imports, loads, states, views
from pert_companion.desk.amounts import read_day
from pert_companion.desk.capacity_edits import CAPACITY
from pert_companion.desk.changes import changes_between
from pert_companion.desk.desk import Desk
from pert_companion.desk.edits import TASK_FIELDS, Edit
from pert_companion.desk.errors import (
    ConflictError,
    DeskError,
    OutsideError,
    desk_error,
)
from pert_companion.desk.listing import decks_of, name_of, planner_files, title_of
from pert_companion.desk.plan_edits import NEW, new_code
from pert_companion.desk.project_edits import FIELDS as PROJECT_FIELDS
from pert_companion.desk.projects import OpenProject, Step
from pert_companion.desk.requests import Body, Dropped
from pert_companion.desk.views import Json
from pert_companion.importing.month_end import Books
from pert_companion.model.errors import CompanionError
from pert_companion.model.output import write_whole


def _units(request: Request) -> int | None:
    """Returns the length that an address has."""
    text = request.query_params.get("length", "")
    if not text:
        return None
    if not (text.isascii() and text.isdigit() and len(text) <= 9):
        raise DeskError("the length is no number of units")
    return int(text)


def _project(desk: Desk, request: Request) -> OpenProject:
    return desk.project(request.path_params["project"])


# -------------------------------------------------------------------------------------- pages


def folder_page(desk: Desk, _request: Request) -> Json:
    """Returns what the template of the folder's page shows."""
    return {"template": "folder.html", "name": desk.folder.resolve().name}


def project_page(desk: Desk, request: Request) -> Json:
    """Returns what the template of a project's page shows."""
    key = request.path_params["project"]
    path = desk.deck(key)
    return {"template": "project.html", "project": key, "title": title_of(path)}


def report_page(desk: Desk, request: Request) -> bytes:
    """Returns the report page of a project as it is now."""
    project = _project(desk, request)
    with project.lock:
        state = project.state
    return handing.report(state, views.nearest_length(state.rest, _units(request)))


# ------------------------------------------------------------------------------------- folder


def folder(desk: Desk, _request: Request, _body: Body) -> Json:
    """Returns the projects and planner's files of the folder, with the rows that are known."""
    paths = decks_of(desk.folder)
    rows = {path: desk.rows.known(path) for path in paths}
    shown = []
    for path in paths:
        row = rows[path]
        shown.append(
            _folder_row(desk, path, None if row is None else desk.rows.json(path, row, paths))
        )
    sources = {str(each["source"]) for each in shown}
    files = []
    for path in planner_files(desk.folder):
        if path.name not in sources:
            entry: Json = {"id": name_of(path), "name": path.name, "bytes": path.stat().st_size}
            files.append(entry)
    return {
        "name": desk.folder.resolve().name,
        "version": VERSION,
        "projects": shown,
        "files": files,
        "sums": desk.rows.sums(paths),
    }


def _folder_row(desk: Desk, path: Any, row: Json | None) -> Json:
    return {
        "id": name_of(path),
        "file": path.name,
        "title": title_of(path),
        "row": row,
        "unsaved": desk.unsaved(path),
        "source": desk.rows.source_of(path),
    }


def row(desk: Desk, request: Request, _body: Body) -> Json:
    """Returns the row of a project, computed if it must be."""
    path = desk.deck(request.path_params["project"])
    found = desk.rows.row(path)
    return _folder_row(desk, path, desk.rows.json(path, found, decks_of(desk.folder)))


# ------------------------------------------------------------------------------------ uploads


def upload(desk: Desk, _request: Request, dropped: Dropped) -> Json:
    """Begins to read a planner's file that was dropped, or one of the folder."""
    options = imports.checked_options(dropped.options)
    if options.get("project"):
        desk.deck(options["project"])
    if dropped.has_file:
        data = dropped.data()
        name = imports.name_in_folder(desk, dropped.name, data)
    else:
        path = imports.file_of_folder(desk, options.get("file", ""))
        data, name = path.read_bytes(), path.name
    found = desk.uploads.add(name, options)
    found.file.write_bytes(data)
    imports.begin_import(desk, found)
    return _begun(found.key)


def accept(desk: Desk, request: Request, body: Body) -> Json:
    """Begins to make a project of a file that was read, without the losses that are accepted."""
    found = desk.uploads.get(request.path_params["upload"])
    imports.accept_import(desk, found, body.texts("kinds"), body.text("name"))
    return _begun(found.key)


def _begun(key: str) -> Json:
    return {"upload": key, "events": f"/api/uploads/{key}/events"}


def forget(desk: Desk, request: Request, _body: Body) -> Json:
    """Forgets a file that was dropped."""
    desk.uploads.remove(request.path_params["upload"])
    return {}


# -------------------------------------------------------------------------------- the project


def project(desk: Desk, request: Request, _body: Body) -> Json:
    """Returns everything that the page of a project shows at first."""
    found = _project(desk, request)
    with found.lock:
        return answers.project_json(found, _units(request))


def schedule(desk: Desk, request: Request, _body: Body) -> Json:
    """Returns the dates of all tasks at a length."""
    found = _project(desk, request)
    with found.lock:
        state, version = found.state, found.version
    return views.schedule_json(state, views.nearest_length(state.rest, _units(request)), version)


def length(desk: Desk, request: Request, _body: Body) -> Json:
    """Returns what a length costs; it is named by its units, or by the day on which it ends."""
    found = _project(desk, request)
    with found.lock:
        state, version = found.state, found.version
    day = read_day(request.query_params.get("by", ""))
    named = _units(request) if day is None else longest_by(state.rest, day)
    units = views.nearest_length(state.rest, named)
    sure = None
    if request.query_params.get("chance"):
        sure = sureness(state.rest, state.rest.point(units).durations)
    return views.length_json(state, units, version, sure)


def options(desk: Desk, request: Request, _body: Body) -> Json:
    """Returns certain lengths with their chances."""
    found = _project(desk, request)
    with found.lock:
        state, version = found.state, found.version
    return views.options_json(state, version)


def load(desk: Desk, request: Request, _body: Body) -> Json:
    """Returns what a length costs and uses by week, and what is above its capacity."""
    found = _project(desk, request)
    with found.lock:
        state, version = found.state, found.version
    return loads.load_json(state, views.nearest_length(state.rest, _units(request)), version)


def version(desk: Desk, request: Request, _body: Body) -> Json:
    """Returns the version of a project, and what somebody else changed in its file."""
    found = _project(desk, request)
    with found.lock:
        marks = answers.marks_json(found)
        outside = answers.outside_json(found)
    return {
        "version": marks["version"],
        "saved_version": marks["saved_version"],
        "outside": outside,
    }


def changes(desk: Desk, request: Request, _body: Body) -> Json:
    """Returns what changed since a project was opened."""
    found = _project(desk, request)
    with found.lock:
        return answers.changes_json(found)


def history(desk: Desk, request: Request, _body: Body) -> Json:
    """Returns the steps of a project with their commands."""
    found = _project(desk, request)
    with found.lock:
        return answers.history_json(found)


# ----------------------------------------------------------------------------------- changing


def _changed(
    desk: Desk, request: Request, body: Body, change: Callable[[OpenProject], Step | None]
) -> Json:
    """Returns the answer to a request that changes a project.

    A conflict tells what others changed since; a file that was changed, how.
    """
    begun = monotonic()
    try:
        with desk.changing(request.path_params["project"], body.number("version")) as found:
            before = found.books
            change(found)
            return answers.edit_answer(found, before, body.optional_number("length"), begun)
    except ConflictError as error:
        error.details["changes"] = _since(desk, request, body.number("version"))
        raise
    except OutsideError as error:
        error.details["outside"] = answers.outside_json(_project(desk, request))
        raise


def _since(desk: Desk, request: Request, number: int) -> list[Json]:
    """Returns what changed since a version."""
    found = _project(desk, request)
    with found.lock:
        before: Books = found.versions.get(number, found.opened)
        return answers.changes_list(changes_between(before, found.books))


def edit(desk: Desk, request: Request, body: Body) -> Json:
    """Changes figures of tasks or of the project."""
    edits = [_edit(each) for each in body.objects("edits")]
    try:
        return _changed(desk, request, body, lambda found: found.edit(edits))
    except CompanionError as error:
        found = desk_error(error)
        found.details.update(task=edits[0].task, field=edits[0].field.replace("-", "_"))
        raise found from error


def _edit(body: Body) -> Edit:
    """Returns an edit of a request."""
    kind, value = body.text("kind"), body.text("value")
    if kind == "data-date":
        return Edit("data-date", body.text("day"))
    if kind == "contract":
        return Edit("contract", value)
    if kind == CAPACITY and body.text("resource"):
        return Edit(CAPACITY, value, body.text("resource"))
    name = body.text("field").replace("_", "-")
    if kind == "terms" and name in (*PROJECT_FIELDS, "target"):
        return Edit("contract" if name == "target" else name, value)
    if kind == "task" and name in TASK_FIELDS and body.text("task"):
        return Edit(name, value, body.text("task"))
    raise DeskError("there is no such edit")


def add_task(desk: Desk, request: Request, body: Body) -> Json:
    """Adds a task after another one; its code is made of its name."""
    name, after = body.text("name"), body.text("after")

    def add(found: OpenProject) -> Step:
        code = new_code(found.books, name)
        return found.edit([Edit(NEW, after, code), Edit("name", name, code)])

    return _changed(desk, request, body, add)


def undo(desk: Desk, request: Request, body: Body) -> Json:
    """Takes back the latest step."""
    return _changed(desk, request, body, lambda found: found.undo())


def redo(desk: Desk, request: Request, body: Body) -> Json:
    """Makes the step that was taken back last again."""
    return _changed(desk, request, body, lambda found: found.redo())


def revert(desk: Desk, request: Request, body: Body) -> Json:
    """Makes the project what it is in its file, as a step that can be undone."""
    return _changed(desk, request, body, lambda found: found.revert())


def outside(desk: Desk, request: Request, body: Body) -> Json:
    """Takes the file that somebody else changed, or stays with the own one."""
    begun, take = monotonic(), body.text("take")
    if take not in ("theirs", "mine"):
        raise DeskError("take theirs or mine")
    found = _project(desk, request)
    with found.lock:
        found.check_version(body.number("version"))
        before = found.books
        found.take_theirs() if take == "theirs" else found.keep_mine()
        return answers.edit_answer(found, before, body.optional_number("length"), begun)


def save(desk: Desk, request: Request, body: Body) -> Json:
    """Writes the files of a project."""
    kept = ""

    def write(found: OpenProject) -> None:
        nonlocal kept
        kept = found.save().stem

    answer = _changed(desk, request, body, lambda found: write(found))
    found = _project(desk, request)
    return {
        "version": answer["version"],
        "saved_version": answer["saved_version"],
        "files": [path.name for path, _ in found.files.parts(found.path)],
        "before": kept,
    }


# ------------------------------------------------------------------------------------- states


def list_states(desk: Desk, request: Request, _body: Body) -> Json:
    """Returns the states that a project can be compared with."""
    found = _project(desk, request)
    with found.lock:
        return states.states_json(found)


def save_state(desk: Desk, request: Request, body: Body) -> Json:
    """Writes a project as its state of a date."""
    with desk.changing(request.path_params["project"], body.number("version")) as found:
        states.save_state(found, body.text("date"))
        return states.states_json(found)


def compare(desk: Desk, request: Request, _body: Body) -> Json:
    """Returns what changed from a state to the project as it is now."""
    found = _project(desk, request)
    return states.comparison_json(found, request.query_params.get("with", ""))


# ------------------------------------------------------------------------------------ booking


def vouchers(desk: Desk, request: Request, dropped: Dropped) -> Json:
    """Returns what booking a list would do."""
    data = dropped.data()
    found = desk.uploads.add(dropped.name or "list", bookings.checked_options(dropped.options))
    found.file.write_bytes(data)
    opened = _project(desk, request)
    with opened.lock:
        return bookings.preview(desk, opened, found)


def book(desk: Desk, request: Request, body: Body) -> Json:
    """Books a list that was read."""
    found, kinds = desk.uploads.get(body.text("upload")), body.texts("accept")
    return _changed(desk, request, body, lambda opened: bookings.book(desk, opened, found, kinds))


# ------------------------------------------------------------------------------------ handing


def export(desk: Desk, request: Request, body: Body) -> Json:
    """Makes a file to hand on, which is downloaded by the address that is answered."""
    found = _project(desk, request)
    found.check_version(body.number("version"))
    file = handing.made(found, body.text("format"), body.optional_number("length"))
    key = secrets.token_hex(8)
    place = desk.scratch / "exports" / key / file.name
    place.parent.mkdir(parents=True)
    write_whole(place, file.data)
    desk.exports[key] = place
    name = handing.into_folder(desk.folder, file) if body.flag("to_folder") else ""
    return {
        "url": f"/api/exports/{key}",
        "name": file.name,
        "bytes": len(file.data),
        "notes": list(file.notes),
        "file": name,
        "command": file.command,
    }


def original(desk: Desk, request: Request, dropped: Dropped) -> Json:
    """Takes the planner's file of a project into the folder."""
    found = _project(desk, request)
    data = dropped.data()
    name = imports.name_in_folder(desk, dropped.name, data)
    if not (desk.folder / name).exists():
        write_whole(desk.folder / name, data)
    with found.lock:
        found.original = name
        handing.original_of(found)
    return {"name": name}


def check(desk: Desk, request: Request, body: Body) -> Json:
    """Returns what `pert_check` says of the certificate."""
    found = _project(desk, request)
    found.check_version(body.number("version"))
    return handing.check(found)


JSON_WORK: tuple[tuple[str, str, Callable[[Desk, Request, Body], Json]], ...] = (
    ("GET", "folder", folder),
    ("GET", "projects/{project}/row", row),
    ("POST", "uploads/{upload}/accept", accept),
    ("DELETE", "uploads/{upload}", forget),
    ("GET", "projects/{project}", project),
    ("GET", "projects/{project}/schedule", schedule),
    ("GET", "projects/{project}/length", length),
    ("GET", "projects/{project}/options", options),
    ("GET", "projects/{project}/load", load),
    ("GET", "projects/{project}/version", version),
    ("POST", "projects/{project}/edits", edit),
    ("POST", "projects/{project}/tasks", add_task),
    ("POST", "projects/{project}/undo", undo),
    ("POST", "projects/{project}/redo", redo),
    ("GET", "projects/{project}/changes", changes),
    ("GET", "projects/{project}/history", history),
    ("POST", "projects/{project}/save", save),
    ("POST", "projects/{project}/revert", revert),
    ("POST", "projects/{project}/outside", outside),
    ("GET", "projects/{project}/states", list_states),
    ("POST", "projects/{project}/states", save_state),
    ("GET", "projects/{project}/compare", compare),
    ("POST", "projects/{project}/book", book),
    ("POST", "projects/{project}/exports", export),
    ("POST", "projects/{project}/check", check),
)
"""The method and address of each request with JSON, below `/api/`, and what answers it."""
FILE_WORK: tuple[tuple[str, Callable[[Desk, Request, Dropped], Json]], ...] = (
    ("uploads", upload),
    ("projects/{project}/vouchers", vouchers),
    ("projects/{project}/original", original),
)
"""The address of each request with a file, below `/api/`, and what answers it."""
