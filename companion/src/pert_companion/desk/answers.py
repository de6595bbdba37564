"""The answers of a project to requests: complete, after an edit, about what changed."""

from collections.abc import Iterable
from time import monotonic

from pert_companion.desk.amounts import amounts_of
from pert_companion.desk.changes import Change, changed_codes, changes_between, diff_between
from pert_companion.desk.listing import name_of, planner_files
from pert_companion.desk.plan_edits import why_links_are_fixed
from pert_companion.desk.projects import OpenProject, Step, books_of
from pert_companion.desk.saving import read_files
from pert_companion.desk.views import (
    Json,
    Rows,
    curve_json,
    data_date,
    day_json,
    length_json,
    nearest_length,
    schedule_json,
    states_of,
    terms_json,
)
from pert_companion.importing.month_end import Books
from pert_companion.model.errors import CompanionError
from pert_companion.model.losses import accepted_text
from pert_companion.writers.into import WAYS_BACK


def project_json(project: OpenProject, units: int | None) -> Json:
    """Returns everything that the page of a project shows at first."""
    state, books = project.state, project.books
    length = nearest_length(state.rest, units)
    return {
        "id": name_of(project.path),
        "file": project.path.name,
        "title": books.deck.project.title or books.deck.project.code,
        **marks_json(project),
        "recovered": project.recovered,
        "currency": books.side.currency,
        "data_date": day_json(data_date(books)),
        "has_begun": state.has_begun,
        "has_side_file": books.has_side_file,
        "tasks_fixed": why_links_are_fixed(books),
        "first_day": day_json(state.rest.clock.first_day),
        "source": _source(project),
        "step": amounts_of(books.side).measure.words(1),
        "terms": terms_json(state),
        "accepted": accepted_text(books.side.accepted),
        "notes": list(project.notes),
        "curve": curve_json(state),
        "rows": list(Rows(books, states_of(state)).all()),
        "schedule": schedule_json(state, length, project.version),
        "accounts": bool(books.deck.accounts),
    }


def marks_json(project: OpenProject) -> dict[str, object]:
    """Returns the versions of a project, and whether there is something to undo or redo."""
    return {
        "version": project.version,
        "saved_version": project.saved_version if project.unsaved else project.version,
        "can_undo": bool(project.done),
        "can_redo": bool(project.undone),
    }


def _source(project: OpenProject) -> Json | None:
    """Returns the planner's file that the project came from."""
    side = project.books.side
    if not side.source:
        return None
    way = WAYS_BACK.get(side.source)
    files = [path.name for path in planner_files(project.path.parent)]
    return {
        "name": side.source_name,
        "format": side.source,
        "is_here": side.source_name in files,
        "planner": "" if way is None else way.planner,
    }


def edit_answer(project: OpenProject, before: Books, units: int | None, begun: float) -> Json:
    """Returns what changed since a state before, and the end, cost and curve as they are now.

    `begun` is when the request began, by the clock of `monotonic`.
    """
    after, state = project.books, project.state
    rows = Rows(after, states_of(state))
    codes = set(changed_codes(before, after))
    changed = [rows.row(task) for task in after.side.tasks if task.code in codes]
    length = nearest_length(state.rest, units)
    return {
        **marks_json(project),
        "changes": changes_list(changes_between(before, after)),
        "rows": changed,
        "rows_are_others": _codes(before) != _codes(after),
        "curve": curve_json(state),
        "length": length_json(state, length, project.version),
        "schedule_is_old": True,
        "took": round((monotonic() - begun) * 1000),
    }


def _codes(books: Books) -> list[str]:
    return [task.code for task in books.side.tasks]


def changes_list(changes: Iterable[Change]) -> list[Json]:
    """Returns changes as JSON has them."""
    return [change.json() for change in changes]


def changes_json(project: OpenProject) -> Json:
    """Returns what changed since the project was opened."""
    return {
        "version": project.version,
        "list": changes_list(changes_between(project.opened, project.books)),
        "diff": diff_between(project.opened, project.books, project.path.name),
    }


def outside_json(project: OpenProject) -> Json | None:
    """Returns how the files differ from those that were opened; None if they do not."""
    if not project.is_changed_outside():
        return None
    ours = project.saved_books
    try:
        theirs = books_of(read_files(project.path), project.path)
    except OSError as error:
        return {"changes": [], "diff": "", "fault": f"{project.path.name}: {error.strerror}"}
    except CompanionError as error:
        return {"changes": [], "diff": "", "fault": str(error)}
    return {
        "changes": changes_list(changes_between(ours, theirs)),
        "diff": diff_between(ours, theirs, project.path.name),
        "fault": "",
    }


def history_json(project: OpenProject) -> Json:
    """Returns the steps of a project from the first to the last, with their commands."""
    return {"steps": [_step_json(project, place) for place in range(len(project.log))]}


def _step_json(project: OpenProject, place: int) -> Json:
    step: Step = project.log[place]
    return {
        "version": place + 1,
        "time": step.time.strftime("%H:%M:%S"),
        "text": step.text,
        "command": step.command,
        "is_undone": step not in project.done,
    }
