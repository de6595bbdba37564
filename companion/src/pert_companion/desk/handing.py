"""Hands a project on: exports, the planner's own file, the report page, the certificate."""

from dataclasses import dataclass
from pathlib import Path

from pert_companion.analysis.lengths import choice_of
from pert_companion.analysis.scheduling import rest_schedule
from pert_companion.desk.amounts import amounts_of
from pert_companion.desk.errors import DeskError, RefusedError
from pert_companion.desk.listing import free_name, planner_files
from pert_companion.desk.projects import OpenProject, command_line
from pert_companion.desk.saving import files_of
from pert_companion.desk.views import Json, nearest_length
from pert_companion.model.output import write_whole
from pert_companion.model.source import Source as File
from pert_companion.page.gathering import gather
from pert_companion.page.render import render
from pert_companion.page.report import page_of
from pert_companion.page.source import Source, Wishes
from pert_companion.readers import detect
from pert_companion.state.project import ProjectState
from pert_companion.writers.exporting import about_new_file, new_file
from pert_companion.writers.into import WAYS_BACK, WayBack

FORMATS = ("xlsx", "csv", "ics", "xml")
OTHERS = ("into", "report", "deck", "side", "certificate")


@dataclass(frozen=True)
class Made:
    """A file that was made: its name, its content, what is not in it, and the command for it."""

    name: str
    data: bytes
    notes: tuple[str, ...]
    command: str


def made(project: OpenProject, form: str, units: int | None) -> Made:
    """Returns a project in a format, at a length; the longest if none is named.

    Raises `DeskError` for a format that there is not or that the project cannot have.
    """
    if form not in (*FORMATS, *OTHERS):
        raise DeskError(f"there is no format {form[:20]!r}")
    with project.lock:
        state, books = project.state, project.books
    length = nearest_length(state.rest, units)
    deck = project.path.name
    if form in ("deck", "side"):
        files = files_of(books)
        if form == "side" and files.side is None:
            raise RefusedError("this deck has no side file")
        name = deck if form == "deck" else project.path.with_suffix(".json").name
        return Made(name, (files.deck if form == "deck" else files.side) or b"", (), "")
    if form == "certificate":
        text = b"".join(state.rest.certificate())
        return Made(f"{project.path.stem}.certificate", text, (), certificate_command(state, deck))
    if form == "report":
        command = command_line(
            "pert-report", deck, *_length_words(state, length), "-o", _page(deck)
        )
        return Made(_page(deck), report(state, length), (), command)
    return _export(project, state, form, length)


def _page(deck: str) -> str:
    return f"{deck.removesuffix('.csv')}.html"


def _export(project: OpenProject, state: ProjectState, form: str, length: int) -> Made:
    """Returns the schedule of a length as a new file, or in the planner's own one."""
    choice = choice_of(state.rest, length)
    schedule = rest_schedule(state, choice)
    days = amounts_of(state.side).days(length)
    words = ["pert-export", project.path.name, *_length_words(state, length)]
    if form != "into":
        name = f"{project.path.stem}-{days}.{form}"
        notes = tuple(about_new_file(f".{form}", state, schedule))
        data = new_file(f".{form}", state, schedule, choice)
        return Made(name, data, notes, command_line(*words, "-o", name))
    original, way = original_of(project)
    data, missing = way.put(original.read_bytes(), original.name, schedule, state.side)
    name = f"{original.stem}-{days}{original.suffix}"
    words += ["--into", original.name, "-o", name]
    return Made(name, data, tuple(missing), command_line(*words))


def _length_words(state: ProjectState, length: int) -> list[str]:
    """Returns the options of a command that choose a length."""
    if length == state.rest.longest:
        return ["--normal"]
    return ["--length", amounts_of(state.side).days(length)]


def original_of(project: OpenProject) -> tuple[Path, WayBack]:
    """Returns the planner's file of a project in its folder, and how a schedule gets into it."""
    name = project.original or project.books.side.source_name
    for path in planner_files(project.path.parent):
        if path.name == name:
            way = WAYS_BACK.get(detect(File(path, path.read_bytes())))
            if way is not None:
                return path, way
            known = ", ".join(each.planner for each in WAYS_BACK.values())
            raise RefusedError(f"{name}: files of {known} can be changed")
    raise RefusedError(f"the planner's file {name or ''} is not in the folder: choose it first")


def report(state: ProjectState, length: int) -> bytes:
    """Returns the report page of a project at a length, as `pert-report` makes it."""
    gathered = gather(Source(Wishes(length=length), state), lambda text: None)
    return render(page_of(gathered))


def check(project: OpenProject) -> Json:
    """Returns what `pert_check` says of the certificate of the curve of what is left."""
    with project.lock:
        state, version = project.state, project.version
    answer = state.rest.certified((), lambda part: None)
    return {
        "version": version,
        "answer": answer,
        "is_certified": answer.startswith("certified "),
        "command": check_command(state, project.path.name),
    }


def certificate_command(state: ProjectState, deck: str) -> str:
    """Returns the command that prints the certificate."""
    return f"{_network_command(state, deck)} > network.csv; pert certify < network.csv"


def check_command(state: ProjectState, deck: str) -> str:
    """Returns the command that checks the certificate."""
    return f"{certificate_command(state, deck)} | pert_check network.csv"


def _network_command(state: ProjectState, deck: str) -> str:
    """Returns the command that prints the network of what is left."""
    first = f"cat {deck}"
    if state.rest is not state.plan:
        first = command_line("pert-remaining", deck, "-o", "-")
    return f"{first} | pert arrows" if state.deck.is_of_tasks else first


def into_folder(folder: Path, file: Made) -> str:
    """Writes a file into the folder under a name that is free, and returns that."""
    path = Path(file.name)
    place = free_name(folder, path.stem, path.suffix)
    write_whole(place, file.data)
    return place.name
