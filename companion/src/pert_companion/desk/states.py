"""States of a project: what was saved as of a date, what was there before each save, other decks.

A state is a deck with its side file and ledger in `wing.states/2026-04-30.csv` next to `wing.csv`,
so that `pert-compare wing.states` goes over them all.
"""

import re
from dataclasses import dataclass
from datetime import date
from pathlib import Path

from pert_companion.analysis.actuals import ONE_DAY
from pert_companion.analysis.compare import compare
from pert_companion.desk.amounts import read_day
from pert_companion.desk.edits import DATA_DATE, Edit, with_edits
from pert_companion.desk.errors import DeskError, MissingError
from pert_companion.desk.listing import HIDDEN, decks_of, name_of
from pert_companion.desk.projects import OpenProject, command_line
from pert_companion.desk.saving import Files, files_of
from pert_companion.desk.views import Json, day_json
from pert_companion.importing.registers import registers_of
from pert_companion.model.figures import days_text
from pert_companion.model.ledger import find_ledger
from pert_companion.model.output import write_together
from pert_companion.state.project import ProjectState, open_state
from pert_companion.writers import compare_text

OPENED = "opened"
_AS_OF = re.compile(rb"^\"?ASOF\"?,\"?([0-9]{4}-[0-9]{2}-[0-9]{2})", re.MULTILINE)
_PROJECT = re.compile(rb"^(?:\xef\xbb\xbf)?\"?PROJECT\"?,[^,]*,[^,]*,[^,]*,\"?([0-9-]{10})")


@dataclass(frozen=True)
class Kept:
    """A state that a project can be compared with."""

    key: str
    kind: str
    """`opened`, `state`, `before` or `other`."""
    path: Path
    name: str
    as_of: date | None


def states_of(project: OpenProject) -> list[Kept]:
    """Returns the states of a project: as opened, saved states, those before saves, others."""
    path = project.path
    found = [Kept(OPENED, OPENED, path, "as it was opened", project.opened.deck.as_of_day)]
    folders = (("state", states_folder(path)), ("before", before_folder(path)))
    for kind, folder in folders:
        for deck in sorted(folder.glob("*.csv"), reverse=kind == "before"):
            if not deck.name.endswith(".ledger.csv"):
                name = f"before the save of {deck.stem[:10]}, {deck.stem[11:19].replace('-', ':')}"
                found.append(_kept(kind, deck, deck.stem if kind == "state" else name))
    for deck in decks_of(path.parent):
        if deck != path:
            found.append(_kept("other", deck, deck.name))
    return found


def states_folder(deck: Path) -> Path:
    """Returns the folder of the states of a project."""
    return deck.with_suffix(".states")


def before_folder(deck: Path) -> Path:
    """Returns the folder of what was there before each save."""
    return deck.parent / HIDDEN / "before" / deck.stem


def states_json(project: OpenProject) -> Json:
    """Returns the states of a project as JSON has them."""
    states = []
    for kept in states_of(project):
        shown: Json = {
            "id": kept.key,
            "file": kept.path.name,
            "data_date": day_json(None if kept.as_of is None else kept.as_of - ONE_DAY),
            "kind": kept.kind,
            "name": kept.name,
        }
        states.append(shown)
    return {"version": project.version, "states": states}


def _kept(kind: str, deck: Path, name: str) -> Kept:
    return Kept(f"{kind}-{name_of(deck)}", kind, deck, name, _as_of(deck))


def _as_of(deck: Path) -> date | None:
    """Returns the as-of date of a deck by its first card, or its ASOF card."""
    with deck.open("rb") as file:
        beginning = file.read(1 << 16)
    found = _AS_OF.search(beginning) or _PROJECT.search(beginning)
    try:
        return None if found is None else date.fromisoformat(found[1].decode())
    except ValueError:
        return None


def save_state(project: OpenProject, text: str) -> Path:
    """Writes the project as its state of a date, and returns the deck.

    The project itself stays as it is. At another date than its own it has the progress that it has
    now, and the money of its ledger until then.
    """
    day = read_day(text)
    if day is None:
        raise DeskError("name the date of the state")
    books = project.books
    if books.side.data_date != day:
        books = with_edits(books, [Edit(DATA_DATE, day.isoformat())])
        ProjectState(project.programs, books.deck, books.side).plan.check()
    deck = states_folder(project.path) / f"{day.isoformat()}.csv"
    deck.parent.mkdir(exist_ok=True)
    files: Files = files_of(books)
    write_together(files.parts(deck))
    return deck


def comparison_json(project: OpenProject, key: str) -> Json:
    """Returns what `pert-compare` prints on a terminal of a state and the project as it is now."""
    kept = next((each for each in states_of(project) if each.key == key), None)
    if kept is None:
        raise MissingError("there is no such state any more")
    old = _opened(project) if kept.key == OPENED else _with_tables(kept.path, project)
    states = sorted([old, project.state], key=lambda state: state.as_of)
    history = compare(states, on_terminal=True)
    changed = history.comparisons[0]
    minutes = changed.end_moved_minutes
    return {
        "text": compare_text.to_text(history, on_terminal=True),
        "command": "" if kept.key == OPENED else _command(project, kept, states[0] is old),
        "end_moved": days_text(minutes, project.books.side.calendar.day_minutes),
        "changes": [
            {
                "task": each.code,
                "name": each.name,
                "text": f"{each.kind.value}: {each.old} → {each.new}",
            }
            for each in changed.changes
        ],
    }


def _command(project: OpenProject, kept: Kept, is_older: bool) -> str:
    folder = project.path.parent
    old = str(kept.path.relative_to(folder))
    names = [old, project.path.name] if is_older else [project.path.name, old]
    return command_line("pert-compare", *names)


def _with_tables(path: Path, project: OpenProject) -> ProjectState:
    state = open_state(path, project.programs)
    return ProjectState(
        project.programs,
        state.deck,
        state.side,
        state.has_side_file,
        state.path,
        state.data,
        ledger=find_ledger(path),
        registers=registers_of(project.path),
    )


def _opened(project: OpenProject) -> ProjectState:
    books = project.opened
    path = project.path.with_name(f"{project.path.stem} as opened.csv")
    return ProjectState(
        project.programs,
        books.deck,
        books.side,
        books.has_side_file,
        path,
        books.deck.to_bytes(),
        ledger=books.ledger if books.has_ledger else None,
        registers=registers_of(project.path),
    )
