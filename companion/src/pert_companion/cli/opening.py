"""How commands open states: with the ledger and the tables next to each deck."""

from collections.abc import Iterable
from dataclasses import replace
from pathlib import Path

from pert_companion.importing.registers import registers_of
from pert_companion.model.ledger import find_ledger
from pert_companion.programs.client import Programs
from pert_companion.state.folder import open_states
from pert_companion.state.project import ProjectState


def opened(paths: Iterable[Path], programs: Programs) -> list[ProjectState]:
    """Returns the states of decks, or of folders of decks by their as-of dates."""
    return [with_tables(state) for state in open_states(paths, programs)]


def with_tables(state: ProjectState) -> ProjectState:
    """Returns a state with what is next to its deck: the ledger, and the tables of the project."""
    return replace(state, ledger=find_ledger(state.path), registers=registers_of(state.path))
