"""What an import takes over from the last one of the same plan: its deck's side file says it."""

from pathlib import Path

from pert_companion.model import deck as decks
from pert_companion.model import fitting
from pert_companion.model.errors import InputError
from pert_companion.model.sidefile import SideFile, side_path


def last_import(path: Path) -> SideFile:
    """Returns the side file of the last import; `InputError` if the deck has none that fits."""
    data = decks.read_bytes(path)
    side = fitting.find(path, decks.parse_deck(data, str(path)), data)
    if side is None:
        raise InputError(f"{path}: there is no {side_path(path)} with what its import was told")
    return side
