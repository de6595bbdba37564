"""Finds the tables next to a deck."""

from collections.abc import Callable
from pathlib import Path
from typing import TypeVar

from pert_companion.model.registers import Registers, Renames
from pert_companion.model.source import STANDARD_STREAM, Source
from pert_companion.readers.registers import (
    read_changes,
    read_explanations,
    read_packages,
    read_renames,
)

Table = TypeVar("Table")


def registers_of(deck: Path) -> Registers:
    """Returns the tables of a deck: `wing.packages.csv`, or else `packages.csv` in its folder.

    The same holds for `changes`, `renames` and `explanations`. A table that is not there is empty,
    and a deck on standard input has none. `InputError` names the first row that makes no sense.
    """
    if deck == STANDARD_STREAM:
        return Registers()
    return Registers(
        packages=_table(deck, "packages", read_packages, ()),
        changes=_table(deck, "changes", read_changes, ()),
        renames=_table(deck, "renames", read_renames, Renames()),
        explanations=_table(deck, "explanations", read_explanations, ()),
    )


def _table(deck: Path, name: str, read: Callable[[Source], Table], empty: Table) -> Table:
    for path in (deck.with_suffix(f".{name}.csv"), deck.with_name(f"{name}.csv")):
        if path.is_file() and path != deck:
            return read(Source(path, path.read_bytes()))
    return empty
