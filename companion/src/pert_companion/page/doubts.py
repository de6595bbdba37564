"""The section of what is hard to believe: each doubt with its row, its figure and its effect."""

from pert_companion.analysis.plausibility import Doubt
from pert_companion.page.gathering import Gathered
from pert_companion.page.view import Line, Row, Table, plain, title
from pert_companion.page.words import shown

MOST_ROWS = 100
"""Rows of the table; `pert-check-status` prints all."""
HEADS = ("To check", "Task or account", "Row", "What the state says", "What that does")


def doubts_table(gathered: Gathered) -> Table | None:
    """Returns a row for each doubt, or None if there is none."""
    found = gathered.doubts
    if not found:
        return None
    more = len(found) - MOST_ROWS
    caption = f"{len(found)} to check" if more <= 0 else f"The first {MOST_ROWS} of {len(found)}"
    return Table(caption, HEADS, tuple(map(_row, found[:MOST_ROWS])), texts=(1, 3, 4))


def _row(doubt: Doubt) -> Row:
    place = plain("\u2013" if doubt.row is None else str(doubt.row))
    texts = title(shown(doubt.figure)), title(shown(doubt.effect))
    return Row(plain(doubt.kind.value), (_name(doubt), place, *texts))


def _name(doubt: Doubt) -> Line:
    """Returns the code and the name of a task or an account."""
    return (
        (*plain(f"{doubt.code} "), *title(shown(doubt.name))) if doubt.name else plain(doubt.code)
    )
