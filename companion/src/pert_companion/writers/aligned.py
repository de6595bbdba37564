"""Lays rows of texts out in columns, as wide as they need to be."""

from collections.abc import Iterable, Sequence

from pert_companion.writers.text import shown, text_width

GAP = "  "


def aligned(headings: Sequence[str], rows: Iterable[Sequence[str]], right: str) -> list[str]:
    """Returns a heading and a line for each row, without spaces at their ends.

    `right` has a letter for each column: `r` for numbers, which end at the right, and `l`.
    """
    table = [list(headings)]
    for row in rows:
        table.append([shown(cell) for cell in row])
    widths = []
    for column in zip(*table):
        widths.append(max(map(text_width, column)))
    return [_line(row, widths, right) for row in table]


def _line(row: Sequence[str], widths: Sequence[int], right: str) -> str:
    cells = []
    for cell, width, side in zip(row, widths, right):
        space = " " * (width - text_width(cell))
        cells.append(space + cell if side == "r" else cell + space)
    return GAP.join(cells).rstrip()
