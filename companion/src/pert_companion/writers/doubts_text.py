"""Writes what of a state is hard to believe: text and CSV."""

from collections.abc import Sequence

from pert_companion.analysis.plausibility import Doubt
from pert_companion.model.figures import NOTHING, money_cell
from pert_companion.model.lines import csv_bytes
from pert_companion.writers.aligned import aligned
from pert_companion.writers.formula import plain_text

CSV_HEADINGS = ("What", "Code", "Row", "Name", "Figure", "Effect", "Amount")


def to_text(doubts: Sequence[Doubt], heading: str) -> str:
    """Returns the doubts by kind, a row each; `heading` is the first line."""
    lines = [heading]
    for kind in dict.fromkeys(doubt.kind for doubt in doubts):
        own = [doubt for doubt in doubts if doubt.kind is kind]
        lines.append(f"{kind.value.upper()}: {len(own)}")
        rows = [_row(doubt) for doubt in own]
        headings = ("CODE", "ROW", "FIGURE", "EFFECT", "NAME")
        lines.extend(f"  {line}" for line in aligned(headings, rows, "lrlll"))
    if not doubts:
        lines.append("nothing is hard to believe")
    return "".join(f"{line}\n" for line in lines)


def _row(doubt: Doubt) -> tuple[str, ...]:
    row = NOTHING if doubt.row is None else str(doubt.row)
    return doubt.code, row, doubt.figure, doubt.effect, doubt.name


def to_csv(doubts: Sequence[Doubt], scale: int) -> bytes:
    """Returns a row for each doubt as CSV in UTF-8; amounts are in the currency."""
    return csv_bytes([CSV_HEADINGS, *(_csv_cells(doubt, scale) for doubt in doubts)])


def _csv_cells(doubt: Doubt, scale: int) -> tuple[str, ...]:
    row = "" if doubt.row is None else str(doubt.row)
    texts = (doubt.code, row, doubt.name, doubt.figure, doubt.effect)
    return doubt.kind.value, *map(plain_text, texts), money_cell(doubt.amount, scale)
