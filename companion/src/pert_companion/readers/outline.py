"""Takes the rows of a list apart and builds its outline: which are groups, and which holds each.

Above the headings there may be labels; below them are the rows. The outline comes from the first of
these that the list has: a column of levels, outline codes, names that are indented, a workbook's
own outline, a column of groups, bold rows, or rows in which one cell alone is filled, or nothing
but a number and a name.
"""

from collections import Counter
from collections.abc import Mapping, Sequence
from dataclasses import dataclass, field
from datetime import date

from pert_companion.model.losses import Loss, LossKind
from pert_companion.readers.columns import Head, fields_by_word
from pert_companion.readers.grid import GridRow, clip
from pert_companion.readers.values import SPACES, Cell, Style, Unreadable, day, is_yes, text_of

MOST_LEVELS = 50
_FIELDS_OF_HEADINGS = frozenset(("uid", "id", "code", "name", "cost", "actcost"))
_BLANKS = " \t" + SPACES
LABELS = {
    "name": ("project", "project name", "projekt", "projektname", "plan"),
    "start": ("start", "start date", "project start", "projektstart", "projektbeginn")
    + ("projektanfang", "beginn"),
    "data date": ("status date", "data date", "as of", "stand", "stand vom", "stichtag")
    + ("statusdatum", "datenstand"),
}
"""What the rows above the headings may be labelled with."""
_LABEL_OF = fields_by_word(LABELS)
_MOST_LABEL = 300


@dataclass(frozen=True)
class Row:
    """A row below the headings: its number, and the cell of each field that the list has."""

    number: int
    cells: Mapping[str, Cell]
    indent: int = 0
    """How far its name is indented."""
    is_bold: bool = False
    level: int = 0
    is_lone: bool = False
    """Whether one cell alone is filled, which then is its name."""

    def cell(self, name: str) -> Cell:
        """Returns the cell of a field; an empty text if the list has none."""
        return self.cells.get(name, "")

    def text(self, name: str) -> str:
        """Returns the text of the cell of a field."""
        return text_of(self.cell(name)).strip()

    @property
    def is_like_heading(self) -> bool:
        """Says whether it has a number and a name, or a cost besides, and nothing else."""
        return not self.is_lone and set(self.cells) <= _FIELDS_OF_HEADINGS

    @property
    def where(self) -> str:
        """Returns the place of the row for messages."""
        return f"row {self.number}"

    @property
    def name(self) -> str:
        """Returns its name in one line, without control characters."""
        name = text_of(self.cell("name"))
        if name.isprintable():
            return " ".join(name.split())
        return " ".join("".join(c if c.isprintable() else " " for c in name).split())


@dataclass(frozen=True)
class Labels:
    """What the labelled cells above the headings say, and a note on each other row there."""

    cells: Mapping[str, Cell]
    notes: tuple[str, ...]

    def text(self, label: str) -> str:
        """Returns what a label says, in one line; an empty text if there is no such label."""
        return " ".join(text_of(self.cells.get(label, "")).split())

    def day(self, label: str, style: Style) -> date | None:
        """Returns the day that a label says; None if there is none."""
        try:
            return day(self.cells[label], style) if label in self.cells else None
        except Unreadable:
            return None


@dataclass(eq=False)
class Node:
    """A group or a task of the outline. A group that only a code or a column names has no row."""

    name: str
    row: Row | None
    parent: "Node | None" = None
    wbs: str = ""
    is_group: bool = False


@dataclass
class Outline:
    """The nodes in the order of the list, each after the group that holds it."""

    nodes: list[Node] = field(default_factory=list)
    losses: list[Loss] = field(default_factory=list)
    notes: list[str] = field(default_factory=list)

    def add(self, node: Node) -> Node:
        """Adds a node at the end, and returns it."""
        self.nodes.append(node)
        return node


def is_filled(cell: Cell) -> bool:
    """Says whether a cell holds more than blanks."""
    return not isinstance(cell, str) or bool(cell.strip(_BLANKS))


def filled_columns(row: GridRow) -> list[int]:
    """Returns the columns in which a row holds something."""
    return [at for at, cell in enumerate(row.cells) if is_filled(cell)]


def rows_below(rows: Sequence[GridRow], head: Head) -> tuple[list[Row], list[str]]:
    """Returns the filled rows below the headings, and a note on headings that are repeated."""
    found = []
    repeated = []
    headings = rows[head.position].cells
    for row in rows[head.position + 1 :]:
        filled = filled_columns(row)
        if not filled:
            continue
        if row.cells == headings:
            repeated.append(f"row {row.number} repeats the headings and is not read")
            continue
        found.append(_row(row, head, filled))
    return found, repeated


def _row(row: GridRow, head: Head, filled: Sequence[int]) -> Row:
    at = head.columns["name"]
    cells: dict[str, Cell] = {}
    for name, position in head.columns.items():
        if position < len(row.cells) and is_filled(row.cells[position]):
            cell = row.cells[position]
            cells[name] = cell.strip() if isinstance(cell, str) else cell
    if "group" in head.columns and "group" not in cells:
        cells["group"] = row.merged.get(head.columns["group"], "")
    is_lone = len(filled) == 1 and isinstance(row.cells[filled[0]], str)
    if is_lone:
        at = filled[0]
        cells = {"name": text_of(row.cells[at]).strip()}
    indent = row.indents.get(at, 0)
    if at < len(row.cells):
        indent += _indent_of(row.cells[at])
    return Row(row.number, cells, indent, at in row.bold, row.level, is_lone)


def _indent_of(cell: Cell) -> int:
    if not isinstance(cell, str):
        return 0
    return len(cell) - len(cell.lstrip(_BLANKS))


def column_notes(head: Head) -> list[str]:
    """Returns a note on each column that is not read, and on a list without predecessors."""
    notes = [f"column {heading!r} is not read" for heading in head.unread]
    if not {"pred", "succ"} & set(head.columns):
        notes.append(
            "the list has no column of predecessors: no task waits for another one; "
            "name yours with --column pred=HEADING"
        )
    return notes


def without_heading(rows: Sequence[GridRow], head: Head) -> list[Loss]:
    """Returns a loss for each column that has cells and no heading, with its first cell."""
    headings = rows[head.position].cells
    headed = {at for at, cell in enumerate(headings) if is_filled(cell)}
    first: dict[int, tuple[int, str]] = {}
    counts: dict[int, int] = {}
    for row in rows[head.position + 1 :]:
        filled = filled_columns(row)
        if len(filled) == 1:
            continue
        for at in filled:
            if at not in headed:
                counts[at] = counts.get(at, 0) + 1
                first.setdefault(at, (row.number, text_of(row.cells[at]).strip()))
    losses = []
    for at, (number, text) in sorted(first.items()):
        more = f"; its {counts[at]} cells are not read" if counts[at] > 1 else ""
        why = f"column {at + 1} has no heading{more}"
        losses.append(Loss(LossKind.FIELD, f"row {number}", "", "", clip(text), why))
    return losses


def labels_above(rows: Sequence[GridRow]) -> Labels:
    """Returns what the rows above the headings say."""
    labels: dict[str, Cell] = {}
    notes = []
    for row in rows:
        filled = [cell for cell in row.cells if is_filled(cell)]
        if filled and not _take_labels(filled, labels):
            text = clip(" ".join(" ".join(text_of(cell) for cell in filled).split()))
            notes.append(f"row {row.number} above the headings is not read: {text!r}")
    return Labels(labels, tuple(notes))


def _take_labels(cells: Sequence[Cell], labels: dict[str, Cell]) -> bool:
    """Takes `Stand: 2026-05-07`, or a label and the cell next to it; says whether there was one."""
    is_found = False
    for at, cell in enumerate(cells):
        label, _, rest = text_of(cell)[:_MOST_LABEL].partition(":")
        name = _LABEL_OF.get(" ".join(label.split()).casefold())
        if name is None:
            continue
        value: Cell = rest.strip()
        if value == "" and at + 1 < len(cells):
            value = cells[at + 1]
        if value != "":
            labels.setdefault(name, value)
            is_found = True
    return is_found


def arrange(rows: Sequence[Row], head: Head) -> Outline:
    """Returns the outline of the rows that are groups or tasks."""
    has_group_column = "group" in head.columns
    outline = Outline()
    if "level" in head.columns:
        _by_depth(outline, rows, _levels(outline, rows, head))
    elif "wbs" in head.columns and any(row.text("wbs") for row in rows):
        _by_codes(outline, rows, head)
    elif any(row.indent for row in rows):
        _by_depth(outline, rows, [row.indent for row in rows])
    elif any(row.level for row in rows):
        _by_depth(outline, rows, [row.level for row in rows])
    elif has_group_column:
        _by_column(outline, rows)
        return outline
    else:
        _by_depth(outline, rows, _depths_by_look(rows))
        _note_headings(outline)
    if has_group_column:
        heading = head.headings["group"]
        outline.notes.append(f"column {heading!r} is not read, since the list has an outline")
    return outline


def _levels(outline: Outline, rows: Sequence[Row], head: Head) -> list[int]:
    """Returns the level of each row; one that has none is on the level of the row above it."""
    depths: list[int] = []
    for row in rows:
        text = row.text("level")
        if text.isascii() and text.isdigit() and len(text) <= 2 and int(text) <= MOST_LEVELS:
            depths.append(int(text))
            continue
        depths.append(depths[-1] if depths else 0)
        why = "this is no level; the row is taken to be on the level of the row above it"
        heading = head.headings["level"]
        outline.losses.append(Loss(LossKind.GROUP, row.where, row.name, heading, clip(text), why))
    return depths


def _depths_by_look(rows: Sequence[Row]) -> list[int]:
    """Returns 0 for rows that look like the heading of a group, and 1 for the others."""
    bold = [row.is_bold for row in rows]
    if any(bold) and not all(bold):
        return [0 if row.is_bold else 1 for row in rows]
    return [0 if row.is_lone or row.is_like_heading else 1 for row in rows]


def _note_headings(outline: Outline) -> None:
    for node in outline.nodes:
        row = node.row
        if node.is_group and row is not None and row.is_like_heading and not row.is_bold:
            what = f"{row.where}, {clip(row.name)!r}, has no duration"
            outline.notes.append(f"{what} and is taken for a heading")


def _by_depth(outline: Outline, rows: Sequence[Row], depths: Sequence[int]) -> None:
    """Adds each row below the nearest row above it that is less deep; those are the groups."""
    above: list[tuple[int, Node]] = []
    for position, row in enumerate(rows):
        depth = depths[position]
        while above and above[-1][0] >= depth:
            above.pop()
        parent = above[-1][1] if above else None
        node = outline.add(Node(row.name, row, parent, row.text("wbs").strip(".")))
        is_last = position + 1 == len(rows)
        deeper = not is_last and depths[position + 1] > depth
        if (deeper or is_yes(row.cell("summary"))) and len(above) < MOST_LEVELS:
            node.is_group = True
            above.append((depth, node))


def _by_column(outline: Outline, rows: Sequence[Row]) -> None:
    """Adds each row below the group that its column names."""
    found: dict[str, Node] = {}
    for row in rows:
        name = row.text("group")
        if name and name not in found:
            found[name] = outline.add(Node(name, None, is_group=True))
        outline.add(Node(row.name, row, found.get(name)))


def _by_codes(outline: Outline, rows: Sequence[Row], head: Head) -> None:
    """Adds each row below the group of its outline code without the last part.

    If several tasks have the same code, it names their group.
    """
    codes = [row.text("wbs").strip(".") for row in rows]
    given = [code for code in codes if code]
    counts = Counter(given)
    is_of_groups = len(counts) < len(given)
    parents = {_above(code) for code in given}
    found: dict[str, Node] = {}
    for code, row in zip(codes, rows, strict=True):
        if not code or code.count(".") >= MOST_LEVELS:
            outline.losses.append(_bad_code(row, head, code))
            outline.add(Node(row.name, row))
            continue
        is_group = code in parents or is_yes(row.cell("summary"))
        if counts[code] > 1:
            is_group = row.text("duration") == "" or is_yes(row.cell("summary"))
        if is_group and code not in found:
            parent = _group_of(outline, found, _above(code))
            found[code] = outline.add(Node(row.name, row, parent, code, is_group=True))
        else:
            holder = code if is_of_groups else _above(code)
            own = "" if is_of_groups else code
            outline.add(Node(row.name, row, _group_of(outline, found, holder), own))


def _above(code: str) -> str:
    return code.rpartition(".")[0]


def _group_of(outline: Outline, found: dict[str, Node], code: str) -> Node | None:
    """Returns the group of an outline code; one that no row has is named by its code."""
    missing = []
    while code and code not in found:
        missing.append(code)
        code = _above(code)
    node = found.get(code)
    for lower in reversed(missing):
        node = outline.add(Node(lower, None, node, lower, is_group=True))
        found[lower] = node
    return node


def _bad_code(row: Row, head: Head, code: str) -> Loss:
    why = "no code of the outline; it is put at the top"
    if code:
        why = f"an outline has at most {MOST_LEVELS} levels; it is put at the top"
    heading = head.headings["wbs"]
    return Loss(LossKind.GROUP, row.where, row.name, heading, clip(code), why)
